#!/usr/bin/env python3
"""Mends answers by what a check says of their shape: a record where a tuple or a bare fact stood, and a field's name where its number stood.

usage: shapes.py CHECKED      (a file with what `rt check` printed; run it in the crate's folder)
"""
import os
import re
import sys

SAID = re.compile(r"(?m)^(?:so far: )?(\S+\.antt):(\d+):(\d+): error: [^\n]*\n\s*is built with `record \{ ([^}]*) \}`, not as a tuple")


def close(text, start):
    depth = 0
    for i in range(start, len(text)):
        depth += text[i] in "([{"
        depth -= text[i] in ")]}"
        if depth == 0:
            return i
    return None


def parts(text):
    """The parts of a tuple's text without its brackets, or None where it has one part alone."""
    out, depth, cur = [], 0, ""
    for ch in text:
        if ch == "," and depth == 0:
            out.append(cur.strip())
            cur = ""
            continue
        depth += ch in "([{"
        depth -= ch in ")]}"
        cur += ch
    out.append(cur.strip())
    return [it for it in out if it]


def flat(items, n):
    """n parts: pairs at the end, and else pairs wherever they stand, are laid flat."""
    while len(items) < n:
        for i in [len(items) - 1, *range(len(items) - 1)]:
            it = items[i]
            if it.startswith("(") and close(it, 0) == len(it) - 1:
                inner = parts(it[1:-1])
                if len(inner) > 1:
                    items = items[:i] + inner + items[i + 1:]
                    break
        else:
            return None
    # too many: the last ones go together again
    while len(items) > n:
        items = items[: n - 1] + ["(" + ", ".join(items[n - 1:]) + ")"]
    return items


def main(said):
    text = open(said, encoding="utf-8").read()
    todo = {}
    for m in SAID.finditer(text):
        todo.setdefault(m[1], {})[(int(m[2]), int(m[3]))] = [f.split("=")[0].strip() for f in m[4].split(";") if f.strip()]
    for path, places in todo.items():
        t = open(path, encoding="utf-8").read()
        for (line, col), fields in sorted(places.items(), reverse=True):
            at = 0
            for _ in range(line - 1):
                at = t.index("\n", at) + 1
            at += col - 1
            if at >= len(t) or t[at] != "(":
                # the place may be that of the term after its bracket
                near = t.rfind("(", max(0, at - 2), at + 1)
                if near < 0:
                    print(f"left: {path}:{line}:{col}")
                    continue
                at = near
            end = close(t, at)
            items = flat(parts(t[at + 1:end]), len(fields)) if end else None
            if not items:
                print(f"left: {path}:{line}:{col}: {fields}")
                continue
            new = "record { " + "; ".join(f"{f} = {i}" for f, i in zip(fields, items)) + " }"
            # a tuple is an argument as it stands, and a record too
            t = t[:at] + new + t[end + 1:]
        open(path, "w", encoding="utf-8").write(t)
        print(path)


ONE = re.compile(r"(?m)^(?:so far: )?(\S+\.antt):(\d+):(\d+): error: `([^`]*)`: computed as far as they go, the two types are `record \{(\w+) : ")
FIELD = re.compile(r"(?m)^(?:so far: )?(\S+\.antt):(\d+):(\d+): error: `[^`]*`: record `[^`]*` has no field `([01])`[^\n]*?(?:—|\n) *the fields that can be named here are ([^\n]*)")

FIELD2 = re.compile(r"(?m)^(?:so far: )?(\S+\.antt):(\d+):(\d+): error: `[^`]*`: `[^\n]*\n\s*has no field `([01])`\n\s*its fields are ([^\n]*)")


def wrapped(said):
    """An answer whose goal is a record of one fact: the fact goes into the record."""
    text = open(said, encoding="utf-8").read()
    for m in ONE.finditer(text):
        path, name, field = m[1], m[4], m[5]
        t = open(path, encoding="utf-8").read()
        eq = re.search(rf"(?m)^{re.escape(name)}((?:[ ]+[^\s=]+)*) = ", t)
        if not eq:
            continue
        end = re.search(r"\n(?=\S)|\Z", t[eq.end():]).start() + eq.end()
        body = t[eq.end():end].rstrip()
        if body.startswith("record {"):
            continue
        t = t[:eq.end()] + "record { " + field + " = " + body + " }" + t[eq.end() + len(body):]
        open(path, "w", encoding="utf-8").write(t)
        print(path)


def named(said):
    """A number of a place, where the record has named fields."""
    text = open(said, encoding="utf-8").read()
    todo = {}
    for m in [*FIELD.finditer(text), *FIELD2.finditer(text)]:
        fields = [f for f in re.findall(r"`([^`]+)`", m[5]) if f not in ("before",)]
        todo.setdefault(m[1], []).append((int(m[2]), int(m[3]), fields))
    for path, places in todo.items():
        lines = open(path, encoding="utf-8").read().split("\n")
        for line, col, fields in sorted(places, key=lambda p: (p[0], p[1]), reverse=True):
            l = lines[line - 1]
            for m in re.finditer(r"((?:\.[01])+)(?![\w])", l):
                if m.start() <= col <= m.end() + 1:
                    prefix = l[: m.start()]
                    # the path up to the error is right: number by number
                    seq = m[1].split(".")[1:]
                    skip = max(0, (col - 1 - m.start()) // 2)
                    done, seq = seq[:skip], seq[skip:]
                    i = 0
                    while seq and seq[0] == "1" and i < len(fields) - 1:
                        i, seq = i + 1, seq[1:]
                    if i < len(fields) - 1 and seq and seq[0] == "0" or len(fields) == 1 and seq and seq[0] == "0":
                        seq = seq[1:]
                    new = "".join("." + s for s in [*done, fields[i], *seq])
                    head = re.search(r"[^\s(){},;\[\]]+$", prefix)
                    old_path = (head[0] if head else "") + m[1]
                    new_path = (head[0] if head else "") + new
                    # the same path elsewhere in the file is of the same record where its name is a step's
                    lines[line - 1] = l[: m.start()] + new + l[m.end():]
                    if head and head[0].startswith("c."):
                        lines = [re.sub(r"(?<![\w.])" + re.escape(old_path) + r"(?![\w.])", new_path, x) for x in lines]
                    print(path)
                    break
        open(path, "w", encoding="utf-8").write("\n".join(lines))


MISSING = re.compile(r"(?m)^(?:so far: )?(\S+\.antt):(\d+):(\d+): error: `([^`]*)`: the field `\w+` of [^\n]*\n\s*is missing\n\s*its fields are ([^\n]*)")


PAIR = re.compile(r"(?m)^(?:so far: )?(\S+\.antt):(\d+):(\d+): error: `([^`]*)`: expected type `[^`\n]*\.Asks-returns[^\n]*\n\s*but this has type")


def ensured(path):
    """The names of the promises of the function whose answers stand in this file."""
    part = path.split("proofs/")[-1].split("/")[:-1]
    name = part[-1].lstrip("+")
    for folder, _, files in os.walk("src"):
        for f in files:
            t = open(os.path.join(folder, f), encoding="utf-8").read()
            m = re.search(rf"\bfn {re.escape(name)}\b(?:<[^>]*>)?\(.*?\n\s*\{{\n", t, re.S)
            if m:
                found = re.findall(r"\n\s+ensures (\w+) \{", m[0])
                if found:
                    return found
    return []


def paired(said):
    """An answer that is several facts in a pair, under no record yet."""
    text = open(said, encoding="utf-8").read()
    for m in PAIR.finditer(text):
        path, name = m[1], m[4]
        fields = ensured(path)
        if len(fields) < 2:
            continue
        t = open(path, encoding="utf-8").read()
        eq = re.search(rf"(?m)^{re.escape(name)}((?:[ ]+[^\s=]+)*) = ", t)
        if not eq:
            continue
        end = re.search(r"\n(?=\S)|\Z", t[eq.end():]).start() + eq.end()
        body = t[eq.end():end].rstrip()
        if body.startswith("record {") or body.startswith("let r = "):
            continue
        said_so = [f"r.{'1.' * i}0" if i < len(fields) - 1 else "r" + ".1" * i for i in range(len(fields))]
        new = f"let r = {body} in record {{ " + "; ".join(f"{f} = {s}" for f, s in zip(fields, said_so)) + " }"
        t = t[:eq.end()] + new + t[eq.end() + len(body):]
        open(path, "w", encoding="utf-8").write(t)
        print(path)


def missing(said):
    """An answer of several facts at once: each into its field."""
    text = open(said, encoding="utf-8").read()
    for m in MISSING.finditer(text):
        path, name, fields = m[1], m[4], re.findall(r"`(\w+)`", m[5])
        t = open(path, encoding="utf-8").read()
        eq = re.search(rf"(?m)^{re.escape(name)}((?:[ ]+[^\s=]+)*) = record \{{ {re.escape(fields[0])} = ", t)
        if not eq:
            continue
        end = re.search(r"\n(?=\S)|\Z", t[eq.end():]).start() + eq.end()
        body = t[eq.end():end].rstrip()
        if not body.endswith(" }"):
            continue
        inner = body[:-2]
        said_so = [f"r.{'1.' * i}0" if i < len(fields) - 1 else "r" + ".1" * i for i in range(len(fields))]
        new = f"let r = {inner} in record {{ " + "; ".join(f"{f} = {s}" for f, s in zip(fields, said_so)) + " }"
        start = t.rindex("record {", 0, eq.end())
        t = t[:start] + new + t[eq.end() + len(body):]
        open(path, "w", encoding="utf-8").write(t)
        print(path)


main(sys.argv[1])
missing(sys.argv[1])
paired(sys.argv[1])
wrapped(sys.argv[1])
named(sys.argv[1])
