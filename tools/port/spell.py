#!/usr/bin/env python3
"""Spells this repository's own definitions and lemmas as today's Rattle does: words in snake case, types and modules in camel case.

usage: spell.py [FOLDER]      (once, after the kit's port.py and before any edit by hand; FOLDER is the top, default the current folder)

    storedCrc, collected-long  ->  stored_crc, collected_long

Two names that would fall together: the definition of specs/ keeps the plain name, and the lemma gets `_lem`. Names that the library
declares and names that Rattle makes stay. In a function's folder of proofs/ only what the file imports from a crate of the repository turns.
It prints the table old, tab, new of what it turned to FOLDER/docs/port-names.tsv.
"""
import collections
import os
import re
import sys

WORD = re.compile(r'[^\s(){}.;,@"«»]+')
DECLARED = re.compile(r'^(?: +(?=(?:abbrev |unfoldable )?pub ))?(?:(?:abbrev|unfoldable|pub|opaque|private|inline) +)*([^\s(){}.;,@"«»:]+)((?: \{[^{}\n]*\})*) :(?: |$)', re.M)
USE = re.compile(r'^(\s*(?:pub |unfoldable |ghost )*use )([^\s;{]+?)(?:\.\{([^{}]*)\})?( as [^\s;]+)?(;?)\s*$', re.M)
OF_A_FUNCTION = ("Proof.antt", "Answers.antt", "Invariants.antt")
# Names that a field or a parameter of the source has beside them.
CHOSEN = {"setTold": "set_told_of", "noneFree": "none_free", "tableId": "table_id_of", "currentNext": "current_next_of"}
MADE = re.compile(r"\.(Tie|Lts|Reads|Statement|Code|TheVariants|Given|Goals|Symbol|Met|TheLaws)$")


def of_function(path):
    return "/proofs/" in path and os.path.basename(path) in OF_A_FUNCTION


def is_old(name):
    bare = name.strip("◌-")
    if name.startswith("◌") or not re.match(r"[^\W\d_]|[≤≡]", bare or " ") or bare[0].isupper():
        return False
    return "-" in bare or bool(re.search(r"[a-z0-9][A-Z]", name)) or "′" in name


def snake(name):
    name = name.replace("′", "'")
    name = re.sub(r"(?<=[a-z0-9])([A-Z])", lambda m: "_" + m[1].lower(), name)
    return name.replace("-", "_")


def files(root):
    for folder, below, names in os.walk(os.path.join(root, "crates")):
        below[:] = sorted(d for d in below if d not in ("out", "must-fail"))
        for f in sorted(names):
            if f.endswith((".antt", ".rt")):
                yield os.path.join(folder, f)


def imported(text, crates):
    """The names that a file imports: those from crates of the repository, and those from elsewhere; and its own modules' other names."""
    own, other, heads = set(), set(), set()
    for m in USE.finditer(text):
        steps = m[2].split(".")
        mine = steps[0] == "Rattle" and len(steps) > 1 and steps[1] in crates
        made = MADE.search(m[2])
        for it in (m[3] or "").split(","):
            it = it.strip()
            if it:
                # What is brought under another name has its own on the `use` line alone.
                if not (mine and " as " in it):
                    (own if mine and not made else other).add(it.split(" as ")[-1])
        if m[4] and not m[3]:
            if mine and not made:
                heads.add(m[4].strip()[3:])
    return own, other, heads


def main():
    root = sys.argv[1] if len(sys.argv) > 1 else "."
    crates = set(os.listdir(os.path.join(root, "crates")))
    texts = {p: open(p, encoding="utf-8").read() for p in files(root)}
    declared = collections.defaultdict(set)
    fields = set()
    for p, t in texts.items():
        if p.endswith(".antt"):
            for m in re.finditer(r"^(?:pub )?record [^\n]*where\n((?: +[^\n]*\n|\n)*)", t, re.M):
                fields |= {f for f in re.findall(r"^ +(?:pub )?([^\s(){}.;,@]+) :", m[1], re.M) if is_old(f)}
    for p, t in texts.items():
        if p.endswith(".antt"):
            at = "fn" if of_function(p) else "specs" if "/specs/" in p else "proofs"
            for m in DECLARED.finditer(t):
                declared[m[1]].add(at)
    # Which names fall together, and what each is called then.
    table = {}
    new_of = collections.defaultdict(list)
    library = set()
    for p, t in texts.items():
        if p.endswith(".antt"):
            own, other, _ = imported(t, crates)
            library |= {n for n in other - own if n not in declared}
    for n, where in declared.items():
        if where != {"fn"}:
            new_of[CHOSEN.get(n) or (snake(n) if is_old(n) else n)].append(n)
    for new, olds in new_of.items():
        if new in library:
            # The library has the plain name.
            table.update({n: new + "_lem" for n in olds if n != new})
            continue
        if len(olds) == 1:
            if olds[0] != new:
                table[olds[0]] = new
            continue
        first = sorted(olds, key=lambda n: ("-" in n, "specs" not in declared[n], n))[0]
        for n in olds:
            to = new if n == first else new + "_lem"
            if n != to:
                table[n] = to
    report = []
    for p, t in texts.items():
        own, other, heads = imported(t, crates)
        fn = of_function(p)
        rt = p.endswith(".rt")
        here = {m[1] for m in DECLARED.finditer(t)} if not rt else set()
        words = set(WORD.findall(t))
        turned = {}

        def word(m):
            w = m[0]
            start = m.start()
            before = t[max(0, start - 1):start]
            core = w
            lead = trail = ""
            if rt and not re.fullmatch(r"[\w'-]+", w):
                return w
            if core.startswith("◌"):
                return w
            to = table.get(core)
            line = t[t.rfind("\n", 0, start) + 1:start]
            in_use = bool(re.match(r"\s*(?:pub |unfoldable |ghost )*use ", line))
            if in_use:
                path = re.match(r"\s*(?:pub |unfoldable |ghost )*use (\S*)", line)[1]
                steps = path.split(".")
                if not (steps[0] == "Rattle" and len(steps) > 1 and steps[1].rstrip("{") in crates):
                    return w
                if MADE.search(path.split("{")[0].rstrip(".")):
                    return w
                if " as " in line and line.rstrip().endswith(" as"):
                    to = to or (snake(core) if is_old(core) else None)
                    if to and to in words and core != to:
                        to = to + "_lem"
                elif before == ".":
                    return w
                elif to is None and is_old(core):
                    to = snake(core)
            elif before == ".":
                head = re.search(r'([^\s(){}.;,@"«»]+)\.$', t[max(0, start - 80):start])
                if core in fields:
                    to = table.get(core) or snake(core)
                elif not (head and head[1] in heads):
                    return w
            elif rt and to is None and core in own and is_old(core):
                to = snake(core)
            elif core in other and core not in own:
                return w
            elif fn:
                if core not in own and not (core in here and core in table):
                    return w
                if to is None and is_old(core):
                    to = snake(core)
            elif to is None and is_old(core) and not rt:
                # A name that the file binds for itself, or a constructor.
                to = snake(core)
            if to is None or to == core:
                return w
            turned[core] = to
            return to

        if rt:
            new = re.sub(r"(?<![\w'·-])[A-Za-z][\w'-]*", word, t)
        else:
            new = WORD.sub(word, t)
        for a, b in sorted(turned.items()):
            if b in words and b not in turned and b not in table:
                report.append(f"look: {p}: {a} is now {b}, which the file had")
        if new != t:
            with open(p, "w", encoding="utf-8") as f:
                f.write(new)
    with open(os.path.join(root, "docs", "port-names.tsv"), "w", encoding="utf-8") as f:
        f.writelines(f"{a}\t{b}\n" for a, b in sorted(table.items()))
    print("\n".join(report))
    print(f"spell: {len(table)} names")


main()
