#!/usr/bin/env python3
"""Lists by crate what the port renamed: definitions, theorems, lemmas, fields and constructors of specs/ and proofs/.

usage: names.py LANDED      (at the top; LANDED is the commit before the port)

It writes docs/port-renamed.tsv: crate, file, old name, new name. A name is found again in the same file, at the same place among those declared there.
Functions' own folders of proofs/ are left out, since Rattle makes the names there.
"""
import difflib
import os
import re
import subprocess
import sys

DECLARED = re.compile(r"^ *(?:(?:abbrev|unfoldable|opaque|pub|private|inline|ghost) +)*(?:(?:record|data|record type|data type) +)?(?P<name>[^\s(){}.;,:=|\[\]∷\"-][^\s(){}.;,:\"]*)(?: \{[^{}\n]*\})* :(?: |$)", re.M)


def of_function(path):
    return "/proofs/" in path and os.path.basename(path) in ("Proof.antt", "Answers.antt", "Invariants.antt")


def declared(text):
    text = re.sub(r"--.*", "", text)
    return [it["name"] for it in DECLARED.finditer(text)]


def bare(name):
    return re.sub(r"[\W_]", "", re.sub(r"_lem$", "", name)).lower()


def pairs(old, new):
    match = difflib.SequenceMatcher(None, [bare(it) for it in old], [bare(it) for it in new], autojunk=False)
    for kind, a, b, c, d in match.get_opcodes():
        if kind == "equal" or (kind == "replace" and b - a == d - c):
            yield from zip(old[a:b], new[c:d])
        elif kind != "insert":
            yield from ((it, "?") for it in old[a:b])


def main(landed):
    files = subprocess.run(["git", "ls-tree", "-r", "--name-only", landed, "crates"], capture_output=True, text=True, check=True).stdout.split()
    files = [it for it in files if it.endswith(".antt") and not of_function(it)]
    lines, lost = [], 0
    for path in files:
        old = subprocess.run(["git", "show", f"{landed}:{path}"], capture_output=True, text=True, check=True).stdout
        _, crate, inside = path.split("/", 2)
        if not os.path.isfile(path):
            print(f"names: {path} is gone: {len(declared(old))} names", file=sys.stderr)
            continue
        with open(path, encoding="utf-8") as it:
            new = it.read()
        for one, other in pairs(declared(old), declared(new)):
            if other == "?":
                lost += 1
                print(f"names: {path}: {one} is not found again", file=sys.stderr)
            elif one != other:
                lines.append(f"{crate}\t{inside}\t{one}\t{other}\n")
    with open("docs/port-renamed.tsv", "w", encoding="utf-8") as it:
        it.writelines(lines)
    print(f"names: {len(lines)} renamed, {lost} not found again")


if __name__ == "__main__":
    main(*sys.argv[1:])
