#!/usr/bin/env python3
"""Brings the names of definitions and theorems in README.md and docs/ to today's spelling, inside code spans and blocks.

usage: pages.py      (at the top; docs/PORT.md and docs/port-names.tsv stay)
"""
import glob
import os
import re

WORD = re.compile(r"(?<![\w/·.'-])[a-z][\w'′]*(?:-[\w'′]+)*(?![\w/'-])")
DECLARED = re.compile(r'^ *(?:(?:abbrev|unfoldable|pub|opaque|private|inline) +)*([^\s(){}.;,@"«»:]+)(?: \{[^{}\n]*\})* :(?: |$)', re.M)


def snake(name):
    name = re.sub(r"(?<=[a-z0-9])([A-Z])", lambda m: "_" + m[1].lower(), name.replace("′", "'"))
    return name.replace("-", "_")


def main():
    table = dict(l.rstrip("\n").split("\t") for l in open("docs/port-names.tsv", encoding="utf-8"))
    today = set()
    for kind in ("specs", "proofs"):
        for p in glob.glob(f"crates/*/{kind}/**/*.antt", recursive=True):
            with open(p, encoding="utf-8") as f:
                today |= {m[1] for m in DECLARED.finditer(f.read())}

    def word(m):
        w = m[0]
        old = "-" in w or re.search(r"[a-z0-9][A-Z]", w) or "′" in w
        new = table.get(w, snake(w))
        return new if old and new in today else w

    span = lambda m: m[1] + WORD.sub(word, m[2]) + m[1]
    for p in ["README.md", *glob.glob("docs/**/*.md", recursive=True)]:
        if os.path.basename(p) == "PORT.md":
            continue
        with open(p, encoding="utf-8") as f:
            t = f.read()
        n = re.sub(r"(`+)([^`\n]+)\1", span, t)
        if n != t:
            with open(p, "w", encoding="utf-8") as f:
                f.write(n)
            print(p)


main()
