#!/usr/bin/env python3
"""Lists each edit of must-fail/ and tests/edits/ whose texts don't stand: applies the pairs in order, each old text must stand exactly once.

usage: texts.py      (at the top)
"""
import glob
import os


def faults(p, crate):
    path, old, texts, pairs = None, None, {}, 0
    for n, l in enumerate(open(p, encoding="utf-8").read().split("\n"), 1):
        if l.startswith("file:"):
            path = f"crates/{crate}/{l[5:].strip()}"
            if not os.path.exists(path):
                yield f"{n}: no file {path}"
                return
            texts.setdefault(path, open(path, encoding="utf-8").read())
        elif l.startswith("old: "):
            old = l[5:]
            if texts[path].count(old) != 1:
                yield f"{n}: stands {texts[path].count(old)} times: {old}"
        elif l.startswith("new: ") or l == "new:":
            if l[5:] == old:
                yield f"{n}: new is old"
            texts[path] = texts[path].replace(old, l[5:], 1)
            pairs += 1
        elif l and not l.startswith("#"):
            yield f"{n}: neither file:, old: nor new:: {l}"
    for path, t in texts.items():
        if t == open(path, encoding="utf-8").read():
            yield f"{path} stays as it was"
    if not pairs:
        yield "no pair"


count = bad = 0
for pat, at in (("crates/*/must-fail/*.edit", 1), ("tests/edits/*/*.edit", 2)):
    for p in sorted(glob.glob(pat)):
        count += 1
        said = list(faults(p, p.split("/")[at]))
        bad += bool(said)
        for s in said:
            print(f"{p}:{s}")
print(f"edits: {count}, of which {bad} don't stand")
