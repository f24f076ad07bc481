#!/usr/bin/env python3
"""Brings the edits of must-fail/ and tests/edits/ to today's spelling, by the words in which their files changed since LANDED.

usage: edits.py LANDED      (the commit before the port, at the top; an edit whose text still stands once stays as it is)
"""
import collections
import difflib
import glob
import os
import re
import subprocess
import sys

W = re.compile(r'[^\s(){}.;,@"«»]+')


def tight(t):
    t = re.sub(r"«([^»]*)»", r"\1", t)
    t = re.sub(r"(?<=[\w)'′₀₁₂]) \.(?=[\w(])", ".", t)
    t = re.sub(r"·", ".", t)
    return t


def plain(t):
    return re.sub(r"[-_′'◌\s()]", "", tight(t)).lower()


def landed(commit, path):
    r = subprocess.run(["git", "show", f"{commit}:{path}"], capture_output=True, text=True)
    return r.stdout if r.returncode == 0 else None


def words_of(old, new):
    """Old word to new, of the lines that are alike."""
    a, b = old.split("\n"), new.split("\n")
    out = collections.defaultdict(collections.Counter)
    m = difflib.SequenceMatcher(None, [plain(l) for l in a], [plain(l) for l in b], autojunk=False)
    for i, j, n in m.get_matching_blocks():
        for k in range(n):
            x, y = W.findall(tight(a[i + k])), W.findall(b[j + k])
            if len(x) == len(y):
                for p, q in zip(x, y):
                    out[p][q] += 1
    return out


def main(commit):
    table = collections.defaultdict(collections.Counter)
    per_file = {}
    for p in subprocess.run(["git", "ls-files", "crates"], capture_output=True, text=True).stdout.split("\n"):
        if p.endswith(".antt") and "/proofs/" not in p or p.endswith(".rt"):
            if not os.path.exists(p):
                continue
            old = landed(commit, p)
            if old is None:
                continue
            per_file[p] = words_of(old, open(p, encoding="utf-8").read())
            for k, v in per_file[p].items():
                table[k].update(v)

    def conv(text, path):
        t = tight(text)
        own = per_file.get(path, {})

        def word(m):
            w = m[0]
            if w in own:
                return own[w].most_common(1)[0][0]
            if w in table:
                return table[w].most_common(1)[0][0]
            return w

        return W.sub(word, t)

    def forms(text, path):
        t = conv(text, path)
        yield t
        yield re.sub(r"(?<=[\s(])\((\w+(?:\.\w+)+)\)", r"\1", t)

    done = left = 0
    for pat, at in (("crates/*/must-fail/*.edit", 1), ("tests/edits/*/*.edit", 2)):
        for p in sorted(glob.glob(pat)):
            crate = p.split("/")[at]
            lines = open(p, encoding="utf-8").read().split("\n")
            out, path, texts, bad, changed = [], None, {}, None, False
            old = None
            form = 0
            for l in lines:
                if l.startswith("file:"):
                    path = f"crates/{crate}/{l[5:].strip()}"
                    out.append(l)
                elif l.startswith("old:"):
                    if not os.path.exists(path):
                        bad = f"no file {path}"
                        break
                    t = texts.setdefault(path, open(path, encoding="utf-8").read())
                    o = l[5:]
                    if t.count(o) == 1:
                        old, form = o, None
                    else:
                        hits = [(k, f) for k, f in enumerate(forms(o, path)) if t.count(f) == 1]
                        if not hits:
                            # the line that is alike
                            near = [x for x in t.split("\n") if plain(x) == plain(o)]
                            if len(near) == 1 and t.count(near[0]) == 1:
                                hits = [(1, near[0])]
                            else:
                                bad = f"{t.count(o)}x {o}"
                                break
                        form, old = hits[0]
                        changed = True
                    out.append("old: " + old)
                elif l.startswith("new:"):
                    n = l[5:]
                    if form is not None:
                        n = list(forms(n, path))[form]
                    elif path.endswith(".antt"):
                        n = conv(n, path)
                        changed = changed or n != l[5:]
                    elif path.endswith(".rt") and re.match(r"\s*(requires|ensures|ghost)", n):
                        n = conv(n, path)
                        changed = changed or n != l[5:]
                    out.append("new: " + n)
                    texts[path] = texts[path].replace(old, n)
                else:
                    out.append(l)
            if bad:
                print(f"left: {p}: {bad}")
                left += 1
            elif changed:
                open(p, "w", encoding="utf-8").write("\n".join(out))
                done += 1
    print(f"edits: {done} turned, {left} left")


main(sys.argv[1])
