#!/usr/bin/env python3
"""Turns the Proof.antt of an older Rattle, in a crate's proofs/, into Invariants.antt and Answers.antt.

usage: answers.py CRATE NAMES      CRATE: the crate's folder; NAMES: the names.json of `rt check --generated DIR --old-names` in that folder

A goal that the old file answered by `search rules` alone is left to the check. Each other answer keeps its term, with the steps of the
function under today's names. A file that it cannot read stays, with a line 'left: ..'.
"""
import json
import os
import re
import sys

W = r'[^\s(){}.;,@"«»\[\]]+'


def alike(name):
    return re.sub(r"[-_]", "", name).lower()


def blocks(text):
    """The file's top-level items: lists of lines, each beginning with its comments."""
    out, cur = [], []
    for line in text.split("\n"):
        top = line and not line[0].isspace() and line[0] not in ")}]"
        if top and cur and not all(l.startswith("--") or l.startswith("unfolding") or l == "" for l in cur):
            # A further line of the same item: its unfolding line, or an equation of its name.
            head = next((l for l in cur if l and not l.startswith("--") and not l.startswith("unfolding")), "")
            name = re.match(rf"(?:(?:abbrev|pub|unfoldable) +)*({W})", head)
            if name and name[1] == "use":
                name = None
            again = name and (re.match(rf"{re.escape(name[1])}(?:\s|$)", line) or line.startswith("unfolding "))
            if not (again and " : " in head + " : "):
                out.append(cur)
                cur = []
            elif not again:
                out.append(cur)
                cur = []
        cur.append(line)
    if cur:
        out.append(cur)
    return out


def split_args(text):
    """The arguments of an application, each a word or in brackets."""
    out, depth, cur = [], 0, ""
    for ch in text:
        if ch.isspace() and depth == 0:
            if cur:
                out.append(cur)
            cur = ""
            continue
        depth += ch in "([{"
        depth -= ch in ")]}"
        cur += ch
    if cur:
        out.append(cur)
    return out


WORDS = {"well-formed": "well_formed", "type-inv": "type_inv", "good": "well_formed"}


class Steps:
    def __init__(self, said):
        self.parent, self.field, self.call = {}, {}, {}
        for place, parent, (old, new), fn, _x in said["places"]:
            self.parent[place] = parent
            self.field[place] = (old, new)
            self.call[place] = (said["params"].get(fn),) if fn else None
        self.arm = {}
        for (place, *_), arm in zip(said["places"], said["arms"]):
            self.arm[place] = arm

    def path(self, place, fields):
        """c.before..before.step.rest at a place, as today's c.step.rest; None: the place above all."""
        rest, start, depth = list(fields), place, 0
        while rest and rest[0] == "before":
            rest, depth = rest[1:], depth + 1
            if place is not None:
                place = self.parent.get(place)
        if not rest:
            return place, []
        chain = []
        while start is not None:
            chain.append(start)
            start = self.parent.get(start)
        # The place that the path counts to, or else the nearest that has a step of this name.
        for at in sorted(range(len(chain)), key=lambda i: abs(i - depth)):
            old, new = self.field[chain[at]]
            if old and alike(old) == alike(rest[0]):
                arm = self.arm.get(chain[at])
                for it in arm[2] if arm else []:
                    to, was, more = it[0], it[1], it[2] if len(it) > 2 else []
                    if alike(was) == alike(rest[0]) and [alike(x) for x in more] == [alike(x) for x in rest[1:1 + len(more)]]:
                        return chain[at], [arm[0], to] + rest[1 + len(more):]
                return chain[at], [new] + self.lent(chain[at], rest[1:])
        return place, [WORDS.get(rest[0], rest[0]), *rest[1:]]

    def lent(self, place, rest):
        """What a call left in a parameter: by the parameter's name and not its number."""
        call = self.call.get(place)
        if not call or not rest or rest[0] not in ("new", "auto"):
            return rest
        names = call[0]
        if not names:
            return rest
        digits = 0
        while 1 + digits < len(rest) and rest[1 + digits] in ("0", "1"):
            digits += 1
        i, seq = 0, rest[1:1 + digits]
        if not seq:
            return rest
        while seq and seq[0] == "1" and i < len(names) - 1:
            i, seq = i + 1, seq[1:]
        if not seq or seq[0] != "0":
            return rest
        seq = seq[1:]
        return [rest[0], names[i], *seq, *rest[1 + digits:]]


def turn_body(text, var, place, steps, words):
    """Rewrites the paths of the context variable in a term."""
    # What a name stands for: a place, and the fields below it. A `let` of a plain path names one too.
    names = {var: (place, [])}
    dropped = set()
    pat = re.compile(rf'(?<![^\s(){{}},;\[\]])({W})((?:\.{W})+)?')

    def told(head, fields):
        at, below = names[head]
        p, f = steps.path(at, [*below, *fields])
        # Names of the source keep their spelling.
        f = [*f[:1], *[x if re.match(r"(long|known|in|if|loop|field)-", x) else x.replace("-", "_") for x in f[1:]]]
        text = ".".join([var, *f])
        # Where the code tests `!x`, today's fact is of x itself.
        if len(f) == 2 and f[0].startswith("if-not-") and f[1] in ("true", "false"):
            text = f"(ap not {text})"
        return p, f, text

    def one(m):
        head, tail = m[1], m[2]
        if head not in names:
            return m[0]
        fields = tail[1:].split(".") if tail else []
        if not fields:
            return m[0] if head == var or head not in dropped else told(head, [])[2]
        p, f, said = told(head, fields)
        let = re.search(rf"let ({W}) = $", m.string[: m.start()])
        if let and re.match(r"\s+in\b", m.string[m.end():]):
            at, below = names[head]
            names[let[1]] = (at, [*below, *fields])
            if not f or f[-1] == "given" or "-own" in f[-1]:
                dropped.add(let[1])
            return said
        if head != var and head not in dropped:
            base = told(head, [])[2]
            if said.startswith(base + "."):
                return head + said[len(base):]
        return said

    out = pat.sub(one, text)
    # Fields of the repository's own records.
    out = re.sub(r"(?<!let )(?<=[{; \n])([a-z]\w*(?:-\w+)+)(?= = )", lambda m: m[1].replace("-", "_"), out)
    for v in dropped:
        out = re.sub(rf"let {re.escape(v)} = \S+\s+in\s*", "", out)
    return out


FIELDS = {"ranges": "ranges"}


def main(crate, names):
    with open(names, encoding="utf-8") as f:
        said = json.load(f)
    name = os.path.basename(os.path.abspath(crate))
    done = left = 0
    for folder, below, files in os.walk(os.path.join(crate, "proofs")):
        below[:] = [b for b in below if b != "out"]
        if "Proof.antt" not in files:
            continue
        at = os.path.join(folder, "Proof.antt")
        part = os.path.relpath(folder, os.path.join(crate, "proofs"))
        stem = f"Rattle-{name}-proofs." + part.replace("/", ".")
        got = said.get(stem + ".Lts")
        more = [k for k in said if k.startswith(stem + ".Lts")]
        with open(at, encoding="utf-8") as f:
            text = f.read()
        if got is None:
            print(f"left: {at}: names.json has no {stem}.Lts, but {more}")
            left += 1
            continue
        if not re.search(r"tie\.spec", text):
            print(f"left: {at}: walks the code by hand")
            left += 1
            continue
        try:
            invariants, answers = turn(text, got, name, part)
        except ValueError as e:
            print(f"left: {at}: {e}")
            left += 1
            continue
        os.remove(at)
        for file, what in (("Invariants.antt", invariants), ("Answers.antt", answers)):
            if what:
                with open(os.path.join(folder, file), "w", encoding="utf-8") as f:
                    f.write(what)
        if not os.listdir(folder):
            try:
                os.removedirs(folder)
            except OSError:
                pass
        done += 1
    print(f"answers: {name}: {done} turned, {left} left")


def has_word(text, word):
    return re.search(r'(?<![^\s(){}.,;\[\]])' + re.escape(word) + r'(?![^\s(){}.,;\[\]])', text) is not None


def name_of(item):
    return re.match(rf"(?:--[^\n]*\n)*(?:(?:abbrev|pub|unfoldable) +)*({W})", item)[1]


def turn(text, got, crate, part):
    text = re.sub(r"\.«([^»]*)»", r".\1", text)
    # A module's other name, as the `use` line has it.
    for alias in re.findall(r"(?m)^(?:pub |unfoldable )*use \S+ as (\w*_\w*)$", text):
        text = re.sub(rf"(?<![\w-]){re.escape(alias.replace('_', '-'))}(?=\.)", alias, text)
    steps = Steps(got)
    items = blocks(text)
    uses, decls, head = [], [], []
    for it in items:
        code = [l for l in it if not l.startswith("--") and l.strip()]
        if not code:
            head += [l for l in it if l.startswith("--")]
            continue
        comments = [l for l in it[: it.index(code[0])] if l.startswith("--")]
        if re.match(r"(pub |unfoldable )*use ", code[0]):
            if not uses and not decls:
                head += comments
            uses.append(code[0])
            continue
        decls.append((comments, code))
    uses = [u for u in uses if not re.search(r"\.(Statement\.\{statement\}|Tie as tie|Lts as lts|Reads as \S+)$", u) or not u.startswith("use Rattle.")]
    # The last item: the proof itself.
    spec = next((d for d in decls if re.search(r"tie\.spec", "\n".join(d[1]))), None)
    if spec is None:
        raise ValueError("no tie.spec")
    body = "\n".join(spec[1])
    unfold_spec = [l for l in spec[1] if l.startswith("unfolding")]
    m = re.search(r"tie\.spec\b(.*)\)\s*$", body, re.S)
    if not m:
        m = re.search(r"tie\.spec\b(.*)$", body, re.S)
    args = split_args(m[1]) if m else []
    # with a context of lets or lambdas around: give up
    if re.search(r"\blet\b", body.split("tie.spec")[0]):
        raise ValueError("a let around tie.spec")
    decls = [d for d in decls if d is not spec]
    by_name = {}
    for i, (comments, code) in enumerate(decls):
        # A type over several lines stands on one.
        mm = re.match(rf"(?:(?:abbrev|pub|unfoldable) +)*({W})", code[0])
        if mm:
            k = next((j for j, l in enumerate(code) if j and (l.startswith("unfolding") or re.match(rf"{re.escape(mm[1])}(?:\s|$)", l))), None)
            if k and k > 1:
                decls[i] = (comments, [" ".join(l.strip() for l in code[:k]), *code[k:]])
    for d in decls:
        sig = d[1][0]
        mm = re.match(rf"(?:(?:abbrev|pub|unfoldable) +)*({W})(?: \{{[^{{}}]*\}})*\s+:\s*(.*)", sig)
        if mm:
            by_name[mm[1]] = d
    needs, asked = got["needs"], got["asked_at"]
    loops = [a for a in args if a in by_name and re.search(r": tie\.(invariant|decreases|Inv|Measure)", by_name[a][1][0])]
    rest = [a for a in args if a not in loops]
    if len(rest) > len(needs):
        # What is not asked any more, and had the plain answer.
        def plain_answer(a):
            d = by_name.get(a)
            return d and re.search(r"= (search rules|tt)\s*$", "\n".join(d[1]))

        def need_of(a):
            m = a in by_name and re.search(r": tie\.Need-(\S+)", by_name[a][1][0])
            return alike(m[1]) if m else None

        kept, k = [], 0
        for a in rest:
            if k < len(needs) and (need_of(a) == alike(needs[k][0]) or not plain_answer(a)):
                kept.append(a)
                k += 1
            elif len(rest) - len(kept) <= len(needs) - k:
                kept.append(a)
                k += 1
        rest = kept
    if len(rest) != len(needs):
        raise ValueError(f"{len(rest)} answers, {len(needs)} goals now: {[n[0] for n in needs]}")
    answers, inv, used = [], [], set()
    turned = {}
    for a in loops:
        d = by_name[a]
        used.add(a)
        inv.append(turn_loop(d, a, got))
    names_out = []
    for a, (old, new), (place, _np) in zip(rest, needs, asked):
        if a.startswith("("):
            lam = re.match(rf"\(λ ({W})((?: {W})*)\. (.*)\)$", a, re.S)
            if not lam:
                raise ValueError(f"the argument {a[:60]}")
            var, term = lam[1], lam[3]
            if re.fullmatch(r"tt|search rules", term.strip()) and not unfold_spec:
                continue
            term = turn_body(term, var, place, steps, None)
            lines = [f"pub {new} : goal.{new}"] + unfold_spec + [f"{new} {var} = {term}"]
            answers.append("\n".join(lines))
            continue
        if a in ("tt",):
            continue
        if a not in by_name:
            raise ValueError(f"the argument {a}")
        comments, code = by_name[a]
        used.add(a)
        mid = [l for l in code[1:] if l.startswith("unfolding")]
        eqs = [l for l in code[1:] if not l.startswith("unfolding")]
        eq = "\n".join(eqs)
        mm = re.match(rf"{re.escape(a)}((?:\s+(?!=\s){W})*)\s*=\s*(.*)$", eq, re.S)
        if not mm:
            raise ValueError(f"the equation of {a}")
        params = mm[1].split()
        term = mm[2]
        if re.fullmatch(r"\s*(search rules|tt)\s*", term) and not mid:
            continue
        var = params[0] if params else "c"
        term = turn_body(term, var, place, steps, None)
        sep = "\n    " if "\n" in term and not term.startswith("\n") and False else ""
        answers.append("\n".join([*[c for c in comments if not re.match(r"-- src/", c)], f"pub {new} : goal.{new}", *mid, f"{new} {var} = {sep}{term}".rstrip()]))
    # Helpers of the file's own.
    helpers, ihelpers = [], []
    for comments, code in decls:
        mm = re.match(rf"(?:(?:abbrev|pub|unfoldable) +)*({W})", code[0])
        if mm is None:
            raise ValueError("the item " + code[0])
        if mm[1] in used:
            continue
        h = "\n".join([*comments, *code])
        helpers.append(h)
    all_inv = "\n\n".join(inv)
    all_ans = "\n\n".join(answers)
    hs = ""
    kept = []
    need_text = all_ans + all_inv
    for h in reversed(helpers):
        if has_word(need_text, name_of(h)):
            kept.insert(0, h)
            need_text += h
    hs = "\n\n".join(kept)
    if "(ap not c.if-not-" in need_text:
        named = {n.strip() for u in uses for n in re.findall(r"\{(.*)\}", u)[:1] for n in n.split(",")}
        uses += [u for n, u in (("ap", "use mathlib.Core.Path.{ap}"), ("not", "use mathlib.Core.Bool.{not}")) if n not in named]
    path = part.replace("/", ".")
    out_a = out_i = None
    use_of = lambda body: [u for u in uses if keeps(u, body)]
    if inv:
        ih = "\n\n".join(h for h in kept if any(has_word(i, name_of(h)) for i in inv))
        b = (ih + "\n\n" if ih else "") + all_inv
        out_i = "\n".join([*head, *use_of(b), f"use Rattle.{crate}.proofs.{path}.Given as goal", "", b, ""])
    if answers:
        b = (hs + "\n\n" if hs else "") + all_ans
        out_a = "\n".join([*(head if not inv else []), *use_of(b), f"use Rattle.{crate}.proofs.{path}.Goals as goal", "", b, ""])
    return out_i, out_a


def keeps(use, body):
    m = re.match(r"(?:pub |unfoldable )*use [^\s{]+\.\{(.*)\}\s*$", use)
    names = [it.strip().split(" as ")[-1] for it in m[1].split(",")] if m else [use.split()[-1].split(".")[-1]]
    words = set(re.findall(W, body))
    # an operator may stand in parts, and [] is no word
    return any(n in words or "◌" in n or not re.fullmatch(W, n) for n in names)


def turn_loop(d, name, got):
    """An invariant or a measure over the loop's variables, one after another, as one over the record of them."""
    comments, code = d
    eqs = [l for l in code[1:] if not l.startswith("unfolding")]
    mid = [l for l in code[1:] if l.startswith("unfolding")]
    m = re.match(r"(?:(?:abbrev|pub|unfoldable) +)*\S+\s+: tie\.(invariant|decreases)-(\S+)", code[0])
    if not m:
        raise ValueError("the loop's item " + code[0])
    found = [(k, it) for k, it in enumerate(got["loops"]) if alike(it[0][0]) == alike(m[2])]
    if len(found) != 1:
        raise ValueError(f"no loop {m[2]} in {[it[0] for it in got['loops']]}")
    k, ((_old, new), variables) = found[0]
    changed = got["changed"][k]
    eq = re.match(rf"{re.escape(name)}((?:\s+(?!=\s){W})*)\s*=\s*(.*)$", "\n".join(eqs), re.S)
    if not eq:
        raise ValueError("the equation of " + name)
    params = eq[1].split()
    says = [f"l.initial.{v}" if c else f"l.{v}" for v, c in zip(variables, changed)] + [f"l.{v}" for v, c in zip(variables, changed) if c]
    if len(params) != len(says):
        raise ValueError(f"{len(params)} parameters of {name}, {len(says)} now")
    to = dict(zip(params, says))
    body = re.sub(W, lambda w: to.get(w[0], w[0]) if not (w.start() and eq[2][w.start() - 1] == ".") else w[0], eq[2])
    label = f"{m[1]}-{new}"
    return "\n".join([*[c for c in comments if not re.match(r"-- src/", c)], f"abbrev pub {label} : goal.{label}", *mid, f"{label} l = {body}".rstrip()])


if __name__ == "__main__":
    main(sys.argv[1], sys.argv[2])
