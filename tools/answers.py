#!/usr/bin/env python3
"""Turns proof files of the older form (Proof.antt with tie.spec) into Invariants.antt and Answers.antt.

usage: python3 tools/answers.py CRATE-FOLDER NAMES.json

NAMES.json is what `rt check --generated FOLDER --old-names` wrote for the crate. A function's Proof.antt goes; answers that a tactic gave alone are left out.
What it can't turn it says in lines 'left:'.
"""
import json
import os
import re
import sys

ID = r"[A-Za-z_][\w'′₀-₉]*(?:-[\w'′₀-₉]+)*"


def norm(s):
    return re.sub(r"_lem(?=\d*$)", "", s.replace("-", "_")).lower()


def split_top(text, sep):
    out, depth, cur = [], 0, ""
    for ch in text:
        if ch in "([{":
            depth += 1
        elif ch in ")]}":
            depth -= 1
        if ch == sep and depth == 0:
            out.append(cur)
            cur = ""
        else:
            cur += ch
    out.append(cur)
    return out


def arguments(text):
    """The arguments of an application, each whole."""
    out, i = [], 0
    while i < len(text):
        if text[i].isspace():
            i += 1
            continue
        start, depth = i, 0
        while i < len(text) and (depth or not text[i].isspace()):
            depth += text[i] in "([{"
            depth -= text[i] in ")]}"
            i += 1
        out.append(text[start:i])
    return out


class Places:
    def __init__(self, d):
        self.d = d
        self.by = {}
        for n, (place, parent, step, _callee, fields) in enumerate(d["places"]):
            self.by[place] = (n, parent, step)
        self.fields = [dict(it[4] or []) for it in d["places"]]

    def chain(self, place):
        out = []
        while place is not None:
            n, parent, step = self.by[place]
            out.append((n, step))
            place = parent
        return out


class Turn:
    def __init__(self, d, name):
        self.places = Places(d)
        self.d = d
        self.name = name
        self.left = []

    def path(self, chain, k, parts):
        """New parts for the old parts after k steps back from the place."""
        if not parts:
            return []
        first, rest = parts[0], parts[1:]
        if first in ("args", "requires", "ranges", "lifetimes", "well_formed", "well-formed"):
            if first == "ranges":
                pass
            return parts
        # what the type of a slice says of its elements
        if rest and rest[0] == "given":
            for depth, (n, step) in enumerate(chain):
                for var, oldstep in (self.d["typed"][n] if self.d["typed"] else []):
                    if norm(oldstep) == norm(first):
                        return ["type_inv", var] + rest[1:]
        rest = ["type_inv" if x == "type-inv" else x for x in rest]
        best = None
        for depth, (n, step) in enumerate(chain):
            arm = self.d["arms"][n]
            if arm:
                for field, oldstep, oldfields in sorted(arm[2], key=lambda x: -len(x[2])):
                    if norm(oldstep) == norm(first) and [norm(x) for x in rest[: len(oldfields)]] == [norm(x) for x in oldfields]:
                        score = (abs(depth - k), -len(oldfields))
                        if best is None or score < best[0]:
                            best = (score, [arm[0], field] + rest[len(oldfields):], arm)
            if step[0] and norm(step[0]) == norm(first):
                score = (abs(depth - k), 0)
                if best is None or score < best[0]:
                    field = [self.places.fields[n].get(rest[0], rest[0])] + rest[1:] if rest else []
                    best = (score, [step[1]] + field, None)
        if best:
            return [x if x != "came" else "branch" for x in best[1]]
        self.left.append(f"{self.name}: no step {first}")
        return parts

    def term(self, text, place, ctx="c"):
        """The term with its paths through the context turned."""
        chain = self.places.chain(place)
        alias = {ctx: 0}
        # let x = c.before.. in
        changed = True
        pattern = re.compile(rf"let ({ID}) = ({ID})((?:\.before)*) in\s*")
        while True:
            for m in pattern.finditer(text):
                if m.group(2) in alias and m.group(1) not in alias:
                    alias[m.group(1)] = alias[m.group(2)] + m.group(3).count(".before")
                    text = text[: m.start()] + text[m.end():]
                    break
            else:
                break
        names = "|".join(sorted(map(re.escape, alias), key=len, reverse=True))

        text = re.sub(r"\.type-inv(?![\w-])", ".type_inv", text)

        def one(m):
            base, befores, tail = m.group(1), m.group(2), m.group(3)
            k = alias[base] + befores.count(".before")
            parts = [x for x in tail.split(".") if x]
            new = self.path(chain, k, parts)
            return ".".join([ctx] + new) if new else ctx

        return re.sub(rf"(?<![\w'′.\-])({names})((?:\.before)*)((?:\.(?:{ID}|\d+))*)(?![\w'′\-])", one, text)


def main(folder, names):
    data = json.load(open(names, encoding="utf-8"))
    crate = os.path.basename(os.path.normpath(folder))
    for key, d in sorted(data.items()):
        m = re.match(rf"Rattle-{crate}-proofs\.(.*)\.Lts$", key)
        if not m:
            continue
        fn = m.group(1)
        path = os.path.join(folder, "proofs", *fn.split("."), "Proof.antt")
        if not os.path.exists(path):
            continue
        turn_file(crate, fn, d, path)


def blocks(text):
    """The file as blocks: comment head, use lines, declarations (each with the comments above it)."""
    lines = text.rstrip("\n").split("\n")
    i, head, uses, decls, comment = 0, [], [], [], []
    while i < len(lines) and lines[i].startswith("--"):
        head.append(lines[i])
        i += 1
    while i < len(lines):
        l = lines[i]
        if l.startswith("use ") or l.startswith("pub use "):
            uses.append(l)
            i += 1
        elif not l.strip():
            i += 1
        elif l.startswith("--"):
            comment.append(l)
            i += 1
        else:
            m = re.match(rf"(?:pub |abbrev |unfoldable )*({ID}|module)", l)
            name = m.group(1) if m else l
            body = [l]
            i += 1
            while i < len(lines):
                n = lines[i]
                if not n.strip():
                    # blank: the declaration goes on only in a module or record
                    j = i
                    while j < len(lines) and not lines[j].strip():
                        j += 1
                    if j < len(lines) and lines[j].startswith(" "):
                        body.append("")
                        i = j
                        continue
                    break
                if n.startswith((" ", ")", "]")) or n.startswith("unfolding") or (re.match(rf"{re.escape(name)}(?![\w'′\-])", n)):
                    body.append(n)
                    i += 1
                else:
                    break
            decls.append((name, comment, body))
            comment = []
    return head, uses, decls


def aligned(args, needs, decls):
    """The arguments without those whose goals are no longer asked: tactics alone, by a cheapest alignment."""
    kinds = {name: re.search(r": tie\.Need-(\S+)", body[0]) for name, _, body in decls}

    def drop(a):
        return 0 if re.fullmatch(r"\(λ [^.]*\.\s+(search rules|omega arith|tt)\)", a) else 20

    def fit(a, need):
        old = norm(need[0])
        if re.fullmatch(ID, a) and kinds.get(a):
            asked = norm(re.sub(r"^overflow-", "", kinds[a].group(1)))
            return 0 if asked == old else 9
        takes = bool(re.match(r"\(λ \S+ (κs|_)\.", a))
        wants = bool(re.search(r"-requires(-\d+)?$", need[0]))
        if takes != wants:
            return 5
        if not drop(a) and need[0].startswith("returns"):
            return 1
        return 0

    m, k = len(args), len(needs)
    best = {(0, 0): (0, [])}
    for i in range(m + 1):
        for j in range(k + 1):
            if (i, j) == (0, 0):
                continue
            options = []
            if i and (i - 1, j) in best:
                cost, way = best[i - 1, j]
                options.append((cost + drop(args[i - 1]), way))
            if i and j and (i - 1, j - 1) in best:
                cost, way = best[i - 1, j - 1]
                options.append((cost + fit(args[i - 1], needs[j - 1]), way + [args[i - 1]]))
            if options:
                best[i, j] = min(options, key=lambda x: x[0])
    return best[m, k][1] if (m, k) in best else args


def turn_file(crate, fn, d, path):
    text = open(path, encoding="utf-8").read()
    head, uses, decls = blocks(text)
    turn = Turn(d, fn)
    left = turn.left
    spec = None
    for name, comment, body in decls:
        if "tie.spec" in "\n".join(body) and body[0].startswith("pub "):
            spec = (name, comment, body)
    if spec is None:
        print(f"left: {crate} {fn}: no tie.spec")
        return
    sbody = "\n".join(spec[2])
    # the lines that open definitions for the whole proof
    ul = []
    for n, l in enumerate(spec[2]):
        if l.startswith("unfolding"):
            ul = [l]
            k = n + 1
            while k < len(spec[2]) and spec[2][k].startswith("    ") and not spec[2][k].strip().startswith("tie"):
                ul.append(spec[2][k])
                k += 1
    at = sbody.index("tie.spec") + len("tie.spec")
    rest = sbody[at:]
    # up to the bracket that closes `(tie.spec`
    depth, end = 0, len(rest)
    for n, ch in enumerate(rest):
        depth += ch in "([{"
        depth -= ch in ")]}"
        if depth < 0:
            end = n
            break
    args = arguments(rest[:end])
    loops = d["loops"]
    needs = d["needs"]
    extra = 2 * len(loops)
    if len(args) > extra + len(needs):
        args = args[:extra] + aligned(args[extra:], needs, decls)
    if len(args) != extra + len(needs):
        left.append(f"{fn}: {len(args)} arguments, {extra} + {len(needs)} wanted: {[n[0] for n in needs]}")
    invariants, answers, helpers = [], [], []
    rename = {}
    loopargs = args[:extra]
    for n, a in enumerate(args[extra:]):
        if n < len(needs) and re.fullmatch(ID, a):
            rename[a] = (needs[n][1], d["asked_at"][n][0])
    inv = {}
    for n, a in enumerate(loopargs):
        # all invariants may come first, or each loop's two together: told by the name
        m = re.match(r"(invariant|decreases)-(.*)$", a)
        if m:
            inv[a] = m.group(1)
    loop_of = {}
    kinds = {}
    for a in loopargs:
        kind = inv.get(a)
        kinds.setdefault(kind, []).append(a)
    for kind, names in kinds.items():
        for n, a in enumerate(names):
            if n < len(loops):
                loop_of[a] = n
    sub_names = {a: f"{inv[a]}-{loops[loop_of[a]][0][1]}" for a in loop_of}

    def names_in(t):
        for a, (new, _) in rename.items():
            t = re.sub(rf"(?<![\w'′.\-]){re.escape(a)}(?![\w'′\-])", new, t)
        return t

    def strip_taken(params):
        return [p for p in params if p not in ("κs",)]

    new_place = dict(zip([it[0] for it in d["places"]], d["places_by_name"]))
    takes = {}
    for name, comment, body in decls:
        m = re.match(rf"{re.escape(name)} :\s+\(({ID}) : tie\.({ID})[^)]*\)", " ".join(x.strip() for x in body))
        if m and m.group(2) in new_place:
            takes[name] = (m.group(1), m.group(2))
        elif m:
            for old in new_place:
                if norm(old) == norm(m.group(2)):
                    takes[name] = (m.group(1), old)

    def with_contexts(text, place, ctx):
        """Calls of helpers that take the context of an earlier place."""
        steps = [place]
        while turn.places.by[steps[-1]][1] is not None:
            steps.append(turn.places.by[steps[-1]][1])
        for helper, (_, at) in takes.items():
            if at in steps:
                back = ".before" * steps.index(at)
                text = re.sub(rf"(?<![\w'′.\-]){re.escape(helper)} {re.escape(ctx)}(?![\w'′.\-])", f"{helper} {ctx}{back}", text)
        return text

    for name, comment, body in decls:
        joined = "\n".join(body)
        if name == spec[0]:
            continue
        if name in takes:
            ctx, at = takes[name]
            out = re.sub(rf"tie\.{ID}[^)]*\)", f"goal.{new_place[at]})", joined, count=1)
            out = turn.term(out, at, ctx)
            helpers.append("\n".join(comment + [names_in(with_contexts(out, at, ctx))]))
            continue
        if name in loop_of:
            n = loop_of[name]
            (old, new), variables = loops[n]
            changed = d["changed"][n] if d["changed"] else []
            k = next(i for i, l in enumerate(body) if re.match(rf"{re.escape(name)} ", l) and i > 0)
            definition = "\n".join(body[k:])
            mm = re.match(rf"{re.escape(name)} (.*?) =(?= |\n|$)", definition, re.S)
            params = arguments(mm.group(1))
            rhs = definition[mm.end():]
            want = list(variables) + [v for v, c in zip(variables, changed) if c]
            if len(params) != len(want):
                left.append(f"{fn}: {name} has {len(params)} parameters, {len(want)} wanted: {want}")
            table = {}
            if len(params) != len(want):
                flag = dict(zip(variables, changed))
                for p in params:
                    v = p.rstrip("₀")
                    table[p] = f"l.initial.{v}" if p != v and flag.get(v) else f"l.{v}"
                params = []
            for i, (p, v) in enumerate(zip(params, want)):
                if i < len(variables):
                    table[p] = f"l.initial.{v}" if changed[i] else f"l.{v}"
                else:
                    table[p] = f"l.{v}"
            table.pop("_", None)
            if table:
                one = "|".join(sorted(map(re.escape, table), key=len, reverse=True))
                rhs = re.sub(rf"(?<![\w'′.\-])({one})(?![\w'′\-₀])(?! = )", lambda m: table[m.group(1)], rhs)
            extra_unf = [l for l in body[1:k] if l.startswith("unfolding")]
            new_name = sub_names[name]
            invariants.append("\n".join(comment + [f"abbrev pub {new_name} : goal.{new_name}"] + extra_unf + [f"{new_name} l ={rhs}"]))
            continue
        if name in rename and re.search(r": tie\.Need", body[0]):
            new, place = rename[name]
            k = next(i for i, l in enumerate(body) if i > 0 and re.match(rf"{re.escape(name)}(?![\w'′\-])", l))
            own = [l for l in body[1:k] if l.strip()]
            definition = "\n".join(body[k:])
            mm = re.match(rf"{re.escape(name)}(.*?)=(?= |\n|$)", definition, re.S)
            params = strip_taken(arguments(mm.group(1)))
            ctx = params[0] if params else "c"
            rhs = with_contexts(turn.term(definition[mm.end():], place, ctx), place, ctx)
            answers.append((new, "\n".join(comment + [f"pub {new} : goal.{new}"] + (own if own else []) + [f"{new} {' '.join(params)} ={names_in(rhs)}"])))
            continue
        if re.search(r": tie\.Need-", body[0]):
            continue
        helpers.append("\n".join(comment + [names_in(x) for x in body]))
    for n, a in enumerate(args[extra:]):
        if n >= len(needs) or re.fullmatch(ID, a):
            if n < len(needs) and not any(x == rename[a][0] for x, _ in answers):
                answers.append((needs[n][1], f"pub {needs[n][1]} : goal.{needs[n][1]}\n{needs[n][1]} c = {a} c"))
            continue
        mm = re.match(rf"\(λ ((?:{ID}|κs|_)(?: (?:{ID}|κs|_))*)\.\s+(.*)\)$", a, re.S)
        new, place = needs[n][1], d["asked_at"][n][0]
        if not mm:
            left.append(f"{fn}: argument {n} ({new}): {a[:60]}")
            continue
        params = strip_taken(mm.group(1).split())
        t = mm.group(2).strip()
        if t in ("search rules", "omega arith", "tt"):
            continue
        rhs = names_in(with_contexts(turn.term(t, place, params[0]), place, params[0]))
        if mm.group(0).startswith("(λ") and "\n" in rhs:
            rhs = "\n    " + rhs
        answers.append((new, "\n".join([f"pub {new} : goal.{new}"] + ul + [f"{new} {' '.join(params)} = {rhs}"])))
    folder = os.path.dirname(path)
    keep = [u for u in uses if not re.search(r"\.(Statement|Tie)(\.|\b| as)", u)]
    module = f"Rattle.{crate}.proofs.{fn}"
    if invariants:
        out = head + keep + [f"use {module}.Given as goal", ""] + ["\n\n".join(invariants)]
        write(os.path.join(folder, "Invariants.antt"), "\n".join(out) + "\n")
    if answers or helpers:
        goals = [f"use {module}.Goals as goal"]
        out = head + keep + goals + [""] + ["\n\n".join(helpers + [x for _, x in answers])]
        write(os.path.join(folder, "Answers.antt"), "\n".join(out) + "\n")
    os.remove(path)
    for l in left:
        print(f"left: {crate} {l}")


def write(path, text):
    # imports that the text doesn't name are dropped
    lines = text.split("\n")
    body = "\n".join(l for l in lines if not l.startswith("use "))
    out = []
    for l in lines:
        m = re.match(r"use (\S+)\.\{(.*)\}$", l)
        if m:
            names = [x.strip() for x in split_top(m.group(2), ",")]
            kept = []
            for x in names:
                word = x.split(" as ")[-1]
                bits = [b for b in word.split("◌") if b] or [word]
                if all(b in body for b in bits):
                    kept.append(x)
            if kept:
                out.append(f"use {m.group(1)}.{{{', '.join(kept)}}}")
            continue
        m = re.match(r"use (\S+) as (\S+)$", l)
        if m and not re.search(rf"(?<![\w.]){re.escape(m.group(2))}\.", body):
            continue
        out.append(l)
    with open(path, "w", encoding="utf-8") as f:
        f.write("\n".join(out))


if __name__ == "__main__":
    main(sys.argv[1], sys.argv[2])
