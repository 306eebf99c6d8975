#!/usr/bin/env python3
"""Turns a crate's walks, proofs/F/Proof.antt over the old Tie, to Invariants.antt and Answers.antt with today's names.

usage: tools/turn_walks.py CRATE NAMES [FUNCTION..]      CRATE: crates/NAME; NAMES: the names.json of `rt check --generated DIR --old-names` there

Answers that only say `search rules` go, since the check tries that and more by itself. What it cannot turn it says, with the file; the line is
then written with the old path, for the check to name.
"""
import json
import os
import re
import sys

TOKEN = re.compile(r"«[^»]*»|[^\s(){}\[\],;.\"«»]+|\.|\s+|[(){}\[\],;\"]")


def flat(s):
    return s.replace("-", "_")


class Lost(Exception):
    pass


class Function:
    def __init__(self, names):
        self.n = names
        self.place = {}
        for i, (p, new) in enumerate(zip(names["places"], names["places_by_name"])):
            self.place.setdefault((p[0], new), i)
        self.parent = []
        index = {}
        for i, p in enumerate(names["places"]):
            self.parent.append(index.get(p[1]) if p[1] is not None else None)
            index[p[0]] = i

    def chain(self, i):
        out = []
        while i is not None:
            out.append(i)
            i = self.parent[i]
        return out

    def path(self, at, befores, rest):
        """The path of today for the old one: c, so many .before, then rest."""
        if not rest:
            raise Lost("a place as a whole")
        # the scripts before took some steps for definitions of their name
        first, last = flat(rest[0].strip("«»")), None
        for first in (first, first.lower(), first[:1].lower() + first[1:], first[2:3].lower() + first[3:], re.sub(r"_(of|lem)$", "", first)):
            try:
                return self.step(first, at, befores, rest)
            except Lost as e:
                last = last or e
        raise last

    def step(self, first, at, befores, rest):
        if first in ("args", "requires", "ranges", "type_inv", "well_formed"):
            return ["c"] + rest
        places, chain = self.n["places"], self.chain(at)
        arms = self.n["arms"]
        best = None
        for depth, i in enumerate(chain):
            p = places[i]
            arm = arms[i] if i < len(arms) else None
            if arm:
                for new, step, old in arm[2]:
                    if flat(step) == first and [flat(x) for x in rest[1 : 1 + len(old)]] == [flat(x) for x in old]:
                        found = ["c", arm[0], new] + rest[1 + len(old) :]
                        cost = (abs(depth - befores), 0)
                        if best is None or cost < best[0]:
                            best = (cost, found)
            if flat(p[2][0]) == first:
                found = ["c", p[2][1]] + rest[1:]
                cost = (abs(depth - befores), 1)
                if best is None or cost < best[0]:
                    best = (cost, found)
        if best is None:
            raise Lost("no step " + rest[0])
        return best[1]


def tokens(text):
    return TOKEN.findall(text)


def turn_paths(text, f, at, say):
    """Rewrites each c.before..step.field; aliases of places are put in first."""
    for _ in range(40):
        m = re.search(r"let (\w+) = (c(?:\.before)+) in\s*", text)
        if not m:
            break
        text = text[: m.start()] + text[m.end() :]
        text = re.sub(r"(?<![\w.'-])" + m.group(1) + r"(?=\.)", lambda _: m.group(2), text)

    def put(m):
        parts = re.findall(r"«[^»]*»|[^.\s]+", m.group(0))
        k = 1
        while k < len(parts) and parts[k] == "before":
            k += 1
        try:
            return ".".join(f.path(at, k - 1, parts[k:]))
        except Lost as e:
            say(f"{e}: {m.group(0)}")
            return m.group(0)

    return re.sub(r"(?<![^\s(){}\[\],;])c(?:\.(?:«[^»]*»|[^\s(){}\[\],;.«»]+))+", put, text)


def blocks(text):
    """The file's declarations: (head lines of use, list of texts)."""
    uses, decls, cur = [], [], []
    for line in text.split("\n"):
        if re.match(r"(pub )?use ", line) and not cur:
            uses.append(line)
            continue
        if line.strip() == "" and cur:
            decls.append("\n".join(cur))
            cur = []
            continue
        if line.strip() or cur:
            cur.append(line)
    if cur:
        decls.append("\n".join(cur))
    # a use line behind a declaration, or comments alone, go with what follows
    out, held = [], ""
    for d in decls:
        lines = d.split("\n")
        while lines and re.match(r"(pub )?use ", lines[0]):
            uses.append(lines.pop(0))
        d = "\n".join(lines)
        if not d:
            continue
        if all(l.startswith("--") for l in lines):
            held += d + "\n"
            continue
        out.append(held + d)
        held = ""
    return uses, out


def used(uses, text):
    """Of the use lines, those of which the text has a name, with those names alone."""
    words = set(re.findall(r"[^\s(){}\[\],;.\"«»]+", text))
    out = []
    for u in uses:
        m = re.match(r"((?:pub )?use [^\s{]+?)\.\{(.*)\}$", u)
        if not m:
            m2 = re.match(r"(?:pub )?use \S+ as (\S+)$", u)
            if m2 and m2.group(1) in words:
                out.append(u)
            continue
        keep = []
        for it in m.group(2).split(", "):
            here = it.split(" as ")[-1]
            if "◌" in here:
                parts = [p for p in here.split("◌") if p]
                if all(p in words for p in parts):
                    keep.append(it)
            elif here in words:
                keep.append(it)
        if keep:
            out.append(m.group(1) + ".{" + ", ".join(keep) + "}")
    return out


def close_args(decl):
    """The arguments of tie.spec, in order."""
    m = re.search(r"tie\.spec\b", decl)
    if not m:
        return []
    rest, args, depth, cur = decl[m.end() :], [], 0, ""
    for ch in rest:
        if ch == "(":
            depth += 1
        if ch == ")":
            depth -= 1
            if depth < 0:
                break
        if depth == 0 and ch in " \n":
            if cur:
                args.append(cur)
            cur = ""
            continue
        cur += ch
    if cur:
        args.append(cur)
    return [re.sub(r"\s+", " ", a) for a in args]


def turn(crate, name, folder, names, said):
    path = os.path.join(folder, "Proof.antt")
    text = open(path, encoding="utf-8").read()

    def say(what):
        said.append(f"{path}: {what}")

    f = Function(names)
    module = f"Rattle.{crate}.proofs." + ".".join(os.path.relpath(folder, os.path.join("crates", crate, "proofs")).split(os.sep))
    needs = {flat(a): (b, names["asked_at"][k]) for k, (a, b) in enumerate(names["needs"])}
    loops = {flat(l[0][0]): (l[0][1], l[1], names["changed"][k]) for k, l in enumerate(names["loops"])}
    uses, decls = blocks(text)
    uses = [u for u in uses if not re.search(r"\.Statement\.\{statement\}$|\.Tie as tie$", u)]
    invariants, answers, others = [], [], []
    for d in decls:
        lines = d.split("\n")
        comments = [l for l in lines if l.startswith("--")]
        lines = [l for l in lines if not l.startswith("--")]
        if re.match(r"pub \S+ :.*statement M", lines[0]):
            unfolding = [l for l in lines if l.startswith("unfolding")]
            args = [a for a in close_args(d) if not re.match(r"^\(λ c( κs)?\. (search rules|tt)\)$", a)]
            inline = [a for a in args if a.startswith("(")]
            if inline:
                everything = close_args(d)
                mine = [a for a in everything if not re.match(r"(invariant|decreases)-", a)]
                if len(mine) == len(names["needs"]):
                    for k, a in enumerate(mine):
                        if a in inline:
                            new, at = names["needs"][k][1], names["asked_at"][k]
                            place = f.place.get((at[0], at[1]))
                            body = re.sub(r"^\(λ c(?: κs)?\. (.*)\)$", r"\1", a)
                            body = turn_paths(body, f, place, say)
                            answers.append("\n".join([f"pub {new} : goal.{new}"] + unfolding + [f"{new} c = {body}"]))
                    continue
                say(f"answers in place: {[(k, a) for k, a in enumerate(everything) if a in inline]} of {len(everything)} {unfolding}")
            continue
        m = re.match(r"(?:abbrev )?(?:pub )?(\S+) : tie\.(invariant|decreases)-(\S+)$", lines[0])
        if m:
            was, kind, loop = m.groups()
            if flat(loop) not in loops:
                say(f"no loop {loop}")
                continue
            new, vs, changed = loops[flat(loop)]
            body = "\n".join(lines[1:])
            eq = re.match(r"(?:unfolding [^\n]*\n)?" + re.escape(was) + r"((?: (?:«[^»]*»|[^\s=]+))*) =", body)
            params = re.findall(r"«[^»]*»|\S+", eq.group(1))
            rhs = body[eq.end() :]
            want = list(vs) + [v for v, c in zip(vs, changed) if c]
            if len(params) != len(want):
                say(f"{kind} of {loop}: {params} against {list(zip(vs, changed))}")
                by = {}
                for p in params:
                    bare = p.strip("«»").rstrip("₀")
                    by[p] = ("l.initial." if p.endswith("₀") else "l.") + (f"«{bare}»" if p.startswith("«") else bare)
            else:
                by = {}
                for k, p in enumerate(params):
                    v = want[k]
                    v = f"«{v}»" if v in ("data", "record", "open", "do", "in", "where", "use", "mod", "as", "module", "ruleset", "elim", "let") else v
                    by[p] = ("l.initial." if k < len(vs) and changed[k] else "l.") + v
            toks, prev, outt = tokens(rhs), "", []
            for t in toks:
                outt.append(by[t] if t in by and prev != "." else t)
                prev = t
            unfolding = [l for l in lines[1:] if l.startswith("unfolding")]
            invariants.append("\n".join(comments + [f"abbrev pub {kind}-{new} : goal.{kind}-{new}"] + unfolding + [f"{kind}-{new} l =" + "".join(outt)]))
            continue
        m = re.match(r"(?:pub )?(\S+) :\s*tie\.Need-(\S+)((?: \S+)*)$", lines[0])
        if m:
            was, need = m.group(1), flat(m.group(2))
            if need not in needs and need.startswith("overflow_"):
                need = need[9:]
            if need not in needs and need.startswith("slice_bounds_"):
                need = "part_" + need[13:]
            if need not in needs:
                say(f"no need {m.group(2)}: has {sorted(needs)}")
                continue
            new, at = needs[need]
            place = f.place.get((at[0], at[1]))
            if place is None:
                say(f"no place {at}")
                continue
            body = "\n".join(lines[1:])
            body = re.sub(r"(?m)^" + re.escape(was) + r" c(?: κs)?(?= )", new + " c", body)
            if re.match(r"^" + re.escape(new) + r" c = search rules$", body):
                continue
            body = turn_paths(body, f, place, say)
            answers.append("\n".join(comments + [f"pub {new} : goal.{new}"] + [body]))
            continue
        others.append(d)
        if "tie." in d:
            say("a declaration over the old records: " + d.split("\n")[0])
    os.remove(path)
    if invariants:
        body = "\n\n".join(invariants)
        with open(os.path.join(folder, "Invariants.antt"), "w", encoding="utf-8") as g:
            g.write("\n".join(used(uses, body) + [f"use {module}.Given as goal"]) + "\n\n" + body + "\n")
    if answers or others:
        body = "\n\n".join(others + answers)
        with open(os.path.join(folder, "Answers.antt"), "w", encoding="utf-8") as g:
            g.write("\n".join(used(uses, body) + [f"use {module}.Goals as goal"]) + "\n\n" + body + "\n")
    return bool(invariants), len(answers)


def main():
    top, table, only = sys.argv[1].rstrip("/"), sys.argv[2], sys.argv[3:]
    crate = os.path.basename(top)
    with open(table) as g:
        names = json.load(g)
    said, n = [], 0
    for folder, dirs, here in os.walk(os.path.join(top, "proofs")):
        dirs.sort()
        if "Proof.antt" not in here:
            continue
        with open(os.path.join(folder, "Proof.antt"), encoding="utf-8") as g:
            if "tie.close" not in g.read():
                said.append(f"{folder}/Proof.antt: no walk over a tie, left as it is")
                continue
        at = ".".join(os.path.relpath(folder, os.path.join(top, "proofs")).split(os.sep))
        if only and at not in only:
            continue
        key = f"Rattle-{crate}-proofs.{at}.Lts"
        if key not in names:
            said.append(f"{folder}/Proof.antt: no names")
            continue
        turn(crate, at, folder, names[key], said)
        n += 1
    print("\n".join(said))
    print(f"{n} walks turned, {len(said)} things to look at")


main()
