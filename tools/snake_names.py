#!/usr/bin/env python3
"""Brings the repository's own definitions and lemmas to the spelling of today's Rattle: words in snake case, types and modules in camel case.

usage: tools/snake_names.py [--list]      at the top of the repository, once, behind port.py

A name that is declared in specs/ or proofs/, or that a `use` line gives by `as`, and that has a dash or a capital inside goes to snake case:
`ipv4Of` to `ipv4_of`, `next-none` to `next_none`. Two names that would fall together, or one that would be a parameter's, a field's or a
local's, stay apart: a definition gets `_of`, a lemma `_lem`. Functions of src/, exported names, strings and what a program reads or writes keep
their names; so do names that a file takes from a library of the kit. --list writes the table and changes nothing.
"""
import os
import re
import sys

NAME = re.compile(r"^[a-z][A-Za-z0-9']*(?:-[A-Za-z0-9']+)*$")
OWN = re.compile(r"^Rattle\.(isdb_tlv|isdb_mmt|isdb_text|isdb_host|stdio|cases|claims|feedlist|feeddump|replay)\b")
TOKEN = re.compile(r"[^\s(){}\[\],;.\"`«»]+")
DECLARED = re.compile(r"^\s*(?:(?:pub|abbrev|unfoldable|mutual) +)*([^\s(){}\[\],;.:]+) *(?::| \{| \()")
GENERATED = re.compile(r"^(returns|invariant|decreases|loop|overflow|bounds|slice_bounds|invariant_of|shape_of)(-.*)?$")


def files(top, ending, *below):
    for c in sorted(os.listdir(os.path.join(top, "crates"))):
        for b in below:
            for folder, dirs, names in os.walk(os.path.join(top, "crates", c, b)):
                dirs[:] = sorted(d for d in dirs if d != "out")
                for n in sorted(names):
                    if n.endswith(ending):
                        yield os.path.join(folder, n)


def read(path):
    with open(path, encoding="utf-8") as f:
        return f.read()


def snake(name):
    s = re.sub(r"(?<=[a-z0-9'])(?=[A-Z])", "_", name)
    return s.replace("-", "_").lower()


def wants(name):
    return bool(NAME.match(name)) and snake(name) != name


def uses(text):
    """Of each `use` line: the module, whether it is the repository's own, and the pairs of what is named and its name here."""
    for m in re.finditer(r"(?m)^ *(?:ghost |pub |unfoldable )*use ([^\s{;]+?)(?:\.\{([^}]*)\}| as (\S+?))?;?$", text):
        path, items, alias = m.group(1), m.group(2), m.group(3)
        pairs = []
        if items is not None:
            for it in items.split(","):
                w = it.split()
                if w:
                    pairs.append((w[0], w[2] if len(w) == 3 and w[1] == "as" else w[0]))
        elif alias:
            pairs.append((path.split(".")[-1], alias))
        yield path, bool(OWN.match(path)), pairs, items is None


def declared(text):
    names = {}
    for line in text.split("\n"):
        if line.lstrip().startswith(("--", "use ", "ghost ", "let ", "|", "λ")):
            continue
        m = DECLARED.match(line)
        if m and wants(m.group(1)):
            names.setdefault(m.group(1), True)
    return names


def is_walk(path):
    return path.endswith("/Proof.antt")


def table(top):
    kinds, walks = {}, {}
    for p in files(top, ".antt", "specs", "proofs"):
        text = read(p)
        for n in declared(text):
            if is_walk(p) and not n.endswith("-spec"):
                walks.setdefault(n, p)
                continue
            kinds.setdefault(n, set()).add("specs" if "/specs/" in p else "proofs")
        for _, own, pairs, _ in uses(text):
            for was, here in pairs:
                if was != here and wants(here):
                    kinds.setdefault(here, set()).add("alias")
    for p in files(top, ".rt", "src"):
        for _, own, pairs, _ in uses(read(p)):
            for was, here in pairs:
                if was != here and wants(here):
                    kinds.setdefault(here, set()).add("alias")
    # parameters and fields of src/, and what the proof files bind by themselves
    taken = set()
    for p in files(top, ".rt", "src"):
        text = re.sub(r"(?m)//.*$", "", read(p))
        for m in re.finditer(r"\bfn \w+(?:<[^>]*>)?\(([^)]*)\)", text):
            taken |= set(re.findall(r"(?:^|,)\s*(?:mut )?([a-z]\w*)\s*:", m.group(1)))
        taken |= set(re.findall(r"(?m)^\s+(?:pub )?([a-z]\w*): [^=;]*,$", text))
    there = set()
    for p in files(top, ".antt", "specs", "proofs"):
        text = re.sub(r"\"[^\"]*\"", '""', re.sub(r"(?m)--.*$", "", read(p)))
        text = re.sub(r"(?m)^ *(?:pub )?use [^\s{;]+", "", text)
        text = re.sub(r"(?<=\S)\.[^\s(){}\[\],;.]+", "", text)
        there |= set(TOKEN.findall(text))
    by_new = {}
    for n in kinds:
        by_new.setdefault(snake(n), []).append(n)
    new = {}
    for s, olds in sorted(by_new.items()):
        # a definition first, then an alias, then a lemma
        olds.sort(key=lambda n: (0 if "specs" in kinds[n] else 1 if "alias" in kinds[n] else 2, n))
        for n in olds:
            w = s
            if w in taken or w in there or w in new.values():
                definition = "specs" in kinds[n] or "alias" in kinds[n]
                w = s + ("_of" if definition and not s.endswith("_of") else "_lem")
            while w in taken or w in there or w in new.values():
                w += "_lem"
            new[n] = w
    return new


def fields(text):
    """The names of records' fields."""
    inside = False
    for line in text.split("\n"):
        if line and not line.startswith(" "):
            inside = bool(re.match(r"(?:pub )?record ", line))
        m = re.match(r"\s+(?:pub )?([^\s(){}\[\],;.:]+) :", line)
        if inside and m:
            yield m.group(1)


def turned(text, new, kept, steps=None):
    """With steps, a projection with a dash is a step of the code and stays, unless it is one of these fields."""

    def put(m):
        t = m.group(0)
        if t in kept or (steps is not None and "-" in t and text[m.start() - 1 : m.start()] == "." and t not in steps):
            return t
        return new.get(t, t)

    return TOKEN.sub(put, text)


def turn_antt(text, new, steps):
    kept = set()
    for path, own, pairs, whole in uses(text):
        if not own and not whole:
            kept |= {here for was, here in pairs if was == here}
    out = []
    for line in text.split("\n"):
        if re.match(r"^ *(?:pub )?use ", line):
            m = re.match(r"^( *(?:pub )?use )([^\s{]+)(.*)$", line)
            if OWN.match(m.group(2)):
                out.append(m.group(1) + m.group(2) + turned(m.group(3), new, set()))
            else:
                out.append(m.group(1) + m.group(2) + re.sub(r"(?<= as )[^\s,}]+", lambda x: new.get(x.group(0), x.group(0)), m.group(3)))
            continue
        code, dash, comment = line, "", ""
        m = re.match(r"^((?:[^\"-]|\"[^\"]*\"|-(?!- ))*?)(-- .*)$", line)
        if m:
            code, comment = m.group(1), m.group(2)
        parts = re.split(r"(\"[^\"]*\")", code)
        code = "".join(x if i % 2 else turned(x, new, kept, steps) for i, x in enumerate(parts))
        if comment.startswith("-- wrong:"):
            parts = re.split(r"(\"[^\"]*\")", comment)
            comment = "".join(x if i % 2 else turned(x, new, kept) for i, x in enumerate(parts))
        else:
            comment = re.sub(r"`[^`]*`", lambda x: turned(x.group(0), new, kept), comment)
            comment = TOKEN.sub(lambda x: new.get(x.group(0), x.group(0)) if re.search(r"[a-z][A-Z]", x.group(0)) else x.group(0), comment)
        out.append(code + comment)
    return "\n".join(out)


def clauses(text):
    """Where the clauses stand: from the brace behind requires, ensures or ghost to the one that closes it."""
    for m in re.finditer(r"(?m)^\s+(?:requires|ensures|ghost)\*?(?: \w+:?)? (\{)", text):
        at, deep = m.start(1), 0
        while True:
            if text[at] == "{":
                deep += 1
            elif text[at] == "}":
                deep -= 1
                if deep == 0:
                    break
            at += 1
        yield m.start(1), at + 1


def turn_rt(text, new):
    kept = set()
    for path, own, pairs, whole in uses(text):
        if not own and not whole:
            kept |= {here for was, here in pairs if was == here}

    def use(m):
        if OWN.match(m.group(2)):
            return m.group(1) + m.group(2) + turned(m.group(3), new, set())
        return m.group(1) + m.group(2) + re.sub(r"(?<= as )[^\s,}]+", lambda x: new.get(x.group(0), x.group(0)), m.group(3))

    text = re.sub(r"(?m)^(ghost use )([^\s{;]+)([^;]*;)", use, text)
    out, last = [], 0
    for a, b in clauses(text):
        out += [text[last:a], turned(text[a:b], new, kept)]
        last = b
    return "".join(out + [text[last:]])


def main():
    top = os.getcwd()
    new = table(top)
    if "--list" in sys.argv:
        for n, w in sorted(new.items()):
            print(n, w)
        return
    own = set()
    for p in files(top, ".antt", "specs", "proofs"):
        own |= set(fields(read(p)))
    for p in files(top, ".antt", "specs", "proofs"):
        t = read(p)
        u = turn_antt(t, new, own if is_walk(p) else None)
        if u != t:
            with open(p, "w", encoding="utf-8") as f:
                f.write(u)
    for p in files(top, ".rt", "src"):
        t = read(p)
        u = turn_rt(t, new)
        if u != t:
            with open(p, "w", encoding="utf-8") as f:
                f.write(u)
    pages = ["README.md"] + [os.path.join("docs", n) for n in sorted(os.listdir("docs")) if n.endswith(".md")]
    for p in pages:
        t = read(p)
        u = re.sub(r"`[^`\n]*`", lambda x: turned(x.group(0), new, set()), t)
        u = re.sub(r"(?m)^    .*$", lambda x: TOKEN.sub(lambda y: new.get(y.group(0), y.group(0)) if re.search(r"[a-z][A-Z]", y.group(0)) else y.group(0), x.group(0)), u)
        if u != t:
            with open(p, "w", encoding="utf-8") as f:
                f.write(u)


main()
