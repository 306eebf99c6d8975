#!/usr/bin/env python3
"""Behind snake_names.py, once: fields get their plain names back, and definitions the names that claims and lemmas had taken from them.

usage: tools/plain_names.py NAMES      at the top of the repository; NAMES: the table that snake_names.py --list wrote

snake_names.py keeps names apart by their text alone. A field stands behind a dot, in its record and in a literal, so it falls together with no
definition; and of a definition and a theorem about it the definition has the plain name.
"""
import os
import re
import sys

TOKEN = re.compile(r"[^\s(){}\[\],;.\"`«»]+")
SWAPPED = ["asset_of", "component_tag_of", "content_of", "fragment_of", "header_of", "scramble_control_of", "scramble_info_of", "service_id_of"]
OTHERS = {"control_state_of_lem": "control_state_in", "held_object_of_lem": "held_object_at", "place_for_of_lem": "place_for_asset", "table_id_of_lem": "table_id_of_key"}


def snake(name):
    return re.sub(r"(?<=[a-z0-9'])(?=[A-Z])", "_", name).replace("-", "_").lower()


def antt_files():
    for c in sorted(os.listdir("crates")):
        for b in ("specs", "proofs"):
            for folder, dirs, names in os.walk(os.path.join("crates", c, b)):
                for n in sorted(names):
                    if n.endswith(".antt"):
                        yield os.path.join(folder, n)


def rt_files():
    for folder, dirs, names in os.walk("crates"):
        dirs[:] = sorted(d for d in dirs if d != "out")
        for n in sorted(names):
            if n.endswith(".rt"):
                yield os.path.join(folder, n)


def read(p):
    with open(p, encoding="utf-8") as f:
        return f.read()


def field_lines(text):
    """The lines that declare a field: those behind a record's head that stand further in than it."""
    head = None
    for k, line in enumerate(text.split("\n")):
        m = re.match(r"(\s*)(?:pub )?record ", line)
        depth = len(line) - len(line.lstrip())
        if m and not line.lstrip().startswith("record {"):
            head = len(m.group(1))
            continue
        if line.strip() and head is not None and depth <= head:
            head = None
        m = re.match(r"\s+(?:pub )?([^\s(){}\[\],;.:]+) :", line)
        if head is not None and m:
            yield k, m.group(1)


def main():
    table = dict(l.split() for l in open(sys.argv[1]))
    suffixed = {n: snake(o) for o, n in table.items() if n != snake(o)}
    fields = {}
    for p in antt_files():
        for _, n in field_lines(read(p)):
            if n in suffixed:
                fields[n] = suffixed[n]
    bare = dict(OTHERS)
    for n in SWAPPED:
        bare[n], bare[n + "_lem"] = n + "_lem", n

    def turn(text, declared):
        out = []
        for k, line in enumerate(text.split("\n")):
            code, comment = line, ""
            m = re.match(r"^((?:[^\"-]|\"[^\"]*\"|-(?!- ))*?)(--( wrong:)? .*)$", line)
            if m:
                code, comment = m.group(1), m.group(2)
                if m.group(3):
                    code, comment = line, ""

            def put(x, code=code):
                t, a, b = x.group(0), x.start(), x.end()
                if t in fields:
                    before, behind = code[:a].rstrip(), code[b:]
                    if code[a - 1 : a] == "." and not re.search(r"(?:^|[\s(])(?:Rattle|[A-Z]\w*)\.$", code[:a]):
                        return fields[t]
                    if k in declared and re.match(r"\s+(?:pub )?$", code[:a]):
                        return fields[t]
                    if re.match(r"\s*=(?!=)", behind) and (before.endswith(("{", ";")) or (not before and code[:1] == " ")):
                        return fields[t]
                # behind a dot stands a field, a step of the code or a module
                return t if code[a - 1 : a] == "." else bare.get(t, t)

            parts = re.split(r"(\"[^\"]*\")", code)
            if len(parts) == 1:
                code = TOKEN.sub(put, code)
            else:
                code = "".join(x if i % 2 else TOKEN.sub(lambda y, x=x: put(y, x), x) for i, x in enumerate(parts))
            out.append(code + comment)
        return "\n".join(out)

    for p in antt_files():
        t = read(p)
        u = turn(t, {k for k, n in field_lines(t) if n in suffixed})
        if u != t:
            open(p, "w", encoding="utf-8").write(u)
    for p in rt_files():
        t = read(p)
        u = []
        for line in t.split("\n"):
            if re.match(r"ghost use Rattle\.isdb|\s*(requires|ensures)\b|// wrong:", line):
                line = turn(line, set())
            u.append(line)
        u = "\n".join(u)
        if u != t:
            open(p, "w", encoding="utf-8").write(u)
    edits = [os.path.join(f, n) for top in ("tests/edits", "crates/claims/must-fail") for f, _, ns in os.walk(top) for n in ns if n.endswith(".edit")]
    for p in edits:
        t = read(p)
        if "file: specs/" not in t:
            continue
        u = "\n".join(l[:5] + turn(l[5:], set()) if l.startswith(("old: ", "new: ")) else l for l in t.split("\n"))
        if u != t:
            open(p, "w", encoding="utf-8").write(u)
    for p in ["README.md"] + [os.path.join("docs", n) for n in sorted(os.listdir("docs")) if n.endswith(".md") and n != "PORT.md"]:
        t = read(p)
        u = re.sub(r"`[^`\n]*`", lambda x: TOKEN.sub(lambda y: bare.get(y.group(0), y.group(0)), x.group(0)), t)
        if u != t:
            open(p, "w", encoding="utf-8").write(u)


main()
