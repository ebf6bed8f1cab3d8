#!/usr/bin/env python3
"""Brings the repository's own definitions and lemmas to snake case, once, right after port.py.

usage: python3 tools/respell.py            at the top of the repository; rewrites .antt and .rt files, and writes tools/respelled.tsv
       python3 tools/respell.py --text FILE..   only names in code spans of these pages, by tools/respelled.tsv

A definition in camel case and a lemma with dashes become snake case. Where a lemma would get the name of a definition, it gets
`_lem`. A name of the kit's library is not touched: it is one that this repository does not declare.
"""
import collections
import os
import re
import sys

TOKEN = re.compile(r"(?<![\w'◌·-])[A-Za-z_◌][\w'◌·-]*")
DECLARED = re.compile(r"^\s*(?:(?:pub|abbrev|unfoldable|mutual)\s+)*([A-Za-z_◌][\w'◌·-]*)\s+:(?:\s|$)", re.M)
# a name that a file of src/ gives to a definition that it brings
ALIAS = re.compile(r"(?<= as )[a-z][a-z0-9]*[A-Z]\w*")
TABLE = "tools/respelled.tsv"
# lemmas that would fall together with a name of the kit's library, in a file that has both
APART = {"bit-and": "bit_and_lem", "bit-or": "bit_or_lem"}


def snake(name):
    return re.sub(r"([a-z0-9])([A-Z])", lambda m: m[1] + "_" + m[2].lower(), name).replace("-", "_")


def plain(name):
    return re.match(r"[a-z]", name) and "·" not in name and snake(name) != name


def files(kinds):
    for folder, dirs, names in os.walk("crates"):
        dirs[:] = sorted(d for d in dirs if d != "out")
        for name in sorted(names):
            if name.endswith(kinds):
                yield os.path.join(folder, name)


def read(path):
    with open(path, encoding="utf-8") as f:
        return f.read()


def is_walk(path):
    return "/proofs/" in path and path.endswith(("/Proof.antt", "/Answers.antt", "/Invariants.antt"))


def code(text):
    return re.sub(r"--.*", "", text)


def table():
    """Old name to new: what the files of specs/ and the lemmas declare, and the variables that they bind."""
    declared, used = set(), collections.Counter()
    for path in files((".antt",)):
        if not is_walk(path):
            text = code(read(path))
            declared.update(DECLARED.findall(text))
    for path in files((".rt",)):
        declared.update(ALIAS.findall(read(path)))
    groups = collections.defaultdict(list)
    for name in sorted(declared):
        if re.match(r"[a-z]", name) and "·" not in name:
            groups[snake(name)].append(name)
    new = {}
    for to, names in groups.items():
        first = [n for n in names if n != to and "-" not in n] or [n for n in names if n == to] or names[:1]
        for name in names:
            if name in APART:
                new[name] = APART[name]
            elif name == first[0]:
                new[name] = to
            else:
                new[name] = to + "_lem"
    return {a: b for a, b in new.items() if a != b}, declared


def turned(text, new, part=None, walk=False):
    def one(m):
        to = new.get(m[0], m[0])
        # behind a dot, a proof of a function has fields of records and generated names, and no lemma
        if walk and to.endswith("_lem") and m.string[m.start() - 1 : m.start()] == ".":
            return m[0]
        return to

    if part is None:
        return TOKEN.sub(one, text)
    return part.sub(lambda m: TOKEN.sub(one, m[0]), text)


def main(argv):
    if argv and argv[0] == "--text":
        new = dict(l.rstrip("\n").split("\t") for l in open(TABLE, encoding="utf-8"))
        span = re.compile(r"`[^`\n]*`|^```.*?^```", re.S | re.M)
        for path in argv[1:]:
            text = read(path)
            out = turned(text, new, span)
            if out != text:
                with open(path, "w", encoding="utf-8") as f:
                    f.write(out)
        return 0
    new, declared = table()
    clash = []
    for path in files((".antt",)):
        tokens = set(TOKEN.findall(code(read(path))))
        back = collections.defaultdict(set)
        for t in tokens:
            back[new.get(t, t)].add(t)
        clash += [f"{path}: {to} <- {sorted(olds)}" for to, olds in back.items() if len(olds) > 1]
    if clash:
        print("\n".join(clash))
        print(f"{len(clash)} names fall together")
    if "--dry" in argv:
        return 0
    kept = dict(l.rstrip("\n").split("\t") for l in open(TABLE, encoding="utf-8")) if os.path.exists(TABLE) else {}
    with open(TABLE, "w", encoding="utf-8") as f:
        f.writelines(f"{a}\t{b}\n" for a, b in sorted({**kept, **new}.items()))
    for path in files((".antt",)):
        text = read(path)
        out = turned(text, new, walk=is_walk(path))
        if out != text:
            with open(path, "w", encoding="utf-8") as f:
                f.write(out)
    for path in files((".rt",)):
        text = read(path)
        out = turned(text, {a: b for a, b in new.items() if re.search("[A-Z]", a)})
        if out != text:
            with open(path, "w", encoding="utf-8") as f:
                f.write(out)
    return 0


if __name__ == "__main__":
    raise SystemExit(main(sys.argv[1:]))
