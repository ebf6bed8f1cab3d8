#!/usr/bin/env python3
"""Brings the texts of the must-fail edits to the spelling of today's files, once, right after tools/respell.py.

usage: python3 tools/turn_edits.py         at the top of the repository; rewrites crates/*/must-fail/*.edit, then lists what does not stand
       python3 tools/turn_edits.py --list  only lists: each 'old:' text that does not stand exactly once in the file that its edit names

It goes by text: names by tools/respelled.tsv, and in files of specs/ what port.py changed there: paths, operators, projections, imports.
What it lists is left to do by hand, with the same wrong meaning.
"""
import glob
import re
import sys

from respell import TABLE, TOKEN, plain, snake, turned

# words of the kit's library that the edits have
KIT = {"Option·getD": "get_or", "negℤ": "neg_ℤ"}
USE = re.compile(r"use ([^{]+)\.\{(.*)\}$")


def read(path):
    with open(path, encoding="utf-8") as f:
        return f.read()


def spelled(text, names, is_antt):
    """The text by today's spelling."""
    if not is_antt:
        return turned(text, {a: b for a, b in names.items() if "-" not in a})
    text = re.sub(r"Rattle·(\w+)(·specs)?\.specs\.", r"Rattle.\1.specs.", text)
    text = re.sub(r"(?<=[{ ])_([^\s_]+)_(?=[,} ])", r"◌\1◌", text)
    # a projection of a name: in brackets of its own, or behind an operator
    text = re.sub(r"\((\w+)((?: \.\w+)+)\)", lambda m: m[1] + m[2].replace(" ", ""), text)
    text = re.sub(r"(?<=[=+*] )(\w+) (?=\.\w)", r"\1", text)
    text = turned(text, names)
    return TOKEN.sub(lambda m: snake(m[0]) if plain(m[0]) else m[0], text)


def imported(old, new, lines):
    """The pair of an import: the names that it adds or drops, in the import that today's file has them in."""
    (path, had), (_, has) = USE.match(old).groups(), USE.match(new).groups()
    had, has = had.split(", "), has.split(", ")
    added, dropped = [n for n in has if n not in had], [n for n in had if n not in has]
    for line in lines:
        it = USE.match(line)
        there = it[2].split(", ") if it else []
        if it and (it[1] == path or not path.startswith("Rattle.") and it[1].startswith("Rattle.std.") and had[0] in there):
            if dropped:
                return line, f"use {it[1]}.{{{', '.join([n for n in there if n not in dropped] + added)}}}"
            return f"use {it[1]}.{{{there[0]}", f"use {it[1]}.{{{', '.join([there[0], *added])}"
    return old, new


def turn(path, names):
    lines, file, out = read(path).split("\n"), "", []
    old = None
    for line in lines:
        kind, _, text = line.partition(": ")
        if kind == "file":
            file = text
        if kind in ("old", "new"):
            text = spelled(text, names, file.endswith(".antt"))
            line = f"{kind}: {text}"
            if kind == "new" and USE.match(old) and USE.match(text):
                today = read(f"{path.split('/must-fail/')[0]}/{file}").split("\n")
                old, text = imported(old, text, today)
                out[-1], line = f"old: {old}", f"new: {text}"
            old = text
        out.append(line)
    return "\n".join(out)


def left(path):
    """Each 'old:' text of an edit that does not stand once in the file, where the pairs before it are applied."""
    file, old, texts = "", "", {}
    for line in read(path).split("\n"):
        kind, _, text = line.partition(": ")
        if kind == "file":
            file = text
            texts.setdefault(file, read(f"{path.split('/must-fail/')[0]}/{file}"))
        elif kind == "old":
            old = text
            if texts[file].count(old) != 1:
                yield f"{path}: {texts[file].count(old)} times: {old}"
        elif kind == "new":
            texts[file] = texts[file].replace(old, text)


def main(argv):
    names = {**dict(l.split("\t") for l in read(TABLE).splitlines()), **KIT}
    edits = sorted(glob.glob("crates/*/must-fail/*.edit"))
    for path in edits:
        # (one that stands is turned already, or needs no turning)
        if "--list" not in argv and any(left(path)):
            text = turn(path, names)
            with open(path, "w", encoding="utf-8") as f:
                f.write(text)
    lost = [it for path in edits for it in left(path)]
    print("\n".join([*lost, f"{len(edits)} edits; {len(lost)} texts do not stand"]))
    return bool(lost)


if __name__ == "__main__":
    raise SystemExit(main(sys.argv[1:]))
