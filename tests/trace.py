"""Compares the names on docs/TRACE.md with the sources: each definition, function, theorem, edit and test stands where the page says.

Each stale cell is printed with its line, column and row, and with the places where the name is now. The other way round: each
public function of a library and each must-fail edit stands on the page.

Usage: trace.py. Exits with status 1 if a cell is stale, after printing all of them.
"""

import re
import sys
from pathlib import Path

ROOT = Path(__file__).resolve().parent.parent
CRATES = ROOT / "crates"
PAGE = "docs/TRACE.md"
NAMED = ("Definition", "Code", "Proved", "Edits", "Tests")


class Stale(Exception):
    """Why a name of a cell does not hold."""


def read(path):
    return path.read_text(encoding="utf-8")


# ---------------------------------------------------------------------------- the page

def rows():
    """(line, {column: cell}) for each row under a heading with one of the named columns."""
    header = None
    for number, line in enumerate(read(ROOT / PAGE).split("\n"), 1):
        cells = [cell.strip() for cell in re.split(r"(?<!\\)\|", line)[1:-1]]
        if not line.startswith("|"):
            header = None
        elif header is None:
            header = cells
        elif set(line) <= set("|- "):
            continue
        elif set(header[1:]) & set(NAMED) and "Written" not in header:
            yield number, header, cells


# ---------------------------------------------------------------------------- names in the sources

def defines(path, name):
    """Whether a file of antt defines the name: at the start of a line, then its type, its arguments or the line's end."""
    kinds = r"(?:(?:abbrev|unfoldable|pub|record|data|module) )*"
    return re.search(rf"^ *{kinds}{re.escape(name)}(?= |$)", read(path), re.MULTILINE) is not None


def declares(path, name):
    return re.search(rf"\b(?:fn|struct|enum|trait|const) {re.escape(name)}\b", read(path)) is not None


def handed_on(text):
    """(module, name) for each name that a crate's root hands on from a module of its own."""
    return [(module, name.strip()) for module, names in re.findall(r"^pub use (?:crate::)?(\w+)::\{?([\w, \n]+)\}?;", text, re.MULTILINE) for name in names.split(",")]


def elsewhere(pattern, holds, name):
    """The files that have the name now."""
    found = [str(path.relative_to(CRATES)) for path in sorted(CRATES.glob(pattern)) if holds(path, name)]
    return "it is in " + ", ".join(found) if found else "no crate has it"


def check_antt(folder, last, token):
    """crate/File.name, or .name in the last file; gives back crate and file."""
    whole = re.fullmatch(r"(\w+)/(\w+)\.(\S+)", token)
    if not whole and not (token.startswith(".") and last):
        raise Stale("not of the form crate/File.name")
    crate, file, name = whole.groups() if whole else (*last, token[1:])
    path = CRATES / crate / folder / f"{file}.antt"
    if not path.is_file():
        raise Stale(f"there is no crates/{crate}/{folder}/{file}.antt; {name}: " + elsewhere(f"*/{folder}/*.antt", defines, name))
    if not defines(path, name):
        raise Stale(f"crates/{crate}/{folder}/{file}.antt has no {name}; " + elsewhere(f"*/{folder}/*.antt", defines, name))
    return crate, file


def check_code(last, token):
    """crate::name or crate::module::name, or ::name in the last crate and module; gives back crate and module."""
    *parts, name = token.split("::")
    if parts == [""] and last:
        parts = last
    if not name or len(parts) not in (1, 2) or not all(parts):
        raise Stale("not of the form crate::name or crate::module::name")
    crate, files = parts[0], [f"{parts[1]}.rt"] if len(parts) == 2 else ["lib.rt", "main.rt"]
    paths = [CRATES / crate / "src" / file for file in files]
    if len(parts) == 1:
        paths += [root.parent / f"{module}.rt" for root in paths if root.is_file() for module, handed in handed_on(read(root)) if handed == name]
    if not any(path.is_file() and declares(path, name) for path in paths):
        raise Stale(f"not in crates/{crate}/src/{' or '.join(files)}; " + elsewhere("*/src/*.rt", declares, name))
    return parts


def check_edit(last, token):
    """crate/label, a bare label of the last crate, or crate/*; gives back the crate."""
    crate, _, label = token.rpartition("/")
    crate = crate or last
    if not crate:
        raise Stale("not of the form crate/label")
    if not list((CRATES / crate / "must-fail").glob(f"{label}.edit")):
        found = [path.parts[-3] for path in sorted(CRATES.glob(f"*/must-fail/{label}.edit")) if label != "*"]
        raise Stale(f"there is no crates/{crate}/must-fail/{label}.edit; " + ("it is in " + ", ".join(found) if found else "no crate has it"))
    return crate


def check_test(last, token):
    if not (ROOT / "tests" / token).exists() and not (ROOT / token).exists():
        raise Stale("there is no such file, neither in tests/ nor in the repository")
    return token


CHECKS = {"Definition": lambda last, token: check_antt("specs", last, token), "Code": check_code,
          "Proved": lambda last, token: check_antt("proofs", last, token), "Edits": check_edit, "Tests": check_test}


def stale_in(column, cell):
    """(token, why) for each name of a cell that does not hold; the names that do are counted."""
    if not cell:
        return [("", "the cell is empty; say none, and why")], 0
    found, last, held = [], None, 0
    for token in re.findall(r"`([^`]+)`", cell):
        try:
            last = CHECKS[column](last, token)
            held += 1
        except Stale as why:
            found.append((token, str(why)))
            # go on in the file or crate that was meant
            meant = {"Definition": r"(\w+)/(\w+)\.", "Proved": r"(\w+)/(\w+)\.", "Edits": r"(\w+)/"}.get(column)
            match = re.match(meant, token) if meant else None
            if match:
                last = match.groups() if column != "Edits" else match[1]
            elif column == "Code" and not token.startswith("::"):
                last = token.split("::")[:-1]
    return found, held


# ---------------------------------------------------------------------------- the other way round

def expanded(column, cell):
    """The names of a cell in full: crate::name (without its module) or crate/label."""
    crate, names = "", []
    for token in re.findall(r"`([^`]+)`", cell):
        parts = token.split("::" if column == "Code" else "/")
        if len(parts) > 1 and parts[0]:
            crate = parts[0]
        names.append((crate, parts[-1]))
    return names


def public_functions(root):
    """The functions that a library hands out: free ones, methods, those that a public trait asks for, and those of a module that it hands on."""
    text = read(root)
    found = re.findall(r'^ *pub (?:extern "C" )?fn (\w+)', text, re.MULTILINE)
    for trait in re.findall(r"^pub trait .*?^}", text, re.MULTILINE | re.DOTALL):
        found += re.findall(r"\bfn (\w+)", trait)
    for module, name in handed_on(text):
        inside = read(root.parent / f"{module}.rt")
        found += re.findall(rf"^pub fn ({name})\b", inside, re.MULTILINE)
        for methods in re.findall(rf"^impl(?:<[^>]*>)? {name}\b.*?^}}", inside, re.MULTILINE | re.DOTALL):
            found += re.findall(r"^ *pub fn (\w+)", methods, re.MULTILINE)
    return found


def unnamed(page):
    """Public functions of libraries and edits that no row has."""
    named = {column: {name for _, header, cells in page for head, cell in zip(header, cells) if head == column for name in expanded(column, cell)}
             for column in ("Code", "Edits")}
    found = []
    for path in sorted(CRATES.glob("*/src/lib.rt")):
        for name in public_functions(path):
            if (path.parts[-3], name) not in named["Code"]:
                found.append(f"{PAGE}: column Code: no row has the public function {path.parts[-3]}::{name}")
    for path in sorted(CRATES.glob("*/must-fail/*.edit")):
        if not {(path.parts[-3], path.stem), (path.parts[-3], "*")} & named["Edits"]:
            found.append(f"{PAGE}: column Edits: no row has {path.parts[-3]}/{path.stem}")
    return found


# ---------------------------------------------------------------------------- the whole

WRONG = [("Definition", "`table/Check.read_tabel`"), ("Definition", "`table/Chekc.read_table`"), ("Definition", "`read_table`"), ("Definition", ""),
         ("Definition", "`table/Check.read_table`, `.nothing`"), ("Code", "`tree::make_tree`"), ("Code", "`tree::maker::nothing`"),
         ("Code", "`table::read`, `::nothing`"), ("Proved", "`tree/Demand.walk_rigth`"), ("Edits", "`tree/lone_open_leaf`"),
         ("Edits", "`table/three_at_the_value`, `nothing`"), ("Tests", "`compare_nothing.py`")]


def check_itself():
    for column, cell in WRONG:
        if not stale_in(column, cell)[0]:
            sys.exit(f"trace.py: the cell {cell} under {column} is not noticed")


def main():
    check_itself()
    page, found, held = list(rows()), [], 0
    for number, header, cells in page:
        if len(cells) != len(header):
            found.append(f"{PAGE}:{number}: {len(cells)} cells under {len(header)} columns")
            continue
        for column, cell in zip(header, cells):
            if column not in NAMED:
                continue
            stale, good = stale_in(column, cell)
            held += good
            found += [f"{PAGE}:{number}: column {column}, row {cells[0][:60]!r}: `{token}`: {why}" for token, why in stale]
    found += unnamed(page)
    if found:
        sys.exit("\n".join(found))
    if len(page) < 50 or held < 200:
        sys.exit(f"trace.py: only {len(page)} rows with {held} names were found on the page")
    print(f"trace good: {len(page)} rows, {held} names, {len(WRONG)} wrong cells noticed")


main()
