"""The repository stands alone: no file of it points at a file that is not in it, or says how or where it was made.

Usage: alone.py. Prints every place that it finds, and then exits with status 1.

To extend the list of words, add a line to WORDS: the words as a regular expression (case does not matter), and an
example that it finds.
"""

import fnmatch
import re
import sys
from pathlib import Path

ROOT = Path(__file__).resolve().parent.parent
THIS = Path(__file__).resolve()
LEFT_OUT = {".git", "target", "out", "__pycache__"}

WORDS = [
    (r"\bissues?\b", "as issue 7 asks"),
    (r"\bsessions?\b", "on the session's machine"),
    (r"\bworkplace\b", "in our workplace"),
    (r"\bcommit [0-9a-f]{7,}\b", "see commit 0123abc"),
    (r"\bshared/", "shared/01-scope.md"),
    (r"(?<![\w.$}/-])/(work|home|root|tmp|opt|mnt)\b", "it lies in /work/main"),
    (r"\bdocument 90\b", "as document 90 advises"),
]

# Folders of the repository. In a page, `folder/..` must be there; * and ** stand for any name.
FOLDERS = "bench|crates|data|docs|examples|include|tests|tools|\\.ci"


def files():
    for path in sorted(ROOT.rglob("*")):
        inside = path.relative_to(ROOT)
        if path.is_file() and not LEFT_OUT & set(inside.parts):
            yield inside


def lines_of(path):
    """(number, line) of a text file; nothing for files of words."""
    data = (ROOT / path).read_bytes()
    if b"\0" in data:
        return []
    try:
        return list(enumerate(data.decode("utf-8").split("\n"), 1))
    except UnicodeDecodeError:
        return []


def words_in(line, listed):
    return [found[0] for words, _ in listed for found in re.finditer(words, line, re.IGNORECASE)]


def pages_in(line, names):
    """Names of pages (..md) that no file of the repository has."""
    return [name for name in re.findall(r"[\w./-]*\w\.md\b", line) if name.split("/")[-1] not in names]


def links_in(path, line):
    """Links of a page that lead nowhere."""
    targets = re.findall(r"\]\(([^)#\s]+)[^)]*\)", line)
    return [target for target in targets if "://" not in target and not (ROOT / path.parent / target).exists()]


def paths_in(line, inside):
    """Paths in a page's code that begin with a folder of the repository and are not in it."""
    named = [path for code in re.findall(r"`([^`]+)`", line)
             for path in re.findall(rf"(?<![\w/.*-])((?:{FOLDERS})/[\w./*{{}},-]*)", code)]
    return [pattern for path in named for pattern in spread(path) if not fnmatch.filter(inside, pattern)]


def spread(path):
    """a/{b,c}/d is a/b/d and a/c/d; a folder may end with a slash."""
    found = re.search(r"\{([^}]*)\}", path)
    if found:
        return [one for part in found[1].split(",") for one in spread(path[:found.start()] + part + path[found.end():])]
    return [path.rstrip("/.,")]


def faults(path, number, line, names, inside):
    where = f"{path}:{number}"
    found = [f"{where}: the words {word!r}" for word in words_in(line, WORDS)]
    found += [f"{where}: there is no page {name}" for name in pages_in(line, names)]
    if path.suffix == ".md":
        found += [f"{where}: the link to {target} leads nowhere" for target in links_in(path, line)]
        found += [f"{where}: there is no {name}" for name in paths_in(line, inside)]
    return found


def check_list():
    """Each expression of the list finds its example, and a page's faults are found."""
    for words, example in WORDS:
        if not words_in(example, [(words, example)]):
            sys.exit(f"alone.py: {words} does not find {example!r}")
    page = Path("docs/PAGE.md")
    for line in ("see NOTHING.md", "[a page](nothing.txt)", "in `tests/nothing.py`", "in `crates/{table,nothing}/src`"):
        if not faults(page, 1, line, {"PAGE.md"}, {"crates/table/src"}):
            sys.exit(f"alone.py: nothing is found in {line!r}")


def main():
    check_list()
    all_files = list(files())
    names = {path.name for path in all_files}
    inside = {str(path) for path in all_files} | {str(folder) for path in all_files for folder in path.parents}
    found, looked, lines = [], 0, 0
    for path in all_files:
        if ROOT / path == THIS:
            continue
        text = lines_of(path)
        looked += bool(text)
        lines += len(text)
        found += [fault for number, line in text for fault in faults(path, number, line, names, inside)]
    if looked < 100:
        sys.exit(f"alone.py: only {looked} files were looked at")
    if found:
        sys.exit("\n".join(found))
    print(f"alone good: {looked} files, {lines} lines, {len(WORDS)} expressions")


main()
