"""The commands in the pages under docs/, run in a shell. What each prints is compared with what the page shows below it.

The ```bash block of docs/TABLES.md holds the definitions that the commands use. In a ```console block a line with "$ " is a command, lines with "> " go on
with it, and the others are what it prints. A comment at a command's end, after two spaces, belongs to the page and not to the command.
The crates in docs/ARCHITECTURE.md, their levels and what each uses are compared with crates.txt and with the sources; the theorems in
docs/TRUSTED.md with the proofs.

Usage: doc_commands.py [path of probe [path of mktree]]. Exits with status 1 at the first difference, or if less was compared than LEAST has.
"""

import re
import subprocess
import sys
import tempfile
from dataclasses import dataclass, field
from pathlib import Path

import mktree
import probe

ROOT = Path(__file__).resolve().parent.parent
PAGES = ["TABLES.md", "mktree.md", "probe.md", "ARCHITECTURE.md"]
# A page that loses what is compared must not pass.
LEAST = {"crates": 15, "theorems": 12, "TABLES.md": 90, "mktree.md": 8, "probe.md": 25, "ARCHITECTURE.md": 4}
DEFINED_IN = "TABLES.md"
MARK = "@@ next command @@"


@dataclass
class Command:
    line: int                                   # where it stands in the page, from 1
    text: str
    comment: str
    printed: list = field(default_factory=list)


def blocks(page, info):
    """(line number, line) for each line inside the page's blocks of this sort."""
    inside = None
    for number, line in enumerate((ROOT / "docs" / page).read_text(encoding="utf-8").split("\n"), 1):
        if line.startswith("```"):
            inside = None if inside is not None else line[3:].strip()
        elif inside == info:
            yield number, line


def definitions():
    """The shell function that the commands use. The page's line with PATH would put target/bin before the programs that are tested."""
    return [line for _, line in blocks(DEFINED_IN, "bash") if not line.startswith("PATH=")]


def commands(page):
    """The page's commands, in order."""
    found = []
    for number, line in blocks(page, "console"):
        if line.startswith("$ "):
            text, _, comment = line[2:].partition("  # ")
            found.append(Command(number, text.rstrip(), comment.strip()))
        elif line.startswith("> ") and found and not found[-1].printed:
            found[-1].text += "\n" + line[2:]
        elif not found:
            sys.exit(f"docs/{page}:{number}: {line!r} is printed by no command")
        else:
            found[-1].printed.append(line)
    return found


def outputs(listed, folder):
    """What each command prints. They run in one shell, so that a variable is there in the next command."""
    script = [f"PATH={folder}:$PATH", *definitions()]
    for command in listed:
        script += [command.text, f"printf '%s\\n' '{MARK}'"]
    done = subprocess.run(["bash", "-c", "\n".join(script)], stdin=subprocess.DEVNULL, cwd=ROOT, capture_output=True, text=True)
    parts = done.stdout.split(MARK + "\n")
    if done.stderr or len(parts) != len(listed) + 1:
        sys.exit(f"{len(listed)} commands, {len(parts) - 1} of them ended; on standard error: {done.stderr!r}")
    return [part.split("\n")[:-1] for part in parts[:-1]]


def compare(page, probe_path, mktree_path):
    """Runs a page's commands; gives back how many there are."""
    listed = commands(page)
    if not listed:
        sys.exit(f"docs/{page} has no command")
    with tempfile.TemporaryDirectory() as folder:
        (Path(folder) / "probe").symlink_to(probe_path.resolve())
        (Path(folder) / "mktree").symlink_to(mktree_path.resolve())
        for command, seen in zip(listed, outputs(listed, folder), strict=True):
            if seen != command.printed:
                sys.exit("\n".join([f"docs/{page}:{command.line}: {command.text}", "the page shows:", *command.printed,
                                    "it prints:", *seen]))
    return len(listed)


# ---------------------------------------------------------------------------- the crates

def crates():
    """What each crate depends on, by crates.txt."""
    lines = (ROOT / "crates.txt").read_text(encoding="utf-8").split("\n")
    pairs = [line.split(":") for line in lines if line and not line.startswith("#")]
    # a name may have words after it, as a static library has
    return {said.split()[0]: set(rest.split()) for said, rest in pairs}


def called(crate, names):
    """The crates whose functions or types the code of a crate uses; lines for contracts and proofs do not count, nor what the prover is told."""
    found = set()
    for path in sorted((ROOT / "crates" / crate / "src").glob("*.rt")):
        for line in re.sub(r"#!?\[tactic\b.*?\]", "", path.read_text(encoding="utf-8"), flags=re.DOTALL).split("\n"):
            if not line.lstrip().startswith(("ghost", "//", "requires", "ensures")):
                found.update(re.findall(r"(?<![\w:])(\w+)::", line))
    return found & names - {crate}


def check_crates():
    """The table and the levels on the page are true."""
    depends = crates()
    names = set(depends).union(*depends.values())
    page = (ROOT / "docs" / "ARCHITECTURE.md").read_text(encoding="utf-8")
    rows = re.findall(r"^\| `(\w+)` \|.*\|(.*)\|(.*)\|$", page, re.MULTILINE)
    rows = {name: [set(re.findall(r"\w+", cell)) for cell in cells] for name, *cells in rows}
    if set(rows) != set(depends):
        sys.exit(f"docs/ARCHITECTURE.md: the crates are {sorted(rows)}, and in crates.txt {sorted(depends)}")
    levels = {name: int(level) for level, line in re.findall(r"^level (\d+) +(.*)$", page, re.MULTILINE) for name in line.split()}
    for name, (calls, cites) in rows.items():
        if calls != called(name, names):
            sys.exit(f"docs/ARCHITECTURE.md: {name} calls {sorted(called(name, names))}")
        if calls & cites or calls | cites != depends[name]:
            sys.exit(f"docs/ARCHITECTURE.md: {name} depends on {sorted(depends[name])} in crates.txt")
        if any(levels[name] <= levels[other] for other in depends[name] & set(depends)):
            sys.exit(f"docs/ARCHITECTURE.md: {name} uses a crate that is not on a lower level")
    return len(rows)


def check_theorems():
    """Each theorem that docs/TRUSTED.md names stands in the file that it names."""
    page = (ROOT / "docs" / "TRUSTED.md").read_text(encoding="utf-8")
    lists = re.findall(r"`(\w+/proofs/\w+\.antt)`: ([^|]*?)(?=; `\w+/proofs/| \|)", page)
    named = [(path, name) for path, names in lists for name in re.findall(r"`([\w-]+)`", names)]
    for path, name in named:
        text = (ROOT / "crates" / path).read_text(encoding="utf-8")
        if not re.search(rf"^ *(unfoldable )?pub (record )?{name}\b", text, re.MULTILINE):
            sys.exit(f"docs/TRUSTED.md: {path} has no {name}")
    return len(named)


def check(probe_path, mktree_path):
    """Compares everything, and gives back the line that says how much it was."""
    counts = {"crates": check_crates(), "theorems": check_theorems()}
    counts |= {page: compare(page, probe_path, mktree_path) for page in PAGES}
    probe.require_enough(counts, LEAST)
    commands_of = ", ".join(f"{counts[page]} in docs/{page}" for page in PAGES)
    return f"doc_commands good: commands: {commands_of}; of docs/ARCHITECTURE.md {counts['crates']} crates, of docs/TRUSTED.md {counts['theorems']} theorems"


def main():
    print(check(probe.path_from_arguments(), mktree.path_from_arguments(2)))


if __name__ == "__main__":
    main()
