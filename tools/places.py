#!/usr/bin/env python3
"""The places of docs/DESIGN-PASS.md: for a point, each place in crates/*/src as `file:line: name  (what)`, then how many, by kind and by crate.

Usage: tools/places.py POINT [REVISION], at the top of the checkout. POINT is 1 to 8, or all for the counts alone; REVISION is any that git
knows, else the files as they lie there. It knows no name of this repository: what it finds it finds by shape, so that it
works on old sources and on new ones. It finds more than there is: what stays is said on the page.
"""

import difflib
import re
import subprocess
import sys
from collections import Counter, defaultdict
from dataclasses import dataclass, field
from pathlib import Path

SCALARS = {"u8", "u16", "u32", "u64", "usize", "i64", "bool"}
KEYWORDS = {"if", "else", "match", "return", "while", "loop", "for", "in", "let", "mut", "break", "continue", "as", "true", "false", "ref"}
CLAUSES = {"requires", "ensures", "measures", "decreases", "where"}


# ---- files

def listed(revision, pattern):
    """(path, text) of each file that the pattern finds."""
    if revision:
        names = subprocess.run(["git", "ls-tree", "-r", "--name-only", revision, "crates"], capture_output=True, text=True, check=True).stdout.split("\n")
        names = [n for n in names if re.fullmatch(pattern, n)]
        for name in sorted(names):
            yield name, subprocess.run(["git", "show", f"{revision}:{name}"], capture_output=True, text=True, check=True).stdout
    else:
        for path in sorted(Path("crates").rglob("*")):
            if path.is_file() and re.fullmatch(pattern, path.as_posix()):
                yield path.as_posix(), path.read_text(encoding="utf-8")


# ---- sources

@dataclass
class Item:
    file: str
    line: int
    kind: str                                   # fn, enum, struct, trait or const
    name: str
    comment: str = ""                           # the lines of comment right above
    params: list = field(default_factory=list)  # (name, type)
    result: str = ""
    clauses: list = field(default_factory=list)
    body: str = ""                              # without comments
    derives: str = ""
    kept: str = ""                              # what its line `// kept: ..` says

    def place(self, what):
        return (self.file, self.line, self.name, what + (f"; kept: {self.kept}" if self.kept else ""))


def without_comments(text):
    """The same text, each comment as spaces; strings keep their slashes."""
    return re.sub(r'b?"(?:\\.|[^"\\])*"|//[^\n]*', lambda m: m[0] if m[0][0] in 'b"' else " " * len(m[0]), text)


def closing(text, at):
    """The index after the bracket that closes the one at an index."""
    pairs = {"(": ")", "{": "}", "[": "]"}
    depth, wanted, opened = 0, pairs[text[at]], text[at]
    i = at
    while i < len(text):
        if text[i] in "'\"" and re.match(r"b?'(\\.|[^\\'])'|\"(\\.|[^\"\\])*\"", text[i:]):
            i += re.match(r"'(\\.|[^\\'])'|\"(\\.|[^\"\\])*\"", text[i:]).end()
            continue
        if text[i] == opened:
            depth += 1
        elif text[i] == wanted:
            depth -= 1
            if depth == 0:
                return i + 1
        i += 1
    return len(text)


def parted(text, by=","):
    """Split at the top level."""
    parts, depth, last = [], 0, 0
    for i, c in enumerate(text):
        if c in "([{<" and not (c == "<" and text[i - 1:i] == " "):
            depth += 1
        elif c in ")]}>" and not (c == ">" and text[i - 1:i] in "-= "):
            depth -= 1
        elif c == by and depth == 0:
            parts.append(text[last:i])
            last = i + 1
    parts.append(text[last:])
    return [" ".join(p.split()) for p in parts if p.strip()]


def comment_above(lines, number):
    got = []
    at = number - 2
    while 0 <= at and re.match(r"\s*(//|#\[)", lines[at]):
        got.append(lines[at].strip())
        at -= 1
    got.reverse()
    return " ".join(g.lstrip("/ ") for g in got if g.startswith("//")), " ".join(g for g in got if g.startswith("#["))


def function(item, text, at):
    """Fills in what follows the name."""
    i = text.index("(", at)
    end = closing(text, i)
    for p in parted(text[i + 1:end - 1]):
        name, _, kind = p.partition(":")
        item.params.append((name.replace("mut ", "").strip(), kind.strip()))
    rest = re.compile(r"\s*->\s*((?:\[[^\]]*\]|[^{;\[])*?)\s*(?=\{|;|\b(?:requires|ensures|where)\b)").match(text, end)
    if rest:
        item.result = " ".join(rest[1].split())
        end = rest.end()
    while True:
        m = re.compile(r"\s*(\w+)?\s*(\w+)?\s*([{;])").match(text, end)
        if not m:
            return
        if m[3] == ";":
            return
        opened = m.end() - 1
        end = closing(text, opened)
        inside = text[opened + 1:end - 1]
        if m[1] in CLAUSES:
            item.clauses.append((m[1], " ".join(inside.split())))
            continue
        item.body = inside
        return


def items(revision):
    found = []
    for file, raw in listed(revision, r"crates/[^/]+/src/.*\.rt"):
        text = without_comments(raw)
        text = re.split(r"\n#\[cfg\(test\)\]", text)[0]
        lines = raw.split("\n")
        owner = ""
        for m in re.finditer(r"^( *)((?:pub(?:\(crate\))? |unsafe |extern \"C\" |const |ghost )*)(fn|enum|struct|trait|const|impl)\b *(?:(<[^{;]*?>) *)?(\w+)?", text, re.M):
            kind, name = m[3], m[5]
            line = text.count("\n", 0, m.start()) + 1
            if kind == "impl":
                head = re.sub(r"^<[^{]*?> ", "", " ".join(text[m.end(3):text.index("{", m.end(3))].split()))
                owner = re.match(r"(?:&('\w+ )?)?[\[\w\]]+", head.split(" for ")[-1])[0]
                continue
            if not m[1]:
                owner = "" if kind != "trait" else name
            comment, derives = comment_above(lines, line)
            item = Item(file, line, kind, f"{owner}::{name}" if m[1] and owner else name, comment, derives=derives)
            if kind == "fn":
                function(item, text, m.end())
            elif kind in ("enum", "struct", "trait"):
                stop = re.compile(r"[{;(]").search(text, m.end())
                if stop and stop[0] in "{(":
                    item.body = text[stop.start() + 1:closing(text, stop.start()) - 1]
            else:
                item.body = text[m.end():text.index(";", m.end())]
            found.append(item)
        for item, after in zip(found, found[1:] + [None]):
            if item.file == file:
                last = after.line - 1 if after and after.file == file else len(lines)
                above = item.line
                while above > 1 and lines[above - 2].lstrip().startswith(("//", "#[")):
                    above -= 1
                while last > item.line and lines[last - 1].lstrip().startswith(("//", "#[")):
                    last -= 1
                said = re.search(r"// kept: (.*)", "\n".join(lines[above - 1:last]))
                item.kept = said[1] if said else ""
    return found


def tokens(text):
    return re.findall(r"b?\"(?:\\.|[^\"\\])*\"|b?'(?:\\.|[^'\\])'|'\w+|\w+|::|->|=>|[<>=!+\-*/%|&^]=|<<|>>|&&|\|\||\S", text)


def short(file):
    return file.split("/")[1]


# ---- point 1

def variants(item):
    return [(re.match(r"(?:#\[[^\]]*\] *)*(\w+)", v)[1], v) for v in parted(item.body)]


NOTHING_TOLD = re.compile(r"\b(0|zeros?|no bit|none)\b[^.;]{0,40}\b(if|where|when|past|else|there is none)\b|\bor (0|n|zeros)\b|; (else )?(0|zero|no bit)\b|where it fails|the index that it was given", re.I)


def point_1(all_items):
    own = {i.name for i in all_items if i.kind == "enum"}
    named = {i.name for i in all_items if i.kind == "const" and re.match(r": u(8|32) = \d+$", i.body)}
    for i in all_items:
        if i.kind == "enum" and any("(" in v or "{" in v for _, v in variants(i)):
            yield i.place("own enum with a value in a case")
        elif i.kind == "struct":
            fields = [f.partition(":")[2].strip() for f in parted(i.body)]
            if len(fields) > 1 and any(f in own or f == "bool" for f in fields):
                yield i.place("an answer or a flag with a value beside")
            elif re.search(r"\bnumber: u32", i.body):
                yield i.place("a number for a kind or a refusal with a value beside")
        elif i.kind == "const":
            if i.name in named:
                yield i.place("a number with a name")
        elif i.kind == "fn":
            number = (
                re.search(r"\b[A-Z]\w*(?:::[A-Za-z]\w*)?\(\s*\d+\b", i.body) and re.search(r"\b(Fault|Shut|Unfinished|of|by)\(\s*[1-9]\d*\b", i.body)
                or re.search(r"\b\d* ?\* ?4294967296\b", i.body)
                or re.search(r"^\s*\d[\d.| =xa-f]*=> ", i.body, re.M)
                or len(re.findall(r"^\s*[\w:]+ => \d+,", i.body, re.M)) > 1
                or re.search(r"\breturn [2-9];", i.body))
            pair = re.search(r"[({]\s*number(: number)?, place\b", i.body)
            if number:
                yield i.place("numbers for kinds or refusals")
            elif pair:
                yield i.place("number and place handed on")
            elif named & set(re.findall(r"\w+", i.body)):
                yield i.place("numbers with a name used")
            elif i.result == "usize" and ("at", "usize") in i.params and any("mut [" in t for _, t in i.params):
                yield i.place("an index that says nothing was written")
            elif re.fullmatch(r"u8|u16|u32|u64|usize", i.result) and (NOTHING_TOLD.search(i.comment) or re.search(r"\bNone => \d", i.body)):
                yield i.place("a number that says nothing was found")


# ---- point 2

def shape(item):
    """A function's result, parameters and body with its own names in order, types, numbers and called names alike."""
    own = {n: f"v{k}" for k, (n, _) in enumerate(item.params)}
    for m in re.finditer(r"\blet (?:mut )?(\w+)", item.body):
        own.setdefault(m[1], f"v{len(own)}")
    out = [("s" if SCALARS & set(re.findall(r"\w+", t)) else "t") for _, t in item.params] + ["->", "t" if item.result else "()"]
    for t in tokens(item.body):
        if t in own:
            out.append(own[t])
        elif t in KEYWORDS or not re.match(r"[\w'\"]", t):
            out.append(t)
        elif re.match(r"\d", t) or t[0] in "\"'" or t[:2] in ("b'", 'b"'):
            out.append("0")
        else:
            out.append("n")
    return out


def joined(pairs, members):
    group = {m: m for m in members}

    def top(m):
        while group[m] != m:
            m = group[m]
        return m
    for a, b in pairs:
        group[top(a)] = top(b)
    sets = defaultdict(list)
    for m in members:
        sets[top(m)].append(m)
    return [s for s in sets.values() if len(s) > 1]


def point_2(all_items):
    functions = [i for i in all_items if i.kind == "fn" and len(tokens(i.body)) >= 14]
    shapes = [shape(f) for f in functions]
    pairs = []
    for a in range(len(functions)):
        for b in range(a):
            if 1.2 * min(len(shapes[a]), len(shapes[b])) < max(len(shapes[a]), len(shapes[b])):
                continue
            m = difflib.SequenceMatcher(None, shapes[a], shapes[b], autojunk=False)
            least = 0.9 if 40 <= min(len(shapes[a]), len(shapes[b])) else 0.97
            if m.quick_ratio() >= least and m.ratio() >= least:
                pairs.append((a, b))
    for number, group in enumerate(joined(pairs, range(len(functions))), 1):
        for k in group:
            yield functions[k].place(f"functions alike: group {number}, of {len(group)}")
    stems = defaultdict(list)
    for i in all_items:
        if i.kind == "fn" and i.name != "main" and "::" not in i.name:
            kinds = ", ".join(re.sub(r"'\w+ ", "", t) for _, t in i.params)
            stems[f"same name and parameters in two crates: {i.name}", kinds].append(i)
            left = re.sub(r"(?<![a-z])(bytes?|words?)(?![a-z])", "", i.name).replace("__", "_").strip("_")
            left = re.sub(r"^in$", "at", left)
            stems[f"names alike but for bytes and words: {left}", short(i.file)].append(i)
    for (stem, _), group in stems.items():
        if len(group) > 1 and len({i.name for i in group}) + len({short(i.file) for i in group}) > 2:
            for i in group:
                yield i.place(stem)
    enums = [i for i in all_items if i.kind == "enum"]
    names = [{v for v, _ in variants(e)} for e in enums]
    pairs = [(a, b) for a in range(len(enums)) for b in range(a) if len(names[a] & names[b]) >= 2 and 2.5 * len(names[a] & names[b]) >= len(names[a] | names[b])]
    for number, group in enumerate(joined(pairs, range(len(enums))), 1):
        for k in group:
            yield enums[k].place(f"enums alike: group {number}, of {len(group)}")


# ---- point 3

def point_3(all_items):
    for i in all_items:
        if i.kind == "fn":
            for m in re.finditer(r"^\s*(?:'\w+: )?(while|loop)\b(?! let)", i.body, re.M):
                yield i.place(m[1])
            for m in re.finditer(r"\bfor _\w* in [^\n]*\{", i.body):
                if re.search(r"\b\w+ [+-]= \d+;", i.body[m.end():closing(i.body, m.end() - 1)]):
                    yield i.place("for with an index beside")


# ---- point 4

def point_4(all_items):
    own = {i.name for i in all_items if i.kind == "enum"}
    for i in all_items:
        if i.kind != "fn" or re.search(r"::(from|try_from|fmt)$", i.name):
            continue
        flat = " ".join(i.body.split())
        arms = re.findall(r"([A-Z]\w*)::\w+[^=]{0,60}=> \{?[^,;]{0,40}\b(?:\w+::)*([A-Z]\w*)(?:::\w+|\s*\{)", flat)
        if len([a for a in arms if a[0] in own and a[1] != "Self"]) >= 2 and len({a for a, _ in arms}) == 1:
            yield i.place("conversion: an own enum case by case")
        elif re.search(r"match [^{]*\{ [A-Z][^}]*=> (true|false)", flat):
            yield i.place("equality: cases to true and false")
        elif re.search(r"if (\w+) <=? (\w+) \{ (return )?(\1|\2)\b( \+ 1)?;? \}", flat):
            yield i.place("order: the smaller or the larger")
        elif re.search(r"\w+\[(\w+ \+ )?\w+\] = (\w+\[\w+\]|0);", flat) and "while" in flat:
            yield i.place("copying: element by element")
        elif len(re.findall(r"<< (8|16|24)\b", flat)) and re.search(r"as u(16|32)\)? ?(<<|\|)|\|", flat) and "[" not in flat:
            yield i.place("conversion: bytes or halves joined by shifts")
        elif re.search(r"\b(48|87) \+ |% 10\b|/ 10\b", flat):
            yield i.place("printing: digits")
        elif re.search(r"2 \^ 64|18446744073709551615|-1 - ", flat):
            yield i.place("conversion: two's complement")
        elif re.fullmatch(r"[A-Z]\w*\([^;]*\)", flat) and i.result and i.result not in SCALARS:
            yield i.place("conversion: one type's value from another's")
        elif re.match(r"(print|say|put|write)_(number|word|decimal|hex|digits|refusal|cause|byte|whole|tree_line|line)$", i.name.split("::")[-1]):
            yield i.place("printing: a value")


# ---- point 5

def point_5(all_items):
    functions = [i for i in all_items if i.kind == "fn" and short(i.file) != "kilnumber_c"]
    crates = defaultdict(list)
    for f in functions:
        crates[short(f.file)].append((f, {(n, re.sub(r"'\w+ ", "", t)) for n, t in f.params if n and "self" not in n}))
    for inside in crates.values():
        alone = Counter(p for _, mine in inside for p in mine)
        both = Counter((p, q) for _, mine in inside for p in mine for q in mine if p < q)
        tied = {pair for pair, n in both.items() if n >= 3 and 2 * n >= alone[pair[0]] + alone[pair[1]] - n}
        for f, mine in inside:
            pairs = [pair for pair in tied if set(pair) <= mine]
            group = sorted({n for pair in pairs for n, _ in pair}, key=[n for n, _ in f.params].index)
            if len(group) >= 3 or any(a[1] in SCALARS and b[1] in SCALARS for a, b in pairs):
                yield f.place("parameters together: " + ", ".join(group))
    facts = defaultdict(list)
    for k, f in enumerate(functions):
        for kind, clause in f.clauses:
            if kind == "requires":
                for fact in parted(clause, "×"):
                    facts[re.sub(r"^\((.*)\)$", r"\1", fact)].append(k)
    for fact, ks in sorted(facts.items(), key=lambda f: -len(set(f[1]))):
        if len(set(ks)) >= 3:
            for k in sorted(set(ks)):
                yield functions[k].place("fact: " + fact)


# ---- point 6

def point_6(all_items):
    for i in all_items:
        if i.kind in ("struct", "fn"):
            fields = i.params if i.kind == "fn" else [(f.partition(":")[0].split()[-1], f.partition(":")[2].strip()) for f in parted(i.body)]
            fixed = [n for n, t in fields if re.match(r"(&'?\w* ?(mut )?)?\[\w+; \w+\]", t) or t in ("Parts",)]
            lent = [n for n, t in fields if re.match(r"&'?\w* ?mut \[", t)]
            length = [n for n, t in fields if t in ("usize", "u32") and re.search(r"count|^n$|len|size|^at$|next", n)]
            if fixed and len(fixed) > 1:
                yield i.place("parallel arrays: " + ", ".join(fixed))
            elif fixed and length:
                yield i.place(f"array with a length beside: {fixed[0]}, {length[0]}")
            elif lent and "at" in length:
                yield i.place(f"buffer with its end beside: {lent[0]}, at")
        if i.kind == "fn":
            if re.search(r"\[[\w.:]+; [\w +]+\]", i.body):
                yield i.place("array of fixed size made")
            for loop in re.finditer(r"(?:while|loop|for)\b[^\n]*\{", i.body):
                inside = i.body[loop.end():closing(i.body, loop.end() - 1)]
                if re.search(r"\breturn (true|false|\w+|\w+::\w+\(.*\));", inside):
                    yield i.place("searched by hand")
                    break


# ---- point 7

def point_7(all_items):
    for i in all_items:
        if i.kind != "fn":
            continue
        calls = len(re.findall(r"=> (?:return )?(?:[a-z]\w*::)*[a-z]\w*\(", " ".join(i.body.split())))
        if calls >= 3 and "match" in i.body:
            yield i.place(f"a match of calls: {calls}")
        if any(t == "bool" for _, t in i.params):
            yield i.place("a flag as parameter")
        if any(re.match(r"(&(mut )?)?(fn\(|dyn |Box<)", t) for _, t in i.params) or re.search(r"\bfn\(", i.result):
            yield i.place("a function as a value")


# ---- point 8

def point_8(revision):
    rows = defaultdict(Counter)
    repeated = Counter()
    for file, text in listed(revision, r"crates/[^/]+/(proofs|specs)/.*\.antt"):
        kind = file.split("/")[-1] if re.search(r"/proofs/.*/(Answers|Invariants)\.antt$", file) else "other"
        rows[short(file)][kind] += 1
        rows[short(file)][kind + " lines"] += text.count("\n")
        if kind == "Answers.antt":
            rows[short(file)]["answers"] += len(re.findall(r"^pub \S+ : ", text, re.M))
            for line in {" ".join(line.split()) for line in text.split("\n") if line.startswith("    ") and len(line) > 50}:
                repeated[line] += 1
    total = Counter()
    for name in sorted(rows):
        row = rows[name]
        total.update(row)
        print(f"{name}: {row['Answers.antt']} files of answers, {row['answers']} answers, {row['Answers.antt lines']} lines; {row['Invariants.antt']} of invariants, {row['Invariants.antt lines']} lines; {row['other']} other, {row['other lines']} lines")
    for line, n in repeated.most_common():
        if n >= 4:
            print(f"in {n} files of answers: {line}")
    print(f"point 8: {total['Answers.antt']} files of answers, {total['answers']} answers, {total['Answers.antt lines']} lines; {total['Invariants.antt']} of invariants, {total['Invariants.antt lines']} lines; "
          f"{total['other']} others, {total['other lines']} lines; {sum(n >= 4 for n in repeated.values())} lines in four files or more")


POINTS = {1: point_1, 2: point_2, 3: point_3, 4: point_4, 5: point_5, 6: point_6, 7: point_7}


def shown(point, revision, quiet):
    if point == 8:
        point_8(revision)
        return
    places = sorted(set(POINTS[point](items(revision))))
    for file, line, name, what in [] if quiet else places:
        print(f"{file}:{line}: {name}  ({what})")
    kinds = Counter(re.split(r"[:;]", what)[0] for _, _, _, what in places)
    crates = Counter(short(file) for file, _, _, _ in places)
    for title, counted in (("by kind", kinds), ("by crate", crates)):
        print(f"{title}: " + ", ".join(f"{name} {n}" for name, n in sorted(counted.items(), key=lambda c: (-c[1], c[0]))))
    kept = sum("; kept: " in what for _, _, _, what in places)
    print(f"point {point}: {len(places)} places, in {len({p[:3] for p in places})} functions and types" + (f"; beside {kept} of them a reason stands" if kept else ""))


def main():
    if len(sys.argv) not in (2, 3) or sys.argv[1] not in ["all", *"12345678"]:
        sys.exit(__doc__)
    revision = sys.argv[2] if len(sys.argv) == 3 else ""
    for point in range(1, 9) if sys.argv[1] == "all" else [int(sys.argv[1])]:
        shown(point, revision, sys.argv[1] == "all")


main()
