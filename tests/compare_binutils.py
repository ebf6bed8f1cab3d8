"""Compares what probe selects in the tables of data/ with GNU objdump's names for the words recorded in binutils/: a check from outside that
needs no tool. Then it shows that the record notices altered sets.

Usage: compare_binutils.py [path of probe]. Exits with status 1 at the first difference.
"""

import random
import re
import sys
from collections import Counter
from dataclasses import replace
from pathlib import Path

import compare_data
import probe
from binutils import names
from second.selection import select

FOLDER = Path(__file__).resolve().parent / "binutils"
SETS = ("avr", "riscv", "a32")
SEED = 19
ALTERED = 20            # altered sets of each
LEAST_WORDS = 2900


def read_record(name):
    """(word, bytes, name, whether it is in brackets) of each word of a file."""
    found, said = [], None
    for line in (FOLDER / f"{name}.names").read_text(encoding="ascii").splitlines():
        if line.startswith("#"):
            said = said or int(line.split(" ")[1])
            continue
        size, theirs, words = re.fullmatch(r"([24]) (.+?): ([0-9a-f ]+)", line).groups()
        brackets = theirs.startswith("(")
        found += [(int(word, 16), int(size), theirs.strip("()"), brackets) for word in words.split(" ")]
    if len(found) != said or len({word for word, *_ in found}) != said:
        sys.exit(f"binutils/{name}.names has {len(found)} words, and says {said}")
    return found


def trouble(one, record, answer):
    """Why the table's answer to a word is not objdump's; None if it is, or is not judged."""
    word, size, theirs, brackets = record
    ours = one.mnemonic(answer)
    if brackets:
        return None if names.not_judged(one.name, word, ours) else f"{theirs} was not judged, and the table has {ours}"
    if not names.agrees(one.name, word, ours, theirs):
        return f"the table has {ours}, objdump {theirs}"
    if ours != names.NOTHING and len(one.set.instructions[answer].pattern) != 8 * size:
        return f"{ours} has not {size} bytes"
    return None


def answers(path, one, recorded, tally):
    """What the table selects, and for a part of the words its twin too."""
    words = [word for word, *_ in recorded]
    lines = compare_data.lookups(path, one.words, words)
    compare_data.compare_twin_words(path, one, words, lines, tally)
    for line in lines:
        answer = line.split(" ")[4]
        yield answer if answer == names.NOTHING else int(answer)


def compare(path, one, recorded, tally):
    for record, answer in zip(recorded, answers(path, one, recorded, tally), strict=True):
        if reason := trouble(one, record, answer):
            sys.exit(f"difference: {one.name} {record[0]:08x}: {reason}")
        tally[one.name] += 1
        tally[f"{one.name}, not judged"] += record[3]
        tally[f"{one.name}, nothing"] += answer == names.NOTHING
        tally[f"{one.name}, entry {answer}"] += 1


def is_noticed(rng, one, recorded):
    """Whether the record differs from the set with one entry altered."""
    number = rng.randrange(len(one.set.instructions))
    entries = list(one.set.instructions)
    entries[number] = compare_data.altered(rng, entries[number])
    other = compare_data.ready(one.name, replace(one.set, instructions=tuple(entries)))
    return any(trouble(other, record, select(other.table, record[0])) for record in recorded)


def main():
    path = probe.path_from_arguments()
    rng, tally, noticed = random.Random(SEED), Counter(), Counter()
    for name in SETS:
        one, recorded = compare_data.ready(name, compare_data.make.SETS[name]), read_record(name)
        compare(path, one, recorded, tally)
        noticed[name] = sum(is_noticed(rng, one, recorded) for _ in range(ALTERED))
        # Each entry has words, and nearly every altered set is noticed.
        least = {f"{name}, entry {number}": 1 for number in range(len(one.set.instructions))}
        least |= {f"{name}, twin": LEAST_WORDS // compare_data.TWIN_EACH}
        probe.require_enough(tally, {name: LEAST_WORDS, f"{name}, nothing": 50} | least)
        probe.require_enough(noticed, {name: ALTERED * 9 // 10})
    said = "; ".join(f"{name}: {tally[name]} words, {tally[f'{name}, twin']} of them in the twin too, "
                     f"{tally[f'{name}, not judged']} not judged, {tally[f'{name}, nothing']} nothing, "
                     f"{noticed[name]} of {ALTERED} altered sets noticed" for name in SETS)
    print(f"compare_binutils good: {said}")


if __name__ == "__main__":
    main()
