"""The files under examples/ hold the tables that document 01 prints, and probe answers them as README.md shows."""

import struct
import sys
from pathlib import Path

import probe
from second import examples

ROOT = Path(__file__).resolve().parent.parent
LABEL_BITS = 0x0FFF0000
KIND_ENTRY = 2

EIGHT = [0x11111111 * k for k in range(1, 9)]

# document 01: 0x36 decodes to G, f 0, b 1, c 2; encoding A with 0, 0, 1 is 13 with 0x01
LINES = [
    "1 0 0 00000000 8 7",
    "2 0 0 00000000 6",
    "5 0 0 00000000 6 | 00000000 00000001 00000002 44444444 55555555 66666666 77777777 88888888",
    "6 13 0 00000001",
]


def words_of(name):
    data = (ROOT / "examples" / name).read_bytes()
    return list(struct.unpack(f"<{len(data) // 4}I", data))


def without_labels(words, heads):
    """Labels are of our choice; everything else is document 01's."""
    return [word & ~LABEL_BITS if at in heads else word for at, word in enumerate(words)]


def same(what, seen, wanted):
    if seen != wanted:
        sys.exit(f"{what}: {seen}, and not {wanted}")


def main():
    worked = words_of("worked.table")
    # the seven head words: kind 2, and no plain word of this table has that kind
    heads = {at for at, word in enumerate(worked) if word >> 28 == KIND_ENTRY}
    same("heads of worked.table", len(heads), 7)
    same("worked.table", without_labels(worked, heads), without_labels(examples.WORKED, heads))
    same("its labels", [worked[at] >> 16 & 0xFFF for at in sorted(heads)], [ord(letter) for letter in "ABCDEFG"])
    same("printed.table", words_of("printed.table"), examples.PRINTED)
    asked = [("read", worked), ("lookup", worked, 0x36), ("decode", worked, 0x36, EIGHT), ("encode", worked, 0, [0, 0, 1])]
    same("worked.requests", words_of("worked.requests"), [word for question in asked for word in probe.request_of(question)])
    data = (ROOT / "examples" / "worked.requests").read_bytes()
    same("probe's answers", probe.lines_of(probe.path_from_arguments(), data), LINES)
    print("example_files good: worked.table, printed.table, worked.requests")


main()
