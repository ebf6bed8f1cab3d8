"""Tests of requests 2 to 16 and 22 as a whole (docs/probe.md): cut after each word, lengths too large, trailing bytes, parts left out
and added, and lines longer than probe's page. Whole requests get the second implementation's line.

Usage: probe_requests.py [path of probe]. Exits with status 1 at the first difference. It stands beside probe.py.
"""

import sys

import probe
from second.lines import line_of

PRINTED = [0x10010002, 0x20050210, 0x00000002, 0x00000002, 0x30000001]
CYCLES = [0x60010002, 0x20050210, 0x00000002, 0x00000002, 0x0000004D, 0x30000001]
TREE = [0x70020003, 0x80800003, 0xA0000000, 0x90000000]
TWIN = [0x20000100, 0x00000001, 0x00000001]                                   # width 1, the entry 1: ambiguous if it is there twice
EXCLUDED = [0x10010001, 0x20000101, 0x00000001, 0x00000001, 0x40000000, 0x00000000, 0x00000000]     # the same, but it excludes every word
EIGHT = [0x11111111 * k for k in range(1, 9)]
IMAGE_TABLE = [0x10010020, 0x20001010, 0x80000000, 0x00000000, 0x3000100F]     # width 32, a 16-bit entry 0---..
IMAGE_TREE = [0x70200003, 0x8F800003, 0x90000000, 0xA0000000]
POINT = 0x32040008                                                            # a field of eight bits, four of them after the point
IMAGE = b"\x34\x12\x01\x80\xff\x7f"                                           # six bytes: two of padding
WORDS_IN_FULL_INPUT = 262144

QUESTIONS = [
    ("lookup", PRINTED, 3), ("lookup", PRINTED, 0xFFFFFFFF), ("lookup", [], 3),
    ("decode", PRINTED, 3, EIGHT), ("decode", PRINTED, 3, EIGHT[:7]), ("decode", PRINTED, 0, EIGHT), ("decode", [], 3, []),
    ("encode", PRINTED, 0, [1]), ("encode", PRINTED, 0, [2]), ("encode", PRINTED, 0xFFFFFFFF, []), ("encode", [], 0, [5, 6]),
    ("generate", PRINTED, EIGHT), ("generate", PRINTED, EIGHT[:3]), ("generate", [], EIGHT[:2]), ("generate", PRINTED, []),
    ("walk bytes", probe.pack(TREE), 3), ("walk bytes", probe.pack(TREE)[:15], 3), ("walk bytes", b"", 0),
    ("walk", TREE, 3), ("walk", TREE, 4), ("walk", [], 0),
    ("mask", probe.pack(TREE), 3), ("mask", probe.pack(TREE), 4), ("mask", probe.pack(TREE) + b"\0", 3), ("mask", b"", 0),
    ("check", PRINTED, TREE), ("check", PRINTED, TREE[:3]), ("check", [], []),
    ("step", IMAGE_TABLE, IMAGE_TREE, IMAGE, 2), ("step", IMAGE_TABLE, IMAGE_TREE, IMAGE, 0xFFFFFFFF),
    ("step", IMAGE_TABLE, [], IMAGE[:4], 0), ("step", IMAGE_TABLE, IMAGE_TREE, IMAGE[:5], 0), ("step", [], [], b"", 0),
    ("list", IMAGE_TABLE, IMAGE_TREE, IMAGE, EIGHT[:4]), ("list", IMAGE_TABLE, IMAGE_TREE, IMAGE[:4], EIGHT[:1]),
    ("list", IMAGE_TABLE, IMAGE_TREE, IMAGE[:3], EIGHT[:2]), ("list", IMAGE_TABLE, IMAGE_TREE, b"", []),
    ("list", [], [], b"", []),
    ("measure", PRINTED), ("measure", PRINTED[:4]), ("measure", [0x10020001, *TWIN, *TWIN]), ("measure", EXCLUDED), ("measure", []),
    ("cycles", CYCLES, 0), ("cycles", CYCLES, 0xFFFFFFFF), ("cycles", CYCLES[:4], 0), ("cycles", PRINTED, 0), ("cycles", [], 0),
    ("signed", POINT, 0xF8), ("signed", POINT, 0x100), ("signed", 0, 0),
    ("stored", POINT, -8), ("stored", 0x30000020, -2 ** 63), ("stored", 0, 0),
    ("text", POINT, 0xF8, b"abcdefgh"), ("text", POINT, 0xF8, b"abcde"), ("text", POINT, 0x100, b"a"), ("text", 0, 0, b""),
    ("changed", PRINTED, 0, [3, 0, 2]), ("changed", [0x10020001, *TWIN, *TWIN], 0, [0, 1, 2]), ("changed", EXCLUDED, 0xFFFFFFFF, [2]),
    ("changed", [], 0, []),
]
ONE_OF_EACH = [*{question[0]: question for question in reversed(QUESTIONS)}.values()]  # how a request is taken apart does not depend on more
TOO_LARGE = (0x100, 262144, 0x3FFFFFFF, 0x40000000, 0x40000005, 0x7FFFFFFF, 0x80000000, 0xFFFFFFFA, 0xFFFFFFFB, 0xFFFFFFFC,
             0xFFFFFFFD, 0xFFFFFFFE, 0xFFFFFFFF)
EMPTY, EMPTY_LINE = [1, 0], "1 1 0 00000000"


def words_of(questions):
    return [word for question in questions for word in probe.request_of(question)]


def whole_and_cut():
    """Each request whole, alone and after others; one of each call also cut after each of its words, with and without trailing bytes."""
    for before in ([], QUESTIONS[:1], QUESTIONS):
        start, lines = words_of(before), [line_of(question) for question in before]
        for question in QUESTIONS:
            words, line = probe.request_of(question), line_of(question)
            yield question, probe.pack(start + words), lines + [line]
            yield question, probe.pack(start + words + EMPTY), lines + [line, EMPTY_LINE]
            yield question, probe.pack(start + words) + b"\x02", lines + [line, f"stopped {len(start + words)}"]
            for length in range(1, len(words)) if question in ONE_OF_EACH else ():
                for trailing in (b"", b"\x01", b"\x00\x00\x00"):
                    yield question, probe.pack(start + words[:length]) + trailing, lines + [f"stopped {len(start)}"]


def lengths_too_large():
    """Each part of a request of each call with a length that the input can't hold."""
    for question in ONE_OF_EACH:
        words, at = probe.request_of(question), 2
        for part in probe.parts_of(question):
            for length in TOO_LARGE:
                broken = [*words[:at], length, *words[at + 1:]]
                yield question, probe.pack(broken), ["stopped 0"]
                yield question, probe.pack(EMPTY + broken), [EMPTY_LINE, "stopped 2"]
            at += len(probe.part_of(part))


def other_parts():
    """A part that is left out is empty, and one that is not taken changes nothing."""
    for question in QUESTIONS:
        name, *parts = question
        words, line = probe.request_of(question), line_of(question)
        for extra in range(1, 9 - len(parts)):
            more = [word for k in range(extra) for word in probe.part_of(b"\x5a" * (k * 5))]
            yield question, probe.pack([words[0], len(parts) + extra, *words[2:], *more, *EMPTY]), [line, EMPTY_LINE]
        # the last part is the one that is left out: what stands for it is empty, of its own sort
        without = 0 if isinstance(parts[-1], int) else b"" if isinstance(parts[-1], bytes) else []
        fewer = words[2:len(words) - len(probe.part_of(probe.parts_of(question)[-1]))]
        yield question, probe.pack([words[0], len(parts) - 1, *fewer, *EMPTY]), [line_of((*question[:-1], without)), EMPTY_LINE]


def long_lines():
    """Buffers about as long as one or two of probe's pages of 65,536 bytes, and the longest that an input holds."""
    for size in (*range(7270, 7290), *range(14555, 14570), 65536, WORDS_IN_FULL_INPUT - 11):
        buffer = [(0x9E3779B9 * k) & 0xFFFFFFFF for k in range(size)]
        for table in (PRINTED, []):
            question = ("decode", table, 3, buffer)
            words = probe.request_of(question)
            if len(words) <= WORDS_IN_FULL_INPUT:
                yield ("decode", table, 3, size), probe.pack(words), [line_of(question)]
    for size in (*range(21826, 21852), *range(43674, 43696), 4 * WORDS_IN_FULL_INPUT - 28):
        buffer = bytes((7 * k + k // 256) & 0xFF for k in range(size))
        for field in (POINT, 0):
            question = ("text", field, 0xF8, buffer)
            yield ("text", field, 0xF8, size), probe.request_bytes(question), [line_of(question)]
    long, short = ("decode", PRINTED, 3, [9] * 8000), ("decode", PRINTED, 3, [7] * 8)
    texts = [("text", POINT, 0xF8, bytes(30000)), ("text", POINT, 0x10, b"abcdefgh"), ("text", POINT, 0, b""), ("text", POINT, 0, b"\xff" * 9)]
    yield "a long text buffer, then short, then empty", probe.pack(words_of(texts)), [line_of(question) for question in texts]
    yield "long, then short, then empty", probe.pack(words_of([long, short, ("decode", [], 3, []), long])), \
        [line_of(question) for question in (long, short, ("decode", [], 3, []), long)]


def many_lines():
    """A page's end in each place of a line."""
    for before in range(0, 70, 3):
        questions = [QUESTIONS[0], *[QUESTIONS[3]] * (before + 700), *QUESTIONS]
        yield f"{before + 700} lines", probe.pack(words_of(questions)), [line_of(question) for question in questions]


def main():
    path = probe.path_from_arguments()
    done = 0
    for source in (whole_and_cut, lengths_too_large, other_parts, long_lines, many_lines):
        for name, data, expected in source():
            seen = probe.lines_of(path, data)
            if seen != expected:
                print(f"difference: {name}, {len(data)} bytes, begins with {data[:64].hex(' ', 4)}")
                print(f"expected: {[line[:200] for line in expected[-3:]]}")
                print(f"seen:     {[line[:200] for line in seen[-3:]]}")
                sys.exit(1)
            done += 1
    print(f"probe_requests good: {done} inputs")


if __name__ == "__main__":
    main()
