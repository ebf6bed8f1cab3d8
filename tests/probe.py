"""Runs the program `probe` (docs/probe.md) on requests and gives back its lines."""

import struct
import sys
from pathlib import Path

import running

DEFAULT_PATH = Path(__file__).resolve().parent.parent / "target" / "bin" / "probe"
MOST_BYTES = 1048576


def path_from_arguments():
    """The binary named on the command line, else the usual one."""
    path = Path(sys.argv[1]) if len(sys.argv) > 1 else DEFAULT_PATH
    if not path.is_file():
        sys.exit(f"no program at {path}")
    return path


def pack(words):
    """Words as bytes, low byte first."""
    return struct.pack(f"<{len(words)}I", *words)


def part_bytes(value):
    """A part: how many bytes, then the bytes, padded to whole words. The value is bytes, words or one number. The padding isn't
    zero, because what it holds is ignored."""
    data = value if isinstance(value, bytes) else pack(value if isinstance(value, list) else [value])
    return pack([len(data)]) + data + b"\xa5" * (-len(data) % 4)


def part_of(value):
    """The words of a part."""
    return words_of(part_bytes(value))


# The requests in the order of their numbers, and what a call takes from each part: words, bytes, a number or a long.
FORMS = {"read": "W", "lookup": "WN", "generate": "WW", "walk bytes": "BN", "decode": "WNW", "encode": "WNW", "check": "WW",
         "step": "WWBN", "list": "WWBW", "walk": "WN", "mask": "BN", "measure": "W", "cycles": "WN",
         "signed": "NN", "stored": "NL", "text": "NNB", "changed": "WNW"}
NUMBERS = dict(zip(FORMS, (*range(1, 17), 22), strict=True))
NAMES = {number: name for name, number in NUMBERS.items()}


def parts_of(question):
    """The parts of a question as part_bytes takes them: a long becomes eight bytes, two's complement, low byte first."""
    name, *parts = question
    return [struct.pack("<q", part) if form == "L" else part for form, part in zip(FORMS[name], parts, strict=True)]


def request_bytes(question):
    """A request. A question is ("read", table), ("lookup", table, word), ("generate", table, buffer),
    ("walk bytes", bytes, word), ("decode", table, word, buffer), ("encode", table, entry, values), ("check", table, tree),
    ("step", table, tree, image, address), ("list", table, tree, image, buffer), ("walk", tree, word), ("mask", bytes, word),
    ("measure", table), ("cycles", table, entry), ("signed", field, value), ("stored", field, number),
    ("text", field, value, bytes) or ("changed", table, entry, words)."""
    parts = parts_of(question)
    return pack([NUMBERS[question[0]], len(parts)]) + b"".join(part_bytes(part) for part in parts)


def request_of(question):
    """The words of a request."""
    return words_of(request_bytes(question))


def words_of(data):
    """The whole words of bytes."""
    return list(struct.unpack(f"<{len(data) // 4}I", data[:len(data) // 4 * 4]))


def long_of(data):
    """The first two whole words of bytes as one number in two's complement, low word first, 0 for each that is not there."""
    return struct.unpack("<q", pack((words_of(data) + [0, 0])[:2]))[0]


def question_of(number, parts):
    """The question of a request, given its number and the bytes of its parts. Parts that it does not have are empty."""
    name = NAMES[number]
    take = {"W": words_of, "B": bytes, "N": lambda part: (words_of(part) or [0])[0], "L": long_of}
    return name, *(take[form](part) for form, part in zip(FORMS[name], parts + [b""] * 8))


def lines_of(path, data):
    """The lines that probe prints for these bytes. Every line must be ended by a newline."""
    printed = running.output_of(path, data)
    if printed and not printed.endswith(b"\n"):
        sys.exit(f"the last line isn't ended by a newline: {printed[-100:]!r}")
    return printed.decode("ascii", errors="replace").split("\n")[:-1]


def bytes_left(line):
    """The bytes of the buffer at a line's end."""
    return bytes.fromhex(line.partition(" |")[2])


def batches(requests):
    """The requests in groups that fit in one input each."""
    group, size = [], 0
    for request in requests:
        if group and size + len(request) > MOST_BYTES:
            yield group
            group, size = [], 0
        group.append(request)
        size += len(request)
    if group:
        yield group


def ask(path, questions):
    """One line for each question, in order; another number of lines ends the test."""
    lines = []
    for group in batches([request_bytes(question) for question in questions]):
        answers = lines_of(path, b"".join(group))
        if len(answers) != len(group):
            last = answers[-1] if answers else "(none)"
            sys.exit(f"{len(group)} requests, but {len(answers)} lines; the last line: {last}")
        lines += answers
    return lines


def shown(part):
    """A part of a question: bytes, words or one number, in hexadecimal."""
    if isinstance(part, bytes):
        return f"{len(part)} bytes {part.hex(' ', 4)}"
    return " ".join(f"{number:08x}" for number in (part if isinstance(part, list) else [part]))


def stop_at_difference(name, question, expected, seen):
    """Ends the test with exit status 1 if the two lines differ."""
    if seen == expected:
        return
    kind, first, *rest = question
    print(f"difference: {name}")
    print(f"{kind}: {shown(first)}")
    for part in rest:
        print(f"with: {shown(part)}")
    print(f"expected: {expected}")
    print(f"seen:     {seen}")
    sys.exit(1)


def require_enough(tally, least):
    """A test whose cases went missing must not pass: ends it if something was seen less often than it must be."""
    for what, number in least.items():
        if tally[what] < number:
            print(f"only {tally[what]} of: {what}; at least {number} are needed")
            sys.exit(1)
