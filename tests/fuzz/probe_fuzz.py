"""Random and altered request streams for probe: each must end, without a fault, with the lines that docs/probe.md asks for.

Usage: probe_fuzz.py streams [path of probe]. The form of requests is written here from docs/probe.md; whole requests get the second
implementation's line. It also shows that mistakes in taking requests apart would give other lines for some of these streams.
"""

import random
import sys
from collections import Counter
from pathlib import Path

sys.path.insert(0, str(Path(__file__).resolve().parent.parent))

import probe
from probe_requests import QUESTIONS
from second import examples
from second.lines import line_of
from second.twins import heads_in, twin_of

SEED = 15
MOST_PARTS = 8
MISTAKES = ("trailing bytes are dropped", "the stop is counted in requests", "bytes are not padded", "a length is cut to 30 bits",
            "the low byte of the number is enough", "a request may end a word early", "no limit of bytes", "no limit of parts",
            "a part must be whole words", "a part that is not taken is not there", "a part that is not there stops",
            "the numbers between are known")


# ---------------------------------------------------------------------------- the form of requests

class NotWhole(Exception):
    """The request's words run out."""


class Words:
    """The whole words of an input, taken from the front."""

    def __init__(self, data, mistake):
        self.words = probe.words_of(data)
        self.at = 0
        self.mistake = mistake

    def take(self, count):
        if self.at + count > len(self.words) + (self.mistake == "a request may end a word early"):
            raise NotWhole
        taken = self.words[self.at:self.at + count]
        self.at += count
        return taken

    def take_part(self):
        """The bytes of a part."""
        (length,) = self.take(1) or [0]
        if self.mistake == "a length is cut to 30 bits":
            length &= 0x3FFFFFFF
        if self.mistake == "a part must be whole words" and length % 4 != 0:
            raise NotWhole
        padded = self.take(length // 4 if self.mistake == "bytes are not padded" else (length + 3) // 4)
        return probe.pack(padded)[:length]

    def take_request(self):
        """The request's number and its parts."""
        (number,) = self.take(1)
        (count,) = self.take(1) or [0]
        if self.mistake == "the low byte of the number is enough":
            number &= 0xFF
        if self.mistake == "the numbers between are known" and number not in probe.NAMES and 1 <= number <= max(probe.NAMES):
            number = max(probe.NAMES)
        if number not in probe.NAMES or count > MOST_PARTS and self.mistake != "no limit of parts":
            raise NotWhole
        taken = len(probe.FORMS[probe.NAMES[number]])
        if self.mistake == "a part that is not taken is not there":
            count = min(count, taken)
        if self.mistake == "a part that is not there stops" and count < taken:
            raise NotWhole
        return number, [self.take_part() for _ in range(count)]


def framed(data, mistake=None):
    """The questions of an input, and the index that it stops at; None if it comes to the end."""
    # "Input over 1,048,576 bytes prints `stopped 0` alone."
    if len(data) > probe.MOST_BYTES and mistake != "no limit of bytes":
        return [], 0
    words, questions = Words(data, mistake), []
    while words.at < len(words.words):
        start = words.at
        try:
            questions.append(probe.question_of(*words.take_request()))
        except NotWhole:
            return questions, len(questions) if mistake == "the stop is counted in requests" else start
    # "after a whole request they count as a request that is not whole, which begins there"
    if len(data) % 4 != 0 and mistake != "trailing bytes are dropped":
        return questions, words.at
    return questions, None


def lines_for(data):
    questions, stopped = framed(data)
    return [line_of(question) for question in questions] + ([] if stopped is None else [f"stopped {stopped}"])


# ---------------------------------------------------------------------------- streams

def random_bytes(rng):
    return rng.randbytes(rng.choice([0, 1, 2, 3, 4, 7, 8, 30, 64, 400]))


def small_words(rng):
    """Words that are likely to be numbers of requests and small counts."""
    words = [rng.choice([rng.randrange(25), rng.randrange(6), 0, 1, rng.getrandbits(32)]) for _ in range(rng.randrange(40))]
    return probe.pack(words) + rng.randbytes(rng.choice([0, 0, 0, 1, 3]))


def some_request(rng):
    """A request's words; now and then with a part more or less, or one that ends within a word."""
    question = some_question(rng)
    number, parts = probe.NUMBERS[question[0]], probe.parts_of(question)
    how = rng.randrange(8)
    if how == 0:
        parts += [rng.randbytes(rng.randrange(6)) for _ in range(rng.randrange(9))]
    if how == 1:
        parts = parts[:rng.randrange(len(parts) + 1)]
    if how == 2:
        at = rng.randrange(len(parts))
        part = parts[at] if isinstance(parts[at], bytes) else probe.pack(parts[at] if isinstance(parts[at], list) else [parts[at]])
        parts[at] = part + rng.randbytes(rng.randint(1, 3))
    return [number, len(parts), *(word for part in parts for word in probe.part_of(part))]


def some_table(rng):
    """Of kind 1, or of kind 6, now and then with too many cycles; some with an entry that no word selects."""
    table = rng.choice([examples.WORKED, examples.WITH_THIRD, examples.EVERY_KIND, examples.SHORT_AND_LONG, examples.MIDDLE_COVERED,
                        examples.LAST_COVERED, examples.EIGHT_CONDITIONS])
    if rng.random() < 0.5:
        return table
    twin = twin_of(rng, table)
    if rng.random() < 0.3:
        twin[rng.choice(heads_in(twin)) + 3] = rng.choice([0x10000, 0x80000000, 0xFFFFFFFF])
    return twin


def some_operand(rng):
    """A field's word by itself, which may be at fault, and what is asked of it."""
    width = rng.choice([1, 8, 8, 16, 32, rng.randrange(36)])
    field = 3 << 28 | rng.choice([0, 1 << 24, 2 << 24 | rng.randrange(18) << 16]) | rng.getrandbits(8) << 8 | width
    field ^= rng.choice([0, 0, 0, 1 << rng.randrange(32)])
    value = rng.choice([0, rng.getrandbits(min(width, 32)), rng.getrandbits(32)])
    number = rng.choice([-1, 1]) * rng.choice([value, rng.getrandbits(8), rng.getrandbits(63)])
    return rng.choice([("signed", field, value), ("stored", field, number), ("text", field, value, rng.randbytes(rng.randrange(40)))])


def some_withdrawal(rng):
    """An entry, mostly one that is there, and words, some of them unfit."""
    table = examples.ZERO_HIGH_ZERO_LOW if rng.random() < 0.2 else some_table(rng)
    listed = [rng.getrandbits(table[0] & 0xFF) for _ in range(rng.choice([0, 1, 4, 16, 16]))]
    if listed and rng.random() < 0.2:
        listed[rng.randrange(len(listed))] |= 1 << rng.randrange(32)
    return "changed", table, rng.choice([0, 0, 0, 0, 1, 1, 1, 7, rng.getrandbits(32)]), listed


def some_question(rng):
    if rng.random() < 0.2:
        return some_operand(rng)
    if rng.random() < 0.25:
        return some_withdrawal(rng)
    if rng.random() < 0.45:
        return rng.choice(QUESTIONS)
    table = some_table(rng)
    asked = "cycles", table, rng.choice([0, 0, 0, 1, 7, rng.getrandbits(32)])
    generated, measured = ("generate", table, [7] * rng.randrange(40)), ("measure", table)
    return rng.choice([("lookup", table, rng.getrandbits(8)), ("read", table), *[generated] * 4, *[measured] * 2, *[asked] * 2])


def some_word(rng):
    """Numbers and counts near a limit, or that a part of a word would take for another."""
    return rng.choice([0, 1, 5, 13, 14, 16, 17, 21, 22, 23, 0x101, 0x10002, 0x3FFFFFFF, 0x40000001, 0x40000005, 0x7FFFFFFF, 0x80000000,
                       0xFFFFFFFC, 0xFFFFFFFF, rng.getrandbits(32), rng.randrange(25)])


def altered(rng, data):
    at = 4 * rng.randrange(len(data) // 4) if len(data) >= 4 else 0
    how = rng.randrange(8)
    if how == 0 and data:
        return data[:at] + bytes([data[at] ^ 1 << rng.randrange(8)]) + data[at + 1:]
    if how == 7 and len(data) >= 4:
        # one of the two highest bits of a word, which a length in 30 bits would not have
        return data[:at + 3] + bytes([data[at + 3] ^ rng.choice([0x40, 0x80])]) + data[at + 4:]
    if how == 1:
        return data[:at] + probe.pack([some_word(rng)]) + data[at + 4:]
    if how == 2:
        return data[:at] + data[at + 4:]
    if how == 3:
        return data[:at] + probe.pack([some_word(rng)]) + data[at:]
    if how == 4:
        return data[:rng.randrange(len(data) + 1)]
    if how == 5:
        return data + rng.randbytes(rng.randint(1, 5))
    return data + data[at:at + 4 * rng.randrange(8)]


def altered_requests(rng):
    data = b"".join(probe.pack(some_request(rng)) for _ in range(rng.randint(1, 5)))
    for _ in range(rng.choice([0, 1, 1, 2, 4])):
        data = altered(rng, data)
    return data


def near_the_limit(rng):
    """About 1,048,576 bytes: small requests, the last of them altered."""
    request = probe.pack(probe.request_of(("read", [])))
    return request * (probe.MOST_BYTES // len(request) - 2) + altered(rng, request * 2)


def over_the_limit(rng):
    """Whole requests, up to four too many for an input."""
    request = probe.pack(probe.request_of(("read", [])))
    return request * (probe.MOST_BYTES // len(request) + rng.randint(1, 4))


def streams(rng, count):
    for number in range(count):
        if number % 400 == 200:
            yield "near the limit", near_the_limit(rng)
        elif number % 400 == 300:
            yield "over the limit", over_the_limit(rng)
        else:
            make = rng.choice([random_bytes, small_words, altered_requests, altered_requests, altered_requests])
            yield make.__name__, make(rng)


def main():
    count = int(sys.argv.pop(1))
    path = probe.path_from_arguments()
    tally, noticed = Counter(), set()
    for name, data in streams(random.Random(SEED), count):
        expected, seen = lines_for(data), probe.lines_of(path, data)
        if seen != expected:
            print(f"difference: {name}, {len(data)} bytes, the first of them: {data[:400].hex(' ', 4)}")
            print(f"expected: {[line[:200] for line in expected[-3:]]}\nseen:     {[line[:200] for line in seen[-3:]]}")
            sys.exit(1)
        tally["streams"] += 1
        tally["lines"] += len(seen)
        tally["cycles"] += sum(line.startswith("13 0 ") for line in expected)
        tally["operands"] += sum(line.startswith(("14 0 ", "15 0 ", "16 0 ")) for line in expected)
        tally["withdrawals"] += sum(line.startswith("22 0 ") for line in expected)
        tally["changes"] += sum(line.startswith("22 0 ") and not line.endswith(" 0") for line in expected)
        for number in (6, 7, 11):
            tally[f"withdrawals, number {number}"] += sum(line.startswith(f"22 {number} ") for line in expected)
        tally["unreached, generated"] += sum(line.startswith("3 19 ") for line in expected)
        tally["unreached, sized"] += sum(line.startswith("12 19 ") for line in expected)
        tally["stopped" if expected and expected[-1].startswith("stopped") else "ended"] += 1
        for mistake in set(MISTAKES) - noticed:
            if framed(data, mistake) != framed(data):
                noticed.add(mistake)
    if len(noticed) < len(MISTAKES):
        sys.exit(f"no stream shows: {sorted(set(MISTAKES) - noticed)}")
    probe.require_enough(tally, {"stopped": count // 4, "ended": count // 10, "lines": count, "cycles": count // 40, "operands": count // 40,
                                 "unreached, generated": count // 80, "unreached, sized": count // 80, "changes": count // 80,
                                 **{f"withdrawals, number {number}": count // 100 for number in (6, 7, 11)}})
    print(f"probe_fuzz good: {tally['streams']} streams, {tally['lines']} lines, {tally['cycles']} of cycles, {tally['operands']} of operands, "
          f"{tally['withdrawals']} of withdrawals, {tally['changes']} of them with changes, {tally['unreached, generated']} and "
          f"{tally['unreached, sized']} of number 19; stopped: {tally['stopped']}, whole: {tally['ended']}; faults 0; "
          f"{len(noticed)} of {len(MISTAKES)} mistakes noticed")


if __name__ == "__main__":
    main()
