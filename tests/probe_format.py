"""Tests of the form of requests (docs/probe.md): what is a whole request, what its parts give to a call, and where probe stops.

Usage: probe_format.py [path of probe]. Exits with status 1 at the first difference. Every expected line is written
by hand.
"""

import sys

import probe

PRINTED = [0x10010002, 0x20050210, 0x00000002, 0x00000002, 0x30000001]
CYCLES = [0x60010002, 0x20050210, 0x00000002, 0x00000002, 0x0000004D, 0x30000001]
EXCLUDED = [0x10010001, 0x20000101, 0x00000001, 0x00000001, 0x40000000, 0x00000000, 0x00000000]     # an entry that excludes every word
GOOD = [1, 1, 20, *PRINTED]         # eight words
GOOD_LINE = "1 0 0 00000000 2 1"
EMPTY = [1, 1, 0]                   # three words: a part of no bytes, the empty table
EMPTY_LINE = "1 1 0 00000000"
SHORT = [1, 1, 4, 0x10010002]       # four words: a table that ends early
SHORT_LINE = "1 2 1 00000000"
NO_PARTS = [1, 0]                   # two words: the table is empty too

TREE = [0x70020003, 0x80800003, 0xA0000000, 0x90000000]
EIGHT = [0x11111111 * k for k in range(1, 9)]
EIGHT_TEXT = " ".join(f"{word:08x}" for word in EIGHT)
POINT = 0x32040008                  # a field of eight bits, four of them after the point
HALF_TEXT = "2d 30 2e 35 30 30 30"  # -0.5000

WORDS_IN_FULL_INPUT = 262144        # 1,048,576 bytes
UNKNOWN = (0, *range(17, 22), 23, 100, 255, 0x100, 0x101, 0x116, 0x10001, 0x1000001, 0x80000001, 0x7FFFFFFF, 0xFFFFFFFF)


def bytes_of(words, trailing=b""):
    return probe.pack(words) + trailing


def asked(number, *parts):
    """A request's bytes from its number and its parts."""
    return bytes_of([number, len(parts), *(word for part in parts for word in probe.part_of(part))])


def whole_requests():
    yield "empty input", b"", []
    yield "one request", bytes_of(GOOD), [GOOD_LINE]
    yield "an empty part", bytes_of(EMPTY), [EMPTY_LINE]
    yield "no parts", bytes_of(NO_PARTS), [EMPTY_LINE]
    yield "several requests", bytes_of(GOOD + EMPTY + SHORT + NO_PARTS + GOOD), [GOOD_LINE, EMPTY_LINE, SHORT_LINE, EMPTY_LINE, GOOD_LINE]
    yield "a thousand requests", bytes_of((SHORT + GOOD) * 500), [SHORT_LINE, GOOD_LINE] * 500
    yield "the format's example", bytes_of([2, 2, 20, *PRINTED, 4, 3]), ["2 0 0 00000000 0"]


def unknown_numbers():
    """The number is the whole word: low or high parts of a known one don't make it known."""
    for number in UNKNOWN:
        what = f"unknown number {number:#x}"
        yield what, bytes_of([number]), ["stopped 0"]
        yield what + ", a good table after it", bytes_of([number, *GOOD[1:]]), ["stopped 0"]
        yield what + ", no parts", bytes_of([number, 0]), ["stopped 0"]
        yield what + " after a request", bytes_of([*GOOD, number, 0]), [GOOD_LINE, "stopped 8"]
        yield what + " between requests", bytes_of([*GOOD, *EMPTY, number, 0, *GOOD]), [GOOD_LINE, EMPTY_LINE, "stopped 11"]
        yield what + " with trailing bytes", bytes_of([*SHORT, number], b"\x01\x00"), [SHORT_LINE, "stopped 4"]


def counts_of_parts():
    """0 to 8 parts, and not more, though the input holds them; the count is the whole word."""
    for count in range(9):
        yield f"{count} empty parts", bytes_of([1, count, *[0] * count, *GOOD]), [EMPTY_LINE, GOOD_LINE]
    for count in (9, 10, 16, 0x101, 0x108, 0x10001, 0x1000001, 0x80000001, 0x7FFFFFFF, 0xFFFFFFFF):
        what = f"{count:#x} parts"
        yield what, bytes_of([1, count]), ["stopped 0"]
        yield what + ", enough words", bytes_of([1, count, *[0] * 300]), ["stopped 0"]
        yield what + " after a request", bytes_of([*GOOD, 1, count, *GOOD[2:], *[0] * 20]), [GOOD_LINE, "stopped 8"]


def parts_not_taken():
    """Parts that a call does not take are not looked at, but they belong to the request."""
    table, strange = probe.part_of(PRINTED), probe.part_of(b"\xff" * 7)
    for extra in range(1, 8):
        yield f"{extra} parts after the table", bytes_of([1, 1 + extra, *table, *strange * extra, *EMPTY]), [GOOD_LINE, EMPTY_LINE]
        yield f"{extra} parts, the last cut", bytes_of([1, 1 + extra, *table, *strange * extra])[:-1], ["stopped 0"]
    yield "a buffer after the buffer", asked(3, [], EIGHT[:2], EIGHT), ["3 1 0 00000000 | 11111111 22222222"]
    yield "a buffer after a table to size", asked(12, PRINTED, EIGHT), ["12 0 0 00000000 3 1"]
    yield "a buffer after a table with an entry excluded", asked(12, EXCLUDED, EIGHT), ["12 19 0 00000000"]
    yield "a buffer after a buffer for it", asked(3, EXCLUDED, EIGHT[:3], EIGHT), ["3 19 0 00000000 | 00000000 00000000 00000000"]
    yield "a buffer after an entry", asked(13, CYCLES, 0, EIGHT), ["13 0 0 00000000 77"]
    yield "a buffer after a value", asked(14, POINT, 0xF8, EIGHT), ["14 0 0 00000000 -8"]
    yield "a buffer after a long", asked(15, POINT, [0xFFFFFFF8, 0xFFFFFFFF], EIGHT), ["15 0 0 00000000 000000f8"]
    yield "a buffer after a text's buffer", asked(16, POINT, 0xF8, b"abcdefg", EIGHT), ["16 0 0 00000000 7 | " + HALF_TEXT]
    yield "a buffer after listed words", asked(22, PRINTED, 0, [3], EIGHT), ["22 0 0 00000000 1"]


def parts_not_there():
    """Parts that a request does not have are empty, and a number that is not there is 0."""
    printed = probe.part_of(PRINTED)
    yield "lookup, no parts", bytes_of([2, 0]), ["2 1 0 00000000"]
    yield "lookup, no word", bytes_of([2, 1, *printed]), ["2 0 0 00000000 nothing"]
    yield "generate, no buffer", bytes_of([3, 1, *printed]), ["3 5 0 00000000 |"]
    yield "walk for C, no parts", bytes_of([4, 0]), ["4 0 0 00000000 0000000800000000"]
    yield "decode, no buffer", bytes_of([5, 2, *printed, *probe.part_of(3)]), ["5 10 0 00000000 |"]
    yield "encode, no values", bytes_of([6, 2, *printed, *probe.part_of(0)]), ["6 11 0 00000000"]
    yield "check, no tree", bytes_of([7, 1, *printed]), ["7 14 0 00000000"]
    yield "step, no parts", bytes_of([8, 0]), ["8 1 0 00000000"]
    yield "list, no parts", bytes_of([9, 0]), ["9 1 0 00000000 |"]
    yield "walk, no word", bytes_of([10, 1, *probe.part_of(TREE)]), ["10 0 0 00000000 nothing 1 00000002"]
    yield "mask, no parts", bytes_of([11, 0]), ["11 0 0 00000000 00000000"]
    yield "mask, no word", bytes_of([11, 1, *probe.part_of(TREE)]), ["11 0 0 00000000 00000002"]
    yield "sizing, no parts", bytes_of([12, 0]), ["12 1 0 00000000"]
    yield "cycles, no parts", bytes_of([13, 0]), ["13 1 0 00000000"]
    yield "cycles, no entry", bytes_of([13, 1, *probe.part_of(CYCLES)]), ["13 0 0 00000000 77"]
    yield "signed, no parts", bytes_of([14, 0]), ["14 2 0 00000000"]
    yield "signed, no value", bytes_of([14, 1, *probe.part_of(POINT)]), ["14 0 0 00000000 0"]
    yield "stored, no parts", bytes_of([15, 0]), ["15 2 0 00000000"]
    yield "stored, no number", bytes_of([15, 1, *probe.part_of(POINT)]), ["15 0 0 00000000 00000000"]
    yield "text, no parts", bytes_of([16, 0]), ["16 2 0 00000000 |"]
    yield "text, no value", bytes_of([16, 1, *probe.part_of(POINT)]), ["16 18 0 00000000 |"]
    yield "text, no buffer", bytes_of([16, 2, *probe.part_of(POINT), *probe.part_of(0xF8)]), ["16 18 0 00000000 |"]
    yield "text, an empty value", asked(16, POINT, b"", b"abcdefg"), ["16 0 0 00000000 6 | 30 2e 30 30 30 30 67"]
    yield "withdrawal, no parts", bytes_of([22, 0]), ["22 1 0 00000000"]
    yield "withdrawal, no entry", bytes_of([22, 1, *printed]), ["22 0 0 00000000 0"]
    yield "withdrawal, no words", asked(22, PRINTED, 0), ["22 0 0 00000000 0"]
    yield "withdrawal, no words, no such entry", asked(22, PRINTED, 1), ["22 11 0 00000000"]
    yield "withdrawal, empty words", asked(22, PRINTED, 0, []), ["22 0 0 00000000 0"]
    yield "withdrawal, an empty entry", asked(22, PRINTED, b"", [3, 2]), ["22 0 0 00000000 2"]
    # what comes next in the input is no part of it
    yield "no number is taken from the next request", bytes_of([15, 1, *probe.part_of(POINT), *GOOD]), ["15 0 0 00000000 00000000", GOOD_LINE]
    yield "no buffer is taken from the next request", bytes_of([16, 2, *probe.part_of(POINT), *probe.part_of(0xF8), *GOOD]), \
        ["16 18 0 00000000 |", GOOD_LINE]
    yield "no words are taken from the next request", asked(22, PRINTED, 0) + bytes_of(GOOD), ["22 0 0 00000000 0", GOOD_LINE]
    yield "nothing is taken from the next request", bytes_of([2, 1, *printed, *GOOD]), ["2 0 0 00000000 nothing", GOOD_LINE]
    yield "no table is taken from the next request", bytes_of([12, 0, *GOOD]), ["12 1 0 00000000", GOOD_LINE]


def words_of_parts():
    """An argument of words is the part's whole words; a rest of one to three bytes is left out. Bytes are all of them."""
    tree, image_table = probe.pack(TREE), [0x10000020]
    for rest in (b"", b"\xff", b"\xff\xee", b"\xff\xee\xdd"):
        what = f"{len(rest)} bytes over"
        yield "a table, " + what, asked(1, probe.pack(PRINTED) + rest), [GOOD_LINE]
        yield "a table of no word, " + what, asked(1, rest), [EMPTY_LINE]
        yield "a table to size, " + what, asked(12, probe.pack(PRINTED) + rest), ["12 0 0 00000000 3 1"]
        yield "a table for its cycles, " + what, asked(13, probe.pack(CYCLES) + rest, 0), ["13 0 0 00000000 77"]
        yield "a buffer, " + what, asked(5, PRINTED, 0, probe.pack(EIGHT) + rest), ["5 0 0 00000000 nothing | " + EIGHT_TEXT]
        yield "a buffer of no word, " + what, asked(3, [], rest), ["3 1 0 00000000 |"]
        yield "values, " + what, asked(6, PRINTED, 0, probe.pack([1]) + rest), ["6 0 0 00000000 00000003"]
        yield "a table to withdraw from, " + what, asked(22, probe.pack(PRINTED) + rest, 0, [3]), ["22 0 0 00000000 1"]
        yield "listed words, " + what, asked(22, PRINTED, 0, probe.pack([3, 3, 0]) + rest), ["22 0 0 00000000 2"]
        yield "listed words, none whole, " + what, asked(22, PRINTED, 0, rest) + bytes_of(GOOD), ["22 0 0 00000000 0", GOOD_LINE]
        yield "a tree of words, " + what, asked(10, tree + rest, 3), ["10 0 0 00000000 0 1 00000002"]
        yield "a tree of bytes, " + what, asked(4, tree + rest, 3), \
            ["4 0 0 00000000 " + ("0000000800000000" if rest else "0000000000010000")]
        yield "a tree of bytes for its mask, " + what, asked(11, tree + rest, 3), \
            ["11 0 0 00000000 " + ("00000000" if rest else "00000002")]
        yield "an image, " + what, asked(9, image_table, [0x70200001, 0xA0000000], rest, [5]), \
            ["9 16 0 00000000 | 00000005" if len(rest) % 2 else f"9 0 0 00000000 {len(rest) // 2} | " + ("d0000000" if rest else "00000005")]
        yield "a buffer of bytes, " + what, asked(16, POINT, 0xF8, b"abcdefgh" + rest), \
            ["16 0 0 00000000 7 | " + " ".join([HALF_TEXT, "68", *(f"{byte:02x}" for byte in rest)])]
        yield "a buffer of few bytes, " + what, asked(16, POINT, 0xF8, b"abc" + rest), \
            ["16 18 0 00000000 | " + " ".join(["61 62 63", *(f"{byte:02x}" for byte in rest)])]
    # a byte buffer may be of any length, and lines after it are right
    for size in range(20):
        room = bytes(range(size))
        after = " ".join(["|", *(f"{byte:02x}" for byte in (b"-0.5000" + room[7:] if size >= 7 else room))])
        yield f"a buffer of {size} bytes", asked(16, POINT, 0xF8, room) + bytes_of(GOOD), \
            [f"16 0 0 00000000 7 {after}" if size >= 7 else f"16 18 0 00000000 {after}", GOOD_LINE]
    # a text leaves nothing for the next buffer
    yield "a long buffer, then short ones", asked(16, POINT, 0xF8, b"z" * 30) + asked(16, POINT, 0xF8, b"ab") + asked(16, POINT, 0x100, b"") \
        + asked(16, POINT, 0, b"ABCDEFG"), \
        ["16 0 0 00000000 7 | " + " ".join([HALF_TEXT, *["7a"] * 23]), "16 18 0 00000000 | 61 62", "16 12 0 00000000 |",
         "16 0 0 00000000 6 | 30 2e 30 30 30 30 47"]


def longs():
    """A long is the part's first two whole words, low word first, 0 for each that is not there, in two's complement."""
    plain, signed = 0x30000020, 0x31000020
    minus_two = b"\xfe" + b"\xff" * 7
    for size in range(10):
        # 4,294,967,294 where the second word is not whole
        data = (minus_two + b"\xff")[:size]
        words = size // 4
        yield f"a long in {size} bytes, plain", asked(15, plain, data) + bytes_of(GOOD), \
            [("15 0 0 00000000 00000000", "15 0 0 00000000 fffffffe", "15 12 0 00000000")[words], GOOD_LINE]
        yield f"a long in {size} bytes, signed", asked(15, signed, data) + bytes_of(GOOD), \
            [("15 0 0 00000000 00000000", "15 12 0 00000000", "15 0 0 00000000 fffffffe")[words], GOOD_LINE]
    for low, high, of_plain, of_signed in (
            (0, 0, "00000000", "00000000"), (1, 0, "00000001", "00000001"), (0x7FFFFFFF, 0, "7fffffff", "7fffffff"),
            (0x80000000, 0, "80000000", None), (0xFFFFFFFF, 0, "ffffffff", None), (0, 1, None, None), (0xFFFFFFFF, 0xFFFFFFFF, None, "ffffffff"),
            (0x80000000, 0xFFFFFFFF, None, "80000000"), (0x7FFFFFFF, 0xFFFFFFFF, None, None), (0, 0xFFFFFFFF, None, None),
            (0, 0x80000000, None, None), (0xFFFFFFFF, 0x7FFFFFFF, None, None), (0xFFFFFFFE, 0x80000000, None, None),
            (5, 0x80000000, None, None), (5, 0x100, None, None)):
        for field, value in ((plain, of_plain), (signed, of_signed)):
            line = "15 12 0 00000000" if value is None else f"15 0 0 00000000 {value}"
            yield f"the long {high:08x} {low:08x} for {field:08x}", asked(15, field, [low, high]), [line]
            yield f"the long {high:08x} {low:08x} for {field:08x}, words after it", asked(15, field, [low, high, 7, 7]), [line]


def numbers():
    """A number is the part's first whole word, 0 if it has none."""
    for data, line in ((b"", "nothing"), (b"\x03", "nothing"), (b"\x03\x00", "nothing"), (b"\x03\x00\x00", "nothing"),
                       (b"\x03\x00\x00\x00", "0"), (b"\x03\x00\x00\x00\xff", "0"), (b"\x03\x00\x00\x00\xff\xff\xff", "0"),
                       (probe.pack([3, 0]), "0"), (probe.pack([0, 3]), "nothing"), (probe.pack([3, 1, 4, 1, 5]), "0")):
        yield f"a number in {len(data)} bytes", asked(2, PRINTED, data) + bytes_of(GOOD), ["2 0 0 00000000 " + line, GOOD_LINE]
    yield "a number is 32 bits", asked(2, PRINTED, 0x80000003), ["2 7 0 00000000"]
    yield "a word for its mask is 32 bits", asked(11, TREE, 0x80000003), ["11 0 0 00000000 00000000"]
    yield "an entry is 32 bits", asked(6, PRINTED, 0x80000000, [1]), ["6 11 0 00000000"]
    yield "an entry for its cycles is 32 bits", asked(13, CYCLES, 0x80000000), ["13 11 0 00000000"]
    yield "an entry for its cycles is the first word", asked(13, CYCLES, [1, 0]), ["13 11 0 00000000"]
    yield "an entry to withdraw is 32 bits", asked(22, PRINTED, 0x80000000, [3]), ["22 11 0 00000000"]
    yield "an entry to withdraw has more than 8 bits", asked(22, PRINTED, 0x100, [3]), ["22 11 0 00000000"]
    yield "an entry to withdraw is the first word", asked(22, PRINTED, [1, 0], [3]), ["22 11 0 00000000"]
    yield "an entry to withdraw that is not whole", asked(22, PRINTED, b"\x01\0\0", [3]), ["22 0 0 00000000 1"]
    yield "listed words are 32 bits", asked(22, PRINTED, 0, [3, 0x80000003]), ["22 7 0 00000000"]
    yield "a field's word is the first word", asked(14, [POINT, 0], [0xF8, 1]), ["14 0 0 00000000 -8"]
    yield "a field's word is 32 bits", asked(14, POINT | 1 << 31, 0xF8), ["14 2 0 00000000"]
    yield "a field's word that is not whole", asked(14, b"\x08\x00\x04", 0xF8), ["14 2 0 00000000"]
    yield "a stored value is 32 bits", asked(14, POINT, 0x800000F8), ["14 12 0 00000000"]
    yield "a stored value for its text is 32 bits", asked(16, POINT, 0x800000F8, b"abcdefg"), ["16 12 0 00000000 | 61 62 63 64 65 66 67"]
    yield "an address is 32 bits", asked(8, [0x10000020], [0x70200001, 0xA0000000], b"\0\0", 0x80000000), ["8 0 0 00000000 end"]


def paddings():
    """What the padding holds is ignored; it has to be there."""
    for size in (1, 2, 3):
        for padding in (b"\x00", b"\x5a", b"\xff"):
            part = bytes_of([1, 1, 20 + size]) + probe.pack(PRINTED) + b"\x77" * size + padding * (4 - size)
            yield f"{size} bytes, padded with {padding.hex()}", part + bytes_of(EMPTY), [GOOD_LINE, EMPTY_LINE]
            for cut in range(1, 5 - size):
                yield f"{cut} bytes of the padding are not there", part[:-cut], ["stopped 0"]
                yield f"{cut} bytes of the padding are not there, later", bytes_of(GOOD) + part[:-cut], [GOOD_LINE, "stopped 8"]
        image = b"\x00" * size
        yield f"an image of {size} bytes", asked(9, [0x10000020], [0x70200001, 0xA0000000], image, [5]), \
            ["9 0 0 00000000 1 | d0000000" if size == 2 else "9 16 0 00000000 | 00000005"]


def broken_requests():
    """Requests that are not whole, cut after each of their words."""
    for length in range(1, 8):
        part = GOOD[:length]
        yield f"{length} words of a request", bytes_of(part), ["stopped 0"]
        yield f"{length} words after a request", bytes_of(GOOD + part), [GOOD_LINE, "stopped 8"]
        yield f"{length} words after three", bytes_of(GOOD + SHORT + EMPTY + part), \
            [GOOD_LINE, SHORT_LINE, EMPTY_LINE, "stopped 15"]
    yield "the second of two parts is not there", bytes_of([1, 2, 20, *PRINTED]), ["stopped 0"]
    yield "the last of eight parts is not there", bytes_of([1, 8, 20, *PRINTED, *[0] * 6]), ["stopped 0"]


def lengths_too_large():
    """Lengths the input can't hold; some of them wrap to a small number when they are padded or added to."""
    for length in (21, 24, 25, 0x100, 0x10000, 1048576, 0x3FFFFFFF, 0x40000000, 0x40000014, 0x7FFFFFFF, 0x80000000, 0x80000014,
                   0xC0000014, 0xFFFFFFEC, 0xFFFFFFF0, 0xFFFFFFFB, 0xFFFFFFFC, 0xFFFFFFFD, 0xFFFFFFFE, 0xFFFFFFFF):
        what = f"a part of {length:#x}"
        yield what, bytes_of([1, 1, length, *PRINTED]), ["stopped 0"]
        yield what + ", no word there", bytes_of([1, 1, length]), ["stopped 0"]
        yield what + ", a part after it", bytes_of([1, 2, length, *PRINTED]), ["stopped 0"]
        yield what + " that is not taken", bytes_of([1, 2, 20, *PRINTED, length]), ["stopped 0"]
        yield what + " after requests", bytes_of(GOOD + EMPTY + [1, 1, length, *PRINTED]), [GOOD_LINE, EMPTY_LINE, "stopped 11"]
    # The words after the broken request's own are no requests any more.
    yield "a part that takes the next request's words", bytes_of([1, 1, 32, *PRINTED, *EMPTY]), ["1 2 5 00000000"]
    yield "a part that wants one byte more than that", bytes_of([1, 1, 33, *PRINTED, *EMPTY]), ["stopped 0"]


def trailing_bytes():
    for trailing in (b"\x01", b"\x01\x00", b"\x01\x00\x00", b"\x00", b"\xff\xff\xff"):
        what = f"{len(trailing)} trailing bytes"
        yield what + " alone", trailing, ["stopped 0"]
        yield what + " after a request", bytes_of(GOOD, trailing), [GOOD_LINE, "stopped 8"]
        yield what + " after two requests", bytes_of(EMPTY + GOOD, trailing), [EMPTY_LINE, GOOD_LINE, "stopped 11"]
        yield what + " after a request without parts", bytes_of(NO_PARTS, trailing), [EMPTY_LINE, "stopped 2"]
        yield what + " after a request's number", bytes_of([1], trailing), ["stopped 0"]
        yield what + " after its count of parts", bytes_of([1, 1], trailing), ["stopped 0"]
        yield what + " after a part's length", bytes_of([1, 1, 1], trailing), ["stopped 0"]
        yield what + " in a part", bytes_of(GOOD[:7], trailing), ["stopped 0"]
        yield what + " in a second request", bytes_of(GOOD + GOOD[:7], trailing), [GOOD_LINE, "stopped 8"]


def full_inputs():
    """Inputs of exactly 1,048,576 bytes."""
    yield "full, all whole", bytes_of(GOOD * 32768), [GOOD_LINE] * 32768
    most = WORDS_IN_FULL_INPUT - 3
    yield "full, one request", bytes_of([1, 1, 4 * most] + [0] * most), ["1 1 0 00000000"]
    listed = WORDS_IN_FULL_INPUT - 11
    yield "full, one list", bytes_of([22, 3, 20, *PRINTED, 4, 0, 4 * listed] + [3] * listed), [f"22 0 0 00000000 {listed}"]
    yield "full, one list, its last word unfit", bytes_of([22, 3, 20, *PRINTED, 4, 0, 4 * listed] + [3] * (listed - 1) + [4]), \
        ["22 7 0 00000000"]
    yield "full, one byte too many asked", bytes_of([1, 1, 4 * most + 1] + [0] * most), ["stopped 0"]
    yield "full, the last is not whole", bytes_of(GOOD * 32767 + EMPTY * 2 + [1, 1]), [GOOD_LINE] * 32767 + [EMPTY_LINE] * 2 + ["stopped 262142"]
    yield "full, the last is unknown", bytes_of(GOOD * 32767 + EMPTY * 2 + [0, 0]), [GOOD_LINE] * 32767 + [EMPTY_LINE] * 2 + ["stopped 262142"]
    yield "one byte less than full", bytes_of(GOOD * 32768)[:-1], [GOOD_LINE] * 32767 + ["stopped 262136"]


def inputs_too_long():
    """Over 1,048,576 bytes nothing is answered, whatever the input holds."""
    words = GOOD * 32768
    for extra in (1, 2, 3, 4, 8, 4096, 1048576, 3 * 1048576):
        yield f"{extra} bytes too many", bytes_of(words, b"\x00" * extra), ["stopped 0"]
    yield "one whole request too many", bytes_of(words + GOOD), ["stopped 0"]
    too_many = WORDS_IN_FULL_INPUT - 2
    yield "one request, one word too long", bytes_of([1, 1, 4 * too_many] + [0] * too_many), ["stopped 0"]


SOURCES = (whole_requests, unknown_numbers, counts_of_parts, parts_not_taken, parts_not_there, words_of_parts, longs, numbers, paddings,
           broken_requests, lengths_too_large, trailing_bytes, full_inputs, inputs_too_long)


def shortened(lines):
    """The start and end of many lines, for a message."""
    if len(lines) <= 6:
        return lines
    return lines[:3] + [f"... {len(lines) - 6} lines ..."] + lines[-3:]


def stop_at_difference(name, data, expected, seen):
    if seen == expected:
        return
    print(f"difference: {name}, {len(data)} bytes")
    print(f"input begins with: {data[:64].hex(' ', 4)}")
    print(f"expected: {shortened(expected)}")
    print(f"seen:     {shortened(seen)}")
    sys.exit(1)


def main():
    path = probe.path_from_arguments()
    done = 0
    for source in SOURCES:
        for name, data, expected in source():
            stop_at_difference(f"{source.__name__}: {name}", data, expected, probe.lines_of(path, data))
            done += 1
    if done < 300:
        print(f"only {done} inputs were tried")
        sys.exit(1)
    print(f"probe_format good: {done} inputs")


if __name__ == "__main__":
    main()
