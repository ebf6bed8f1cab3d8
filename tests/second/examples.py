"""Tables and questions written by hand, with the lines of docs/probe.md that document 01 asks for (masks, sizes and cycles: document
02's No. 1 to No. 3; operands with a sign or a point: its No. 7; entries that no word selects: its No. 8; other orders: its No. 12;
withdrawals: its No. 13).

Nothing here is computed by the second implementation: every number, place and mask was written out by reading the documents.
"""


def table(text):
    """A table from its words in hexadecimal."""
    return [int(word, 16) for word in text.split()]


# The five words that document 01 prints: width 2, one entry 1-, one field on bit 0.
PRINTED = table("10010002 20050210 00000002 00000002 30000001")

# Eleven words with every kind: the printed entry with a condition and an unmatching pattern.
#                 0        1        2        3        4        5        6        7        8        9        10
EVERY_KIND = table("10010002 20050211 00000002 00000002 30000001 40000001 00000001 00000001 50000000 00000002 00000000")

# Document 001's table II as document 01's "Worked table" has it; entries A to G, labels 0xa to 0x10.
# Fields: a bits 5-4 (30000402), b bits 3-2 (30000202), c bits 1-0 (30000002), f bit 6 (30000601).
WORKED = table("""
    10070008
    200a0832 000000c0 00000000 30000402 30000202 30000002
      40000002 00000030 00000000 50000000 00000003 00000000 50000000 00000003 00000003
      40000000 00000030 00000030
    200b0831 000000c0 00000040 30000402 30000202 30000002
      40000000 00000030 00000030
    200c0820 000000c3 00000080 30000402 30000202
    200d0820 000000c3 00000081 30000402 30000202
    200e0810 000000f3 00000001 30000202
    200f0810 000000f3 00000002 30000202
    20100830 000000b0 00000030 30000601 30000202 30000002
""")

# The smallest table with cycles, which are 77, and a field: the printed one.
CYCLES_77 = table("60010002 20050210 00000002 00000002 0000004d 30000001")

# The worked table with cycles: 1, 2, 0, 65535, 256, 77 and 40000.
WORKED_CYCLES = table("""
    60070008
    200a0832 000000c0 00000000 00000001 30000402 30000202 30000002
      40000002 00000030 00000000 50000000 00000003 00000000 50000000 00000003 00000003
      40000000 00000030 00000030
    200b0831 000000c0 00000040 00000002 30000402 30000202 30000002
      40000000 00000030 00000030
    200c0820 000000c3 00000080 00000000 30000402 30000202
    200d0820 000000c3 00000081 0000ffff 30000402 30000202
    200e0810 000000f3 00000001 00000100 30000202
    200f0810 000000f3 00000002 0000004d 30000202
    20100830 000000b0 00000030 00009c40 30000601 30000202 30000002
""")
CYCLES_OF_WORKED = [1, 2, 0, 65535, 256, 77, 40000]

# Width 3: the patterns of document 01's examples.
ZERO_HIGH_ZERO_LOW = table("10020003 20000310 00000004 00000000 30000002 20010310 00000001 00000000 30000102")
WITH_THIRD = table("""10030003 20000310 00000004 00000000 30000002 20010310 00000001 00000000 30000102
    20020310 00000005 00000000 30000101""")
MORE_MASK_BITS = table("10020003 20000310 00000004 00000000 30000002 20010310 00000003 00000000 30000201")

# Width 8: a short entry 100 (three bits at the top, no field) and a short entry 01- with one field on bit 5.
SHORT = table("10020008 20000300 000000e0 00000080 20010310 000000c0 00000040 30000501")

# Width 8: the short entry 1-------, whose lower bits a longer one 1------0 takes: it refines the first.
SHORT_AND_LONG = table("10020008 20000100 00000080 00000080 20010810 00000081 00000080 30000106")


# Width 4, entry 1--- with one condition on every word and an unmatching pattern for each of its eight words: never satisfied.
EIGHT_UNMATCHING = table("10010004 20000411 00000008 00000008 30000003 40000008 00000000 00000000 "
                         + " ".join(f"50000000 00000007 {value:08x}" for value in range(8)))

# The same entry with eight conditions, each of which takes one of its eight words away: it claims none.
EIGHT_CONDITIONS = table("10010004 20000418 00000008 00000008 30000003 "
                         + " ".join(f"40000000 00000007 {value:08x}" for value in range(8)))


def entries_of_width_one(count, words_each):
    """`count` times the same small entry after a first word of width 1."""
    return [0x10000001 | count << 16] + words_each * count


SMALL_ENTRY = table("20000100 00000001 00000000")

# The longest entry, 227 words: width 9, mask on bit 8, fields on bits 7 to 0, 8 conditions of 8 unmatching patterns.
LONG_ENTRY = table("20000988 00000100 00000100 " + " ".join(f"3000{bit:02x}01" for bit in range(8)) + " "
                   + ("40000008 00000001 00000001 " + "50000000 00000002 00000002 " * 8) * 8)
LONGEST_ENTRY = [0x10010009] + LONG_ENTRY
SHORT_ENTRY = table("20000900 000001ff 00000000")
FOUR_WORD_ENTRY = table("20000910 000001fe 00000000 30000001")

# 1 + 72 x 227 + 13 x 3 words are 16,384; with one field more they are 16,385.
LONGEST = [0x10550009] + LONG_ENTRY * 72 + SHORT_ENTRY * 13
ONE_TOO_LONG = [0x10550009] + LONG_ENTRY * 72 + SHORT_ENTRY * 12 + FOUR_WORD_ENTRY


def entry_with(words, cycles):
    """An entry's words with its cycles after the value."""
    return words[:3] + [cycles] + words[3:]


# With cycles 1 + 71 x 228 + 45 x 4 + 3 x 5 words are 16,384; with one field more they are 16,385.
LONGEST_CYCLES = [0x60770009] + entry_with(LONG_ENTRY, 65535) * 71 + entry_with(SHORT_ENTRY, 9) * 45 + entry_with(FOUR_WORD_ENTRY, 0) * 3
ONE_TOO_LONG_CYCLES = [0x60770009] + entry_with(LONG_ENTRY, 65535) * 71 + entry_with(SHORT_ENTRY, 9) * 44 \
    + entry_with(FOUR_WORD_ENTRY, 0) * 4


# (what it shows, the table's words, the line of request 1)
READ_EXAMPLES = [
    # Good tables: width and number of entries.
    ("the printed table", PRINTED, "1 0 0 00000000 2 1"),
    ("the worked table", WORKED, "1 0 0 00000000 8 7"),
    ("every kind once", EVERY_KIND, "1 0 0 00000000 2 1"),
    ("no entries, width 1", table("10000001"), "1 0 0 00000000 1 0"),
    ("no entries, width 32", table("10000020"), "1 0 0 00000000 32 0"),
    ("an empty mask, one field on everything", table("10010002 20050210 00000000 00000000 30000002"), "1 0 0 00000000 2 1"),
    ("width 32, all in the mask", table("10010020 2fff2000 ffffffff ffffffff"), "1 0 0 00000000 32 1"),
    ("width 32, all in one field", table("10010020 20002010 00000000 00000000 30000020"), "1 0 0 00000000 32 1"),
    ("a short entry at the top", SHORT, "1 0 0 00000000 8 2"),
    ("fields out of order", table("10010003 20000330 00000000 00000000 30000101 30000001 30000201"), "1 0 0 00000000 3 1"),
    ("an empty matching pattern", table("10010001 20000101 00000001 00000000 40000000 00000000 00000000"), "1 0 0 00000000 1 1"),
    ("the same entry twice", table("10020001 20000100 00000001 00000000 20000100 00000001 00000000"), "1 0 0 00000000 1 2"),
    ("eight unmatching patterns", EIGHT_UNMATCHING, "1 0 0 00000000 4 1"),
    ("eight conditions", EIGHT_CONDITIONS, "1 0 0 00000000 4 1"),
    ("eight of everything", LONGEST_ENTRY, "1 0 0 00000000 9 1"),
    ("256 entries", entries_of_width_one(256, SMALL_ENTRY), "1 0 0 00000000 1 256"),
    ("16,384 words", LONGEST, "1 0 0 00000000 9 85"),

    # Number 1, always with place 0.
    ("the empty table", [], "1 1 0 00000000"),
    ("16,385 words, otherwise good", ONE_TOO_LONG, "1 1 0 00000000"),
    ("16,385 words, no entries", table("10000001") + [0] * 16384, "1 1 0 00000000"),
    ("16,384 words, no entries", table("10000001") + [0] * 16383, "1 2 1 00000000"),
    ("257 entries", entries_of_width_one(257, SMALL_ENTRY), "1 1 0 00000000"),
    ("257 entries said", table("11010002 20050210 00000002 00000002 30000001"), "1 1 0 00000000"),
    ("4095 entries said", table("1fff0002"), "1 1 0 00000000"),
    ("first word of kind 0", table("00010002 20050210 00000002 00000002 30000001"), "1 1 0 00000000"),
    ("first word of kind 2", table("20010002 20050210 00000002 00000002 30000001"), "1 1 0 00000000"),
    ("first word of kind 9", table("90010002 20050210 00000002 00000002 30000001"), "1 1 0 00000000"),
    ("first word, bit 8 set", table("10010102 20050210 00000002 00000002 30000001"), "1 1 0 00000000"),
    ("first word, bit 15 set", table("10018002 20050210 00000002 00000002 30000001"), "1 1 0 00000000"),
    ("width 0", table("10010000 20050210 00000002 00000002 30000001"), "1 1 0 00000000"),
    ("width 0, no entries", table("10000000"), "1 1 0 00000000"),
    ("width 33", table("10010021 20050210 00000002 00000002 30000001"), "1 1 0 00000000"),
    ("width 255", table("100100ff 20050210 00000002 00000002 30000001"), "1 1 0 00000000"),

    # Number 2, table ends early: the table's length. Cut after each word.
    ("cut after the first word", EVERY_KIND[:1], "1 2 1 00000000"),
    ("cut after the entry", EVERY_KIND[:2], "1 2 2 00000000"),
    ("cut after its mask", EVERY_KIND[:3], "1 2 3 00000000"),
    ("cut after its value", EVERY_KIND[:4], "1 2 4 00000000"),
    ("cut after the field", EVERY_KIND[:5], "1 2 5 00000000"),
    ("cut after the condition", EVERY_KIND[:6], "1 2 6 00000000"),
    ("cut after the condition's mask", EVERY_KIND[:7], "1 2 7 00000000"),
    ("cut after the condition's value", EVERY_KIND[:8], "1 2 8 00000000"),
    ("cut after the unmatching pattern", EVERY_KIND[:9], "1 2 9 00000000"),
    ("cut after the unmatching pattern's mask", EVERY_KIND[:10], "1 2 10 00000000"),
    ("one entry too many said", table("10020002 20050210 00000002 00000002 30000001"), "1 2 5 00000000"),
    ("one condition too many said", table("10010002 20050211 00000002 00000002 30000001"), "1 2 5 00000000"),

    # Number 2, words left over: the first of them.
    ("a zero after the last entry", PRINTED + [0], "1 2 5 00000000"),
    ("a good entry too many", PRINTED + PRINTED[1:], "1 2 5 00000000"),
    ("two words left over", EVERY_KIND + [0, 0], "1 2 11 00000000"),
    ("no entries said", table("10000002 20050210 00000002 00000002 30000001"), "1 2 1 00000000"),
    ("a word after an empty table", table("10000001 00000000"), "1 2 1 00000000"),

    # Number 2, kinds.
    ("entry of kind 3", table("10010002 30050210 00000002 00000002 30000001"), "1 2 1 00000000"),
    ("entry of kind 1", table("10010002 10050210 00000002 00000002 30000001"), "1 2 1 00000000"),
    ("field of kind 4", table("10010002 20050210 00000002 00000002 40000001"), "1 2 4 00000000"),
    ("condition of kind 5", table("10010002 20050211 00000002 00000002 30000001 50000000 00000001 00000001"), "1 2 5 00000000"),
    ("condition of kind 3", table("10010002 20050211 00000002 00000002 30000001 30000001 00000001 00000001"), "1 2 5 00000000"),
    ("unmatching pattern of kind 4", EVERY_KIND[:8] + table("40000000 00000002 00000000"), "1 2 8 00000000"),

    # Number 2, spare bits: lowest and highest of each kind.
    ("field, bit 16 set", table("10010002 20050210 00000002 00000002 30010001"), "1 2 4 00000000"),
    ("field, bit 23 set", table("10010002 20050210 00000002 00000002 30800001"), "1 2 4 00000000"),
    ("condition, bit 4 set", EVERY_KIND[:5] + table("40000011 00000001 00000001 50000000 00000002 00000000"), "1 2 5 00000000"),
    ("condition, bit 27 set", EVERY_KIND[:5] + table("48000001 00000001 00000001 50000000 00000002 00000000"), "1 2 5 00000000"),
    ("unmatching pattern, bit 0 set", EVERY_KIND[:8] + table("50000001 00000002 00000000"), "1 2 8 00000000"),
    ("unmatching pattern, bit 27 set", EVERY_KIND[:8] + table("58000000 00000002 00000000"), "1 2 8 00000000"),

    # Number 2, counts and lengths.
    ("length 0", table("10010002 20050010 00000002 00000002 30000001"), "1 2 1 00000000"),
    ("length over the width", table("10010002 20050310 00000002 00000002 30000001"), "1 2 1 00000000"),
    ("length 255", table("10010020 2005ff10 00000002 00000002 30000001"), "1 2 1 00000000"),
    ("9 fields", table("10010020 20002090 ffffff00 00000000 " + "30000001 " * 9), "1 2 1 00000000"),
    ("9 conditions", table("10010001 20000109 00000001 00000000 " + "40000000 00000000 00000000 " * 9), "1 2 1 00000000"),
    ("15 fields and 15 conditions", table("10010002 200502ff 00000002 00000002 30000001"), "1 2 1 00000000"),
    ("9 unmatching patterns", table("10010001 20000101 00000001 00000000 40000009 00000000 00000000 "
                                    + "50000000 00000000 00000000 " * 9), "1 2 4 00000000"),

    # Number 3: the index of the mask.
    ("opcode mask above the width", table("10010002 20050210 00000006 00000002 30000001"), "1 3 2 00000000"),
    ("opcode mask and value above the width", table("10010002 20050210 80000002 80000002 30000001"), "1 3 2 00000000"),
    ("opcode mask below a short entry's bits", table("10010002 20050100 00000001 00000000"), "1 3 2 00000000"),
    ("opcode value outside the mask", table("10010002 20050210 00000002 00000003 30000001"), "1 3 2 00000000"),
    ("value on an empty mask", table("10010002 20050210 00000000 00000001 30000002"), "1 3 2 00000000"),
    ("condition's mask outside", EVERY_KIND[:6] + table("00000004 00000000 50000000 00000002 00000000"), "1 3 6 00000000"),
    ("condition's value outside its mask", EVERY_KIND[:6] + table("00000001 00000002 50000000 00000002 00000000"),
     "1 3 6 00000000"),
    ("unmatching mask outside", EVERY_KIND[:9] + table("00000004 00000000"), "1 3 9 00000000"),
    ("unmatching value outside its mask", EVERY_KIND[:9] + table("00000002 00000001"), "1 3 9 00000000"),

    # Number 4: the index of the field, or of the entry if not covered.
    ("field of width 0", table("10010002 20050210 00000002 00000002 30000000"), "1 4 4 00000000"),
    ("field of width 0, everything covered", table("10010002 20050210 00000003 00000002 30000000"), "1 4 4 00000000"),
    ("field above the width", table("10010002 20050210 00000002 00000002 30000201"), "1 4 4 00000000"),
    ("field that begins inside and ends outside", table("10010002 20050210 00000000 00000000 30000003"), "1 4 4 00000000"),
    ("field below a short entry's bits", table("10010002 20050110 00000000 00000000 30000002"), "1 4 4 00000000"),
    ("field at 255 of width 255", table("10010002 20050210 00000002 00000002 3000ffff"), "1 4 4 00000000"),
    ("field at 32 of width 1", table("10010020 20002010 fffffffe 00000000 30002001"), "1 4 4 00000000"),
    ("field at 1 of width 255", table("10010020 20002010 00000001 00000000 300001ff"), "1 4 4 00000000"),
    ("field over the mask", table("10010002 20050210 00000002 00000002 30000101"), "1 4 4 00000000"),
    ("field over an earlier field", table("10010002 20050220 00000002 00000002 30000001 30000001"), "1 4 5 00000000"),
    ("not covered, no field", table("10010002 20050200 00000002 00000002"), "1 4 1 00000000"),
    ("not covered, with a field", table("10010002 20050210 00000000 00000000 30000001"), "1 4 1 00000000"),
    ("an empty mask and no field", table("10010001 20000100 00000000 00000000"), "1 4 1 00000000"),
    ("not covered in the second entry", table("10020002 20050200 00000003 00000002 20050200 00000001 00000000"),
     "1 4 4 00000000"),

    # Two faults: the first found, reading forward; of two at one word the lower.
    ("a wrong head as the last word", table("10010002 30050210"), "1 2 1 00000000"),
    ("9 unmatching patterns as the last word", EVERY_KIND[:5] + table("40000009"), "1 2 5 00000000"),
    ("an unmatching pattern with a spare bit as the last word", EVERY_KIND[:8] + table("50000001"), "1 2 8 00000000"),
    ("a field of width 0 as the last word, one more to come", table("10010002 20050220 00000002 00000002 30000000"),
     "1 4 4 00000000"),
    ("a bad mask without its value", table("10010002 20050210 00000004"), "1 2 3 00000000"),
    ("a bad condition's mask without its value", EVERY_KIND[:6] + table("00000004"), "1 2 7 00000000"),
    ("a bad mask with its value, then the end", table("10010002 20050210 00000004 00000000"), "1 3 2 00000000"),
    ("a bad mask, and so not covered", table("10010002 20050200 00000004 00000000"), "1 3 2 00000000"),
    ("field with a spare bit and of width 0", table("10010002 20050210 00000002 00000002 30010000"), "1 2 4 00000000"),
    ("entry of kind 3 and length 0", table("10010002 30050010 00000002 00000002 30000001"), "1 2 1 00000000"),
    ("first word wrong and words left over", table("10010100 20050210 00000002 00000002 30000001 00000000"), "1 1 0 00000000"),
    ("second field of width 0, and so not covered", table("10010002 20050220 00000000 00000000 30000001 30000000"),
     "1 4 5 00000000"),
    ("not covered, then the end", table("10020002 20050200 00000002 00000002"), "1 4 1 00000000"),
    ("not covered, then a bad condition", table("10010002 20050211 00000000 00000000 30000001 40000009"), "1 4 1 00000000"),
    ("not covered, then words left over", table("10010002 20050200 00000002 00000002 00000000"), "1 4 1 00000000"),
    ("a field fewer said: not covered, before its head is left over",
     table("10010002 20050200 00000002 00000002 30000001"), "1 4 1 00000000"),
    ("a field more said: the end before cover", table("10010003 20050320 00000004 00000000 30000001"), "1 2 5 00000000"),
    ("a field more said: the next head before cover",
     table("10020003 20050320 00000004 00000000 30000001 20050300 00000007 00000000"), "1 2 5 00000000"),
    ("bad in the second entry, words left over", table("10020001 20000100 00000001 00000000 20000100 00000001 00000002 "
                                                       "00000000"), "1 3 5 00000000"),
    ("bad unmatching pattern, then a bad entry", EVERY_KIND[:8] + table("50000000 00000004 00000000 00000000"), "1 3 9 00000000"),

    # Kind 6, good: width and number of entries.
    ("77 cycles", CYCLES_77, "1 0 0 00000000 2 1"),
    ("the worked table with cycles", WORKED_CYCLES, "1 0 0 00000000 8 7"),
    ("cycles, no entries, width 1", table("60000001"), "1 0 0 00000000 1 0"),
    ("cycles, no entries, width 32", table("60000020"), "1 0 0 00000000 32 0"),
    ("0 cycles, no field", table("60010001 20000100 00000001 00000000 00000000"), "1 0 0 00000000 1 1"),
    ("65,535 cycles, no field", table("60010001 20000100 00000001 00000000 0000ffff"), "1 0 0 00000000 1 1"),
    ("256 entries with cycles", [0x61000001] + entry_with(SMALL_ENTRY, 300) * 256, "1 0 0 00000000 1 256"),
    ("16,384 words with cycles", LONGEST_CYCLES, "1 0 0 00000000 9 119"),

    # Kind 6, number 1: the first word is kind 1's but for the kind.
    ("16,385 words with cycles, otherwise good", ONE_TOO_LONG_CYCLES, "1 1 0 00000000"),
    ("kind 6, 257 entries said", table("61010002 20050210 00000002 00000002 0000004d 30000001"), "1 1 0 00000000"),
    ("kind 6, bit 8 set", table("60010102 20050210 00000002 00000002 0000004d 30000001"), "1 1 0 00000000"),
    ("kind 6, bit 15 set", table("60018002 20050210 00000002 00000002 0000004d 30000001"), "1 1 0 00000000"),
    ("kind 6, width 0", table("60000000"), "1 1 0 00000000"),
    ("kind 6, width 33", table("60010021 20050210 00000002 00000002 0000004d 30000001"), "1 1 0 00000000"),
    ("first word of kind 5", table("50010002 20050210 00000002 00000002 0000004d 30000001"), "1 1 0 00000000"),
    ("first word of kind 7", table("70010002 20050210 00000002 00000002 0000004d 30000001"), "1 1 0 00000000"),
    ("first word of kind 14", table("e0010002 20050210 00000002 00000002 0000004d 30000001"), "1 1 0 00000000"),

    # Kind 6, number 2: the cycles' own index, or the table's length if they are not there.
    ("65,536 cycles", table("60010002 20050210 00000002 00000002 00010000 30000001"), "1 2 4 00000000"),
    ("cycles with bit 31 set", table("60010002 20050210 00000002 00000002 8000004d 30000001"), "1 2 4 00000000"),
    ("cycles all ones", table("60010002 20050210 00000002 00000002 ffffffff 30000001"), "1 2 4 00000000"),
    ("65,536 cycles, no field", table("60010001 20000100 00000001 00000000 00010000"), "1 2 4 00000000"),
    ("65,536 cycles in the second entry", table("60020001 20000100 00000001 00000000 00000005 20000100 00000001 00000001 00010000"),
     "1 2 8 00000000"),
    ("cut before the cycles", CYCLES_77[:4], "1 2 4 00000000"),
    ("cut before the cycles, no field", table("60010001 20000100 00000001 00000000"), "1 2 4 00000000"),
    ("cut before the second entry's cycles", table("60020001 20000100 00000001 00000000 00000005 20000100 00000001 00000001"),
     "1 2 8 00000000"),
    ("kind 6, cut after the mask", CYCLES_77[:3], "1 2 3 00000000"),
    ("kind 6, cut after the entry", CYCLES_77[:2], "1 2 2 00000000"),
    ("cut after the cycles", CYCLES_77[:5], "1 2 5 00000000"),
    ("a word after the cycles of the last entry", table("60010001 20000100 00000001 00000000 00000005 00000000"), "1 2 5 00000000"),
    # The field is taken for the cycles, and the cycles for the field.
    ("kind 6 without cycles", table("60010002 20050210 00000002 00000002 30000001"), "1 2 4 00000000"),
    ("kind 1 with cycles", table("10010002 20050210 00000002 00000002 0000004d 30000001"), "1 2 4 00000000"),
    ("kind 1 with cycles, no field", table("10010001 20000100 00000001 00000000 00000005"), "1 2 4 00000000"),

    # Kind 6, two faults: mask and value are judged before the cycles, fields and cover after them.
    ("a bad mask and 65,536 cycles", table("60010002 20050210 00000004 00000000 00010000 30000001"), "1 3 2 00000000"),
    ("a bad value and cycles all ones", table("60010002 20050210 00000002 00000003 ffffffff 30000001"), "1 3 2 00000000"),
    ("a bad mask, then the end before the cycles", table("60010002 20050210 00000004 00000000"), "1 3 2 00000000"),
    ("65,536 cycles and a field of width 0", table("60010002 20050210 00000002 00000002 00010000 30000000"), "1 2 4 00000000"),
    ("65,536 cycles and a field of kind 4", table("60010002 20050210 00000002 00000002 00010000 40000001"), "1 2 4 00000000"),
    ("65,536 cycles and not covered", table("60010002 20050200 00000002 00000002 00010000"), "1 2 4 00000000"),
    ("not covered, and the end before the cycles", table("60010002 20050200 00000002 00000002"), "1 2 4 00000000"),
    ("65,536 cycles as the last word", table("60010002 20050210 00000002 00000002 00010000"), "1 2 4 00000000"),
    ("cycles, then not covered", table("60010002 20050200 00000002 00000002 0000004d"), "1 4 1 00000000"),
    ("cycles, then a field of width 0", table("60010002 20050210 00000002 00000002 0000004d 30000000"), "1 4 5 00000000"),
    ("cycles, then a condition of kind 5", table("60010002 20050211 00000002 00000002 0000004d 30000001 50000000"), "1 2 6 00000000"),

    # Forms, good: width and number of entries.
    ("a signed field", table("10010002 20050210 00000002 00000002 31000001"), "1 0 0 00000000 2 1"),
    ("a field with a point, no fraction bits", table("10010002 20050210 00000002 00000002 32000001"), "1 0 0 00000000 2 1"),
    ("1 fraction bit of 1", table("10010002 20050210 00000002 00000002 32010001"), "1 0 0 00000000 2 1"),
    ("16 fraction bits of 16", table("10010020 20002010 ffff0000 00000000 32100010"), "1 0 0 00000000 32 1"),
    ("16 fraction bits of 32", table("10010020 20002010 00000000 00000000 32100020"), "1 0 0 00000000 32 1"),
    ("every form in one entry", table("10010004 20000430 00000008 00000000 31000001 32010101 30000201"), "1 0 0 00000000 4 1"),
    ("with cycles, a signed field", table("60010002 20050210 00000002 00000002 0000004d 31000001"), "1 0 0 00000000 2 1"),

    # Forms, number 2: "bits 23-16 stay spare for all other forms" than 2.
    ("a signed field, bit 16 set", table("10010002 20050210 00000002 00000002 31010001"), "1 2 4 00000000"),
    ("a signed field, bit 23 set", table("10010002 20050210 00000002 00000002 31800001"), "1 2 4 00000000"),
    ("form 3, bit 16 set", table("10010002 20050210 00000002 00000002 33010001"), "1 2 4 00000000"),
    ("form 15, bits 23 to 16 set", table("10010002 20050210 00000002 00000002 3fff0001"), "1 2 4 00000000"),
    ("form 6, bit 23 set", table("10010002 20050210 00000002 00000002 36800001"), "1 2 4 00000000"),
    ("a signed field with a spare bit and of width 0", table("10010002 20050210 00000002 00000002 31010000"), "1 2 4 00000000"),
    ("a field with a spare bit over the mask", table("10010002 20050210 00000002 00000002 30100101"), "1 2 4 00000000"),
    ("a field of form 2 and kind 4", table("10010002 20050210 00000002 00000002 42010001"), "1 2 4 00000000"),

    # Forms, number 4: the index of the field.
    ("form 3", table("10010002 20050210 00000002 00000002 33000001"), "1 4 4 00000000"),
    ("form 4", table("10010002 20050210 00000002 00000002 34000001"), "1 4 4 00000000"),
    ("form 8", table("10010002 20050210 00000002 00000002 38000001"), "1 4 4 00000000"),
    ("form 15", table("10010002 20050210 00000002 00000002 3f000001"), "1 4 4 00000000"),
    ("2 fraction bits of 1", table("10010002 20050210 00000002 00000002 32020001"), "1 4 4 00000000"),
    ("16 fraction bits of 15", table("10010020 20002010 ffff8000 00000000 3210000f"), "1 4 4 00000000"),
    ("17 fraction bits of 17", table("10010020 20002010 fffe0000 00000000 32110011"), "1 4 4 00000000"),
    ("17 fraction bits of 32", table("10010020 20002010 00000000 00000000 32110020"), "1 4 4 00000000"),
    ("255 fraction bits of 32", table("10010020 20002010 00000000 00000000 32ff0020"), "1 4 4 00000000"),
    ("a field with a point, of width 0", table("10010002 20050210 00000002 00000002 32000000"), "1 4 4 00000000"),
    ("a field with a point over the mask", table("10010002 20050210 00000002 00000002 32010101"), "1 4 4 00000000"),
    ("form 3 in the second field", table("10010003 20050320 00000004 00000000 32010001 33000101"), "1 4 5 00000000"),
    ("with cycles, form 3", table("60010002 20050210 00000002 00000002 0000004d 33000001"), "1 4 5 00000000"),

    # Forms, two faults.
    ("form 3, and so not covered", table("10010003 20050310 00000000 00000000 33000001"), "1 4 4 00000000"),
    ("form 3, then a spare bit", table("10010003 20050320 00000004 00000000 33000001 30010101"), "1 4 4 00000000"),
    ("form 3 as the last word, one more to come", table("10010002 20050220 00000002 00000002 33000001"), "1 4 4 00000000"),
    ("65,536 cycles and form 3", table("60010002 20050210 00000002 00000002 00010000 33000001"), "1 2 4 00000000"),
]


def lookup(words, word):
    return ("lookup", words, word)


def decode(words, word, buffer):
    return ("decode", words, word, buffer)


def encode(words, entry, values):
    return ("encode", words, entry, values)


EIGHTS = [0x88888888] * 8
NINE = [0x10, 0x11, 0x12, 0x13, 0x14, 0x15, 0x16, 0x17, 0xFFFFFFFF]
KEPT = "| " + " ".join(["88888888"] * 8)
BAD = PRINTED + [0]

# (what it shows, the question, the line). Entries A to G of the worked table are 0 to 6.
SELECTION_EXAMPLES = [
    # The twelve marked words of document 01.
    ("0x00 A", lookup(WORKED, 0x00), "2 0 0 00000000 0"),
    ("0x01 E", lookup(WORKED, 0x01), "2 0 0 00000000 4"),
    ("0x02 F", lookup(WORKED, 0x02), "2 0 0 00000000 5"),
    ("0x03 A", lookup(WORKED, 0x03), "2 0 0 00000000 0"),
    ("0x11 A", lookup(WORKED, 0x11), "2 0 0 00000000 0"),
    ("0x30 G", lookup(WORKED, 0x30), "2 0 0 00000000 6"),
    ("0x40 B", lookup(WORKED, 0x40), "2 0 0 00000000 1"),
    ("0x70 G", lookup(WORKED, 0x70), "2 0 0 00000000 6"),
    ("0x80 C", lookup(WORKED, 0x80), "2 0 0 00000000 2"),
    ("0x81 D", lookup(WORKED, 0x81), "2 0 0 00000000 3"),
    ("0x82 nothing", lookup(WORKED, 0x82), "2 0 0 00000000 nothing"),
    ("0xC0 nothing", lookup(WORKED, 0xC0), "2 0 0 00000000 nothing"),
    ("0x100 has a bit at the width", lookup(WORKED, 0x100), "2 7 0 00000000"),

    # Decoding and encoding of the worked table.
    ("0x36 decodes to G, f 0, b 1, c 2", decode(WORKED, 0x36, EIGHTS),
     "5 0 0 00000000 6 | 00000000 00000001 00000002 88888888 88888888 88888888 88888888 88888888"),
    ("0x7b decodes to G, f 1, b 2, c 3, nine words lent", decode(WORKED, 0x7B, NINE),
     "5 0 0 00000000 6 | 00000001 00000002 00000003 00000013 00000014 00000015 00000016 00000017 ffffffff"),
    ("nothing writes nothing", decode(WORKED, 0x82, EIGHTS), "5 0 0 00000000 nothing " + KEPT),
    ("seven words lent", decode(WORKED, 0x36, [1, 2, 3, 4, 5, 6, 7]),
     "5 10 0 00000000 | 00000001 00000002 00000003 00000004 00000005 00000006 00000007"),
    ("no word lent", decode(WORKED, 0x36, []), "5 10 0 00000000 |"),
    ("no word lent comes before a high bit", decode(WORKED, 0x136, []), "5 10 0 00000000 |"),
    ("a high bit", decode(WORKED, 0x136, EIGHTS), "5 7 0 00000000 " + KEPT),
    ("A with 0, 0, 1 is E's word", encode(WORKED, 0, [0, 0, 1]), "6 13 0 00000001"),
    ("A with 3, 0, 0 is G's word", encode(WORKED, 0, [3, 0, 0]), "6 13 0 00000030"),
    ("A with 0, 0, 3", encode(WORKED, 0, [0, 0, 3]), "6 0 0 00000000 00000003"),
    ("A with 2, 1, 3", encode(WORKED, 0, [2, 1, 3]), "6 0 0 00000000 00000027"),
    ("C with 1, 2", encode(WORKED, 2, [1, 2]), "6 0 0 00000000 00000098"),
    ("G with 1, 2, 3", encode(WORKED, 6, [1, 2, 3]), "6 0 0 00000000 0000007b"),
    ("G with f 2", encode(WORKED, 6, [2, 2, 3]), "6 12 0 00000000"),
    ("A with b 4", encode(WORKED, 0, [3, 4, 3]), "6 12 1 00000000"),
    ("A with b 4 and c 4", encode(WORKED, 0, [3, 4, 4]), "6 12 1 00000000"),
    ("A with c 2^32 - 1", encode(WORKED, 0, [3, 3, 0xFFFFFFFF]), "6 12 2 00000000"),
    ("12 before 13", encode(WORKED, 0, [0, 4, 1]), "6 12 1 00000000"),
    ("A with two values", encode(WORKED, 0, [0, 0]), "6 11 0 00000000"),
    ("A with four values", encode(WORKED, 0, [0, 0, 0, 0]), "6 11 0 00000000"),
    ("A with no value", encode(WORKED, 0, []), "6 11 0 00000000"),
    ("11 before 12", encode(WORKED, 0, [9, 9]), "6 11 0 00000000"),
    ("entry 7", encode(WORKED, 7, [0, 0, 0]), "6 11 0 00000000"),
    ("entry 256", encode(WORKED, 256, [0, 0, 3]), "6 11 0 00000000"),
    ("entry 2^32 - 1", encode(WORKED, 0xFFFFFFFF, []), "6 11 0 00000000"),

    # Width 3, patterns 0-- and --0.
    ("0-- and --0, word 0", lookup(ZERO_HIGH_ZERO_LOW, 0), "2 6 0 00000000"),
    ("0-- and --0, word 2", lookup(ZERO_HIGH_ZERO_LOW, 2), "2 6 0 00000002"),
    ("0-- and --0, word 1", lookup(ZERO_HIGH_ZERO_LOW, 1), "2 0 0 00000000 0"),
    ("0-- and --0, word 4", lookup(ZERO_HIGH_ZERO_LOW, 4), "2 0 0 00000000 1"),
    ("0-- and --0, word 5", lookup(ZERO_HIGH_ZERO_LOW, 5), "2 0 0 00000000 nothing"),
    ("0-- and --0, word 8", lookup(ZERO_HIGH_ZERO_LOW, 8), "2 7 0 00000000"),
    ("an ambiguous word decodes to 6", decode(ZERO_HIGH_ZERO_LOW, 2, EIGHTS), "5 6 0 00000002 " + KEPT),
    ("7 before 6", decode(ZERO_HIGH_ZERO_LOW, 10, EIGHTS), "5 7 0 00000000 " + KEPT),
    ("10 before 6", decode(ZERO_HIGH_ZERO_LOW, 2, [5]), "5 10 0 00000000 | 00000005"),
    ("a made word that is ambiguous", encode(ZERO_HIGH_ZERO_LOW, 0, [2]), "6 13 0 00000002"),
    ("a made word that is 0 and ambiguous", encode(ZERO_HIGH_ZERO_LOW, 1, [0]), "6 13 0 00000000"),
    ("a made word that is not", encode(ZERO_HIGH_ZERO_LOW, 1, [2]), "6 0 0 00000000 00000004"),
    ("0-0 added, word 0", lookup(WITH_THIRD, 0), "2 0 0 00000000 2"),
    ("0-0 added, word 2", lookup(WITH_THIRD, 2), "2 0 0 00000000 2"),
    ("0-0 added, word 1", lookup(WITH_THIRD, 1), "2 0 0 00000000 0"),
    ("0-0 added, word 6", lookup(WITH_THIRD, 6), "2 0 0 00000000 1"),
    ("more mask bits are not more specific: 0-- and -00, word 0", lookup(MORE_MASK_BITS, 0), "2 6 0 00000000"),
    ("0-- and -00, word 4", lookup(MORE_MASK_BITS, 4), "2 0 0 00000000 1"),
    ("0-- and -00, word 3", lookup(MORE_MASK_BITS, 3), "2 0 0 00000000 0"),

    # The printed table, short entries, twins, a condition that excludes everything.
    ("the printed table, word 0", lookup(PRINTED, 0), "2 0 0 00000000 nothing"),
    ("the printed table, word 1", lookup(PRINTED, 1), "2 0 0 00000000 nothing"),
    ("the printed table, word 3", lookup(PRINTED, 3), "2 0 0 00000000 0"),
    ("the printed table, word 4", lookup(PRINTED, 4), "2 7 0 00000000"),
    ("a short entry, bits below it set", lookup(SHORT, 0x9F), "2 0 0 00000000 0"),
    ("a short entry's word has zeros below", encode(SHORT, 0, []), "6 0 0 00000000 00000080"),
    ("a short entry's field", encode(SHORT, 1, [1]), "6 0 0 00000000 00000060"),
    ("a short entry's field decoded", decode(SHORT, 0x7F, EIGHTS),
     "5 0 0 00000000 1 | 00000001 88888888 88888888 88888888 88888888 88888888 88888888 88888888"),
    ("a short entry keeps the words with bit 0 set", lookup(SHORT_AND_LONG, 0x81), "2 0 0 00000000 0"),
    ("a short entry's made word belongs to the longer one", encode(SHORT_AND_LONG, 0, []), "6 13 0 00000080"),
    ("twins are ambiguous", lookup(table("10020001 20000100 00000001 00000000 20000100 00000001 00000000"), 0),
     "2 6 0 00000000"),
    ("no entries", lookup(table("10000001"), 1), "2 0 0 00000000 nothing"),
    ("an empty matching pattern excludes every word",
     lookup(table("10010001 20000101 00000001 00000000 40000000 00000000 00000000"), 0), "2 0 0 00000000 nothing"),
    ("a made word that selects nothing",
     encode(table("10010001 20000101 00000001 00000001 40000000 00000000 00000000"), 0, []), "6 13 0 00000001"),
    ("width 32, one field", decode(table("10010020 20002010 00000000 00000000 30000020"), 0xFEDCBA98, EIGHTS),
     "5 0 0 00000000 0 | fedcba98 88888888 88888888 88888888 88888888 88888888 88888888 88888888"),
    ("width 32, one field encoded", encode(table("10010020 20002010 00000000 00000000 30000020"), 0, [0xFEDCBA98]),
     "6 0 0 00000000 fedcba98"),

    # Each of eight unmatching patterns and each of eight conditions counts.
    *((f"eight unmatching patterns, word {word}", lookup(EIGHT_UNMATCHING, word), "2 0 0 00000000 0")
      for word in range(8, 16)),
    *((f"eight conditions, word {word}", lookup(EIGHT_CONDITIONS, word), "2 0 0 00000000 nothing")
      for word in range(8, 16)),
    ("eight unmatching patterns, decoded", decode(EIGHT_UNMATCHING, 15, EIGHTS),
     "5 0 0 00000000 0 | 00000007 88888888 88888888 88888888 88888888 88888888 88888888 88888888"),
    ("eight fields", decode(LONGEST_ENTRY, 0x1CA, NINE),
     "5 0 0 00000000 0 | 00000000 00000001 00000000 00000001 00000000 00000000 00000001 00000001 ffffffff"),
    ("eight fields, encoded", encode(LONGEST_ENTRY, 0, [0, 1, 0, 1, 0, 0, 1, 1]), "6 0 0 00000000 000001ca"),
    ("eight fields, the last too large", encode(LONGEST_ENTRY, 0, [0, 1, 0, 1, 0, 0, 1, 2]), "6 12 7 00000000"),
    ("eight fields, satisfied", lookup(LONGEST_ENTRY, 0x101), "2 0 0 00000000 nothing"),
    ("eight fields, nine values", encode(LONGEST_ENTRY, 0, [0, 1, 0, 1, 0, 0, 1, 1, 0]), "6 11 0 00000000"),

    # A bad table comes before everything else.
    ("bad table, high bit", lookup(BAD, 0xFFFFFFFF), "2 2 5 00000000"),
    ("bad table, no word lent", decode(BAD, 0xFFFFFFFF, []), "5 2 5 00000000 |"),
    ("bad table, a word lent", decode(BAD, 0, [0xABCDEF01]), "5 2 5 00000000 | abcdef01"),
    ("bad table, no such entry", encode(BAD, 9, [9, 9]), "6 2 5 00000000"),
    ("empty table, no such entry", encode([], 0, []), "6 1 0 00000000"),
]


# ---------------------------------------------------------------------------- trees

def generate(words, length):
    """Generating with this many lent words, 11111111 22222222 and so on."""
    return ("generate", words, LENT[:length])


def walk(tree, word):
    return ("walk", tree, word)


def walk_bytes(tree, word):
    return ("walk bytes", b"".join(one.to_bytes(4, "little") for one in tree), word)


def mask(tree, word):
    return ("mask", *walk_bytes(tree, word)[1:])


LENT = [0x11111111 * digit for digit in range(1, 16)] + [0] * 25

# The trees of these tables, made by hand with the steps of document 01.
PRINTED_TREE = table("70020003 80800003 a0000000 90000000")
WITH_THIRD_TREE = table("70030007 81000005 80000004 90000002 90000000 80000007 90000001 a0000000")

# The worked table's: bit 7; below its zero side bits 6, 5, 4, then 1 and 0 (A, E; F, A), below its one side bits 6, 1, 0.
WORKED_TREE = table("""7008001b
    83800015 83000010 8280000d 8200000c 80800009 80000008 90000000 90000004 8000000b 90000005 90000000
      90000000 8200000f 90000000 90000006
      82800012 90000001 82000014 90000001 90000006
    8300001b 8080001a 80000019 90000002 90000003 a0000000 a0000000""")

# A foreign tree of width 2 that tests bit 0 twice: 1 tests bit 0, 2 tests bit 0, 3 is entry 9, 4 is entry 255.
FOREIGN_TREE = table("70020004 80000003 80000004 90000009 900000ff")

# Width 2, bit 1 on both sides of a test of bit 1: 1 tests it, 2 tests it again, 3 and 4 are nothing, 5 is entry 0.
TWICE_TREE = table("70020005 80800005 80800004 a0000000 a0000000 90000000")

# The twelve marked words: the word, what is named, how many tests there are on its path, and the bits that they test, by hand.
MARKED = [(0x00, "0", 6, 0xF3), (0x01, "4", 6, 0xF3), (0x02, "5", 6, 0xF3), (0x03, "0", 6, 0xF3), (0x11, "0", 4, 0xF0),
          (0x30, "6", 4, 0xF0), (0x40, "1", 3, 0xE0), (0x70, "6", 4, 0xF0), (0x80, "2", 4, 0xC3), (0x81, "3", 4, 0xC3),
          (0x82, "nothing", 3, 0xC2), (0xC0, "nothing", 2, 0xC0)]

ZEROS_7 = "| " + " ".join(["00000000"] * 7)
ZEROS_8 = "| " + " ".join(["00000000"] * 8)
NO_MASK = "11 0 0 00000000 00000000"


def tree_text(words):
    return " ".join(f"{word:08x}" for word in words)


def result_bits(named, tests):
    """A finished walk: entry in bits 7-0, bit 8 for nothing, count in bits 31-16."""
    return f"{(0x100 if named == 'nothing' else int(named)) | tests << 16:016x}"


# (what it shows, the question, the line)
TREE_EXAMPLES = [
    # Width 3, patterns 0-- and --0: 7 nodes. Bit 2 is tested, then bit 0; word 0 is in the conflict leaf.
    ("0-- and --0, 8 words give 6 with word 0", generate(ZERO_HIGH_ZERO_LOW, 8), "3 6 0 00000000 " + ZEROS_8),
    ("0-- and --0, 7 words give 5", generate(ZERO_HIGH_ZERO_LOW, 7), "3 5 0 00000000 " + ZEROS_7),
    ("0-- and --0, no word gives 5", generate(ZERO_HIGH_ZERO_LOW, 0), "3 5 0 00000000 |"),
    ("0-0 added, 8 words", generate(WITH_THIRD, 8), "3 0 0 00000000 8 | " + tree_text(WITH_THIRD_TREE)),
    ("0-0 added, 10 words", generate(WITH_THIRD, 10),
     "3 0 0 00000000 8 | " + tree_text(WITH_THIRD_TREE) + " 99999999 aaaaaaaa"),
    ("0-0 added, 7 words", generate(WITH_THIRD, 7), "3 5 0 00000000 " + ZEROS_7),
    ("the printed table, 4 words", generate(PRINTED, 4), "3 0 0 00000000 4 | " + tree_text(PRINTED_TREE)),
    ("the printed table, 3 words", generate(PRINTED, 3), "3 5 0 00000000 | 00000000 00000000 00000000"),
    ("the printed table cut", generate(PRINTED[:4], 3), "3 2 4 00000000 | 11111111 22222222 33333333"),
    ("the empty table", generate([], 1), "3 1 0 00000000 | 11111111"),
    ("no entries", generate([0x10000020], 3), "3 0 0 00000000 2 | 70200001 a0000000 33333333"),
    ("no entries, 1 word", generate([0x10000020], 1), "3 5 0 00000000 | 00000000"),
    ("twins 1-", generate([0x10020002, *PRINTED[1:], *PRINTED[1:]], 4), "3 6 0 00000002 | 00000000 00000000 00000000 00000000"),
    # 0-- and -00: each bit is in one mask, so bit 2 is tested, then 1, then 0: 11 nodes, the conflict is word 0.
    ("0-- and -00, 12 words", generate(MORE_MASK_BITS, 12), "3 6 0 00000000 " + " ".join(["|"] + ["00000000"] * 12)),
    ("0-- and -00, 11 words", generate(MORE_MASK_BITS, 11), "3 5 0 00000000 " + " ".join(["|"] + ["00000000"] * 11)),
    ("the worked table, 28 words", generate(WORKED, 28), "3 0 0 00000000 28 | " + tree_text(WORKED_TREE)),
    ("the worked table, 27 words", generate(WORKED, 27), "3 5 0 00000000 " + " ".join(["|"] + ["00000000"] * 27)),
    # EVERY_KIND: 1-, but not what matches -1 and doesn't match 0-. Bit 1 first; at 1 the condition waits for bit 0.
    ("every kind once", generate(EVERY_KIND, 6), "3 0 0 00000000 6 | 70020005 80800003 a0000000 80000005 90000000 a0000000"),
    # 1--, but not what matches --0 and doesn't match 00-. With bit 2 at 1 the unmatching pattern clashes, but it still is a
    # pattern of an open condition: bit 1 is tested because of it, and bit 0 after that.
    ("a clashing pattern's bit", generate(table("10010003 20000311 00000004 00000004 30000002 "
                                                "40000001 00000001 00000000 50000000 00000006 00000000"), 10),
     "3 0 0 00000000 10 | 70030009 81000003 a0000000 80800007 80000006 a0000000 90000000 80000009 a0000000 90000000"),

    # Word 0 selects the third; each path tests bits 2 and 0.
    *[(f"0-0 added, walk of {word}", walk(WITH_THIRD_TREE, word), f"10 0 0 00000000 {named} 2 00000005")
      for word, named in enumerate(["2", "0", "2", "0", "1", "nothing", "1", "nothing"])],
    *[(f"the worked table, walk of {word:#04x}", walk(WORKED_TREE, word), f"10 0 0 00000000 {named} {tests} {tested:08x}")
      for word, named, tests, tested in MARKED],
    *[(f"the worked table, walk of {word:#04x} as bytes", walk_bytes(WORKED_TREE, word),
       f"4 0 0 00000000 {result_bits(named, tests)}") for word, named, tests, _ in MARKED],
    *[(f"the worked table, mask of {word:#04x}", mask(WORKED_TREE, word), f"11 0 0 00000000 {tested:08x}")
      for word, _, _, tested in MARKED],
    # The printed tree tests bit 1 on both paths.
    *[(f"the printed tree, walk of {word}", walk(PRINTED_TREE, word), f"10 0 0 00000000 {named} 1 00000002")
      for word, named in enumerate(["nothing", "nothing", "0", "0"])],
    *[(f"the printed tree, mask of {word}", mask(PRINTED_TREE, word), "11 0 0 00000000 00000002") for word in range(4)],
    # A bit tested twice is counted twice, and is in the mask once.
    ("bit 1 twice, walk of 0", walk(TWICE_TREE, 0), "10 0 0 00000000 nothing 2 00000002"),
    ("bit 1 twice, mask of 0", mask(TWICE_TREE, 0), "11 0 0 00000000 00000002"),
    ("bit 1 twice, walk of 2", walk(TWICE_TREE, 2), "10 0 0 00000000 0 1 00000002"),
    ("no test, walk", walk(table("70200001 900000ff"), 0xFFFFFFFF), "10 0 0 00000000 255 0 00000000"),
    ("bit 31 alone, walk", walk(table("70200003 8f800003 a0000000 90000000"), 0), "10 0 0 00000000 nothing 1 80000000"),
    ("bit 31 alone, mask", mask(table("70200003 8f800003 a0000000 90000000"), 0x80000000), "11 0 0 00000000 80000000"),

    # Walking: 8, 7, 9.
    ("walk of a high word", walk(WORKED_TREE, 0x100), "10 7 0 00000000"),
    ("walk of a high word as bytes", walk_bytes(WORKED_TREE, 0x100), "4 0 0 00000000 0000000700000000"),
    ("walk of no tree", walk([], 0), "10 8 0 00000000"),
    ("walk of no bytes", walk_bytes([], 0), "4 0 0 00000000 0000000800000000"),
    ("walk of a header alone", walk(PRINTED_TREE[:1], 0), "10 8 0 00000000"),
    ("walk of a cut tree", walk(PRINTED_TREE[:3], 0), "10 8 0 00000000"),
    ("walk of a cut tree with a high word", walk(PRINTED_TREE[:3], 4), "10 8 0 00000000"),
    ("walk with words after the tree", walk(PRINTED_TREE + [0xFFFFFFFF], 2), "10 0 0 00000000 0 1 00000002"),
    ("a byte too few", ("walk bytes", b"\x03\x00\x02\x70\x03\x00\x80\x80\x00\x00\x00\xa0\x00\x00\x00", 0),
     "4 0 0 00000000 0000000800000000"),
    ("a byte after it", ("walk bytes", b"\x01\x00\x02\x70\x00\x00\x00\xa0\x00", 0), "4 0 0 00000000 0000000800000000"),
    ("one nothing", ("walk bytes", b"\x01\x00\x02\x70\x00\x00\x00\xa0", 0), "4 0 0 00000000 0000000000000100"),
    ("a damaged root and a high word", walk(table("70020001 00000000"), 4), "10 7 0 00000000"),
    ("a damaged root", walk(table("70020001 00000000"), 3), "10 9 1 00000000"),
    ("a damaged third node", walk_bytes(table("70020003 80800003 a0000000 90000100"), 2), "4 0 0 00000000 0003000900000000"),
    ("a damaged third node, not on the path", walk(table("70020003 80800003 a0000000 90000100"), 1),
     "10 0 0 00000000 nothing 1 00000002"),
    ("a foreign tree, zero side", walk(FOREIGN_TREE, 0), "10 0 0 00000000 9 2 00000001"),
    ("a foreign tree, one side", walk(FOREIGN_TREE, 3), "10 0 0 00000000 9 1 00000001"),
    ("the tested bit at the width", walk(table("70020003 81000003 a0000000 90000000"), 0), "10 9 1 00000000"),
    ("the one side at own + 1", walk(table("70020003 80800002 a0000000 90000000"), 0), "10 9 1 00000000"),
    ("the one side after the nodes", walk(table("70020003 80800004 a0000000 90000000 90000000"), 0), "10 9 1 00000000"),

    # Refused, the mask is 0: 8, 7 and 9, also after tests that were passed.
    ("mask of a high word", mask(WORKED_TREE, 0x100), NO_MASK),
    ("mask of no bytes", mask([], 0), NO_MASK),
    ("mask of a cut tree", mask(PRINTED_TREE[:3], 0), NO_MASK),
    ("mask, a byte too few", ("mask", mask(PRINTED_TREE, 0)[1][:-1], 0), NO_MASK),
    ("mask, a byte after it", ("mask", mask(PRINTED_TREE, 0)[1] + b"\0", 0), NO_MASK),
    ("mask, a damaged root", mask(table("70020001 00000000"), 3), NO_MASK),
    ("mask, a damaged third node", mask(table("70020003 80800003 a0000000 90000100"), 2), NO_MASK),
    ("mask, a damaged third node, not on the path", mask(table("70020003 80800003 a0000000 90000100"), 1),
     "11 0 0 00000000 00000002"),
    ("mask with words after the tree", mask(PRINTED_TREE + [0xFFFFFFFF], 2), "11 0 0 00000000 00000002"),
]

# Width 3, 00- and 1-0: bit 2 is in both masks; below its zero side bit 1 is tested, below its one side bit 0.
BITS_APART = table("10020003 20000310 00000006 00000000 30000001 20010310 00000005 00000004 30000101")

# Width 3, 1--, but neither 110 nor 111: bit 2, then bit 1, and bit 0 for the two conditions; there both sides are nothing.
NOTHING_DEEPEST = table("10010003 20000312 00000004 00000004 30000002 40000000 00000003 00000002 40000000 00000003 00000003")


def size(words):
    return ("measure", words)


# (what it shows, the question, the line): the number of nodes, and of the tests on a longest path. The trees stand above.
SIZE_EXAMPLES = [
    ("size of the worked table", size(WORKED), "12 0 0 00000000 27 6"),
    ("size of the printed table", size(PRINTED), "12 0 0 00000000 3 1"),
    ("size of 0-0 added", size(WITH_THIRD), "12 0 0 00000000 7 2"),
    ("size of no entries, width 1", size([0x10000001]), "12 0 0 00000000 1 0"),
    ("size of no entries, width 32", size([0x10000020]), "12 0 0 00000000 1 0"),
    ("size, every kind once", size(EVERY_KIND), "12 0 0 00000000 5 2"),
    ("size, a short entry and a longer one", size(SHORT_AND_LONG), "12 0 0 00000000 5 2"),
    ("size, other bits on the two sides", size(BITS_APART), "12 0 0 00000000 7 2"),
    # Bit 3, and below its one side bits 2 to 0 on every path.
    ("size, eight unmatching patterns", size(EIGHT_UNMATCHING), "12 0 0 00000000 17 4"),
    ("size, nothing is deepest", size(NOTHING_DEEPEST), "12 0 0 00000000 7 3"),

    # 6 with the word as in generating.
    ("size of 0-- and --0", size(ZERO_HIGH_ZERO_LOW), "12 6 0 00000000"),
    ("size of 0-- and -00", size(MORE_MASK_BITS), "12 6 0 00000000"),
    ("size of twins 1-", size([0x10020002, *PRINTED[1:], *PRINTED[1:]]), "12 6 0 00000002"),

    # 1 to 4 as in reading.
    ("size of the empty table", size([]), "12 1 0 00000000"),
    ("size of the printed table cut", size(PRINTED[:4]), "12 2 4 00000000"),
    ("size of a bad table", size(BAD), "12 2 5 00000000"),
    ("size, opcode value outside the mask", size(table("10010002 20050210 00000002 00000003 30000001")), "12 3 2 00000000"),
    ("size, not covered", size(table("10010002 20050200 00000002 00000002")), "12 4 1 00000000"),
]

# "For the words, in hexadecimal, ... it prints"
PRINTED_TEXT = "0 70020003\n1 80800003\n2 a0000000\n3 90000000\n"


# ---------------------------------------------------------------------------- the checker

def check(words, tree):
    return ("check", words, table(tree) if isinstance(tree, str) else tree)


# Width 2, one entry 01.
ZERO_ONE = table("10010002 20050200 00000003 00000001")

# Bit 3 first, then all of bits 2 to 0: only there every condition of EIGHT_UNMATCHING fails.
EIGHT_UNMATCHING_TREE = table("""70040011 81800003 a0000000
    8100000b 80800008 80000007 90000000 90000000 8000000a 90000000 90000000
             8080000f 8000000e 90000000 90000000 80000011 90000000 90000000""")

ACCEPTED, SAYS_NO = "7 0 0 00000000 yes", "7 14 0 00000000"

# (what it shows, the question, the line)
CHECK_EXAMPLES = [
    ("the printed tree", check(PRINTED, PRINTED_TREE), ACCEPTED),
    ("the worked tree", check(WORKED, WORKED_TREE), ACCEPTED),
    ("0-0 added, its tree", check(WITH_THIRD, WITH_THIRD_TREE), ACCEPTED),
    ("no entries, nothing", check([0x10000020], "70200001 a0000000"), ACCEPTED),
    ("no entries, a name", check([0x10000020], "70200001 90000000"), SAYS_NO),
    ("words lent after the tree", check(PRINTED, PRINTED_TREE + [0xFFFFFFFF, 0]), ACCEPTED),
    # 1: bit 0; 2 and 5: bit 1; so the same entries, but not the tree that is generated.
    ("bit 0 first", check(PRINTED, "70020007 80000005 80800004 a0000000 90000000 80800007 a0000000 90000000"), ACCEPTED),
    ("a test more than needed", check(PRINTED, "70020005 80800003 a0000000 80000005 90000000 90000000"), ACCEPTED),
    ("bit 0 first, one leaf wrong",
     check(PRINTED, "70020007 80000005 80800004 a0000000 90000000 80800007 90000000 a0000000"), SAYS_NO),

    # Header good. A walk would say 8; the checker says 14.
    ("no tree", check(PRINTED, []), SAYS_NO),
    ("a header alone", check(PRINTED, "70020003"), SAYS_NO),
    ("a header of kind 8", check(PRINTED, "80020003 80800003 a0000000 90000000"), SAYS_NO),
    ("a header of kind 6", check(PRINTED, "60020003 80800003 a0000000 90000000"), SAYS_NO),
    ("a header with bit 22 set", check(PRINTED, "70420003 80800003 a0000000 90000000"), SAYS_NO),
    ("a header with bit 27 set", check(PRINTED, "78020003 80800003 a0000000 90000000"), SAYS_NO),
    ("a tree cut by a word", check(PRINTED, PRINTED_TREE[:3]), SAYS_NO),
    ("no nodes said", check(PRINTED, "70020000 80800003 a0000000 90000000"), SAYS_NO),
    # Widths equal.
    ("width 3 for width 2", check(PRINTED, "70030003 80800003 a0000000 90000000"), SAYS_NO),
    ("width 2 for width 3, no entries", check([0x10000003], "70020001 a0000000"), SAYS_NO),
    # No node damaged. A walk would say 9, or not come by.
    ("an entry with bit 8 set", check(PRINTED, "70020003 80800003 a0000000 90000100"), SAYS_NO),
    ("nothing with bit 0 set", check(PRINTED, "70020003 80800003 a0000001 90000000"), SAYS_NO),
    ("a test with bit 16 set", check(PRINTED, "70020003 80810003 a0000000 90000000"), SAYS_NO),
    ("a leaf of kind 11", check(PRINTED, "70020003 80800003 b0000000 90000000"), SAYS_NO),
    ("one node fewer said", check(PRINTED, "70020002 80800003 a0000000 90000000"), SAYS_NO),
    # Each one side begins where the zero side ends. 01: bit 1, then bit 0 below its zero side.
    ("01, its tree", check(ZERO_ONE, "70020005 80800005 80000004 a0000000 90000000 a0000000"), ACCEPTED),
    ("01, one nothing for two sides", check(ZERO_ONE, "70020004 80800003 80000004 a0000000 90000000"), SAYS_NO),
    ("a gap before the one side", check(PRINTED, "70020004 80800004 a0000000 a0000000 90000000"), SAYS_NO),
    # All nodes are used.
    ("a nothing more said", check(PRINTED, "70020004 80800003 a0000000 90000000 a0000000"), SAYS_NO),
    ("no entries, a nothing more said", check([0x10000020], "70200002 a0000000 a0000000"), SAYS_NO),
    ("the same nothing only lent", check(PRINTED, "70020003 80800003 a0000000 90000000 a0000000"), ACCEPTED),
    # No path tests a bit twice. The leaves are right for the last test of bit 1.
    ("bit 1 twice", check(PRINTED, "70020005 80800005 80800004 a0000000 90000000 90000000"), SAYS_NO),
    # Each named entry is the one of step 1 in its cell.
    ("the leaves swapped", check(PRINTED, "70020003 80800003 90000000 a0000000"), SAYS_NO),
    ("entry 1 of one entry", check(PRINTED, "70020003 80800003 a0000000 90000001"), SAYS_NO),
    ("a lone entry still open", check(PRINTED, "70020001 90000000"), SAYS_NO),
    ("two names", check(PRINTED, "70020003 80800003 90000000 90000000"), SAYS_NO),
    ("0-- named where 0-0 is live", check(WITH_THIRD, "70030003 81000003 90000000 a0000000"), SAYS_NO),
    ("0-- and --0, word 0 named", check(ZERO_HIGH_ZERO_LOW,
                                        "70030007 81000005 80000004 90000000 90000000 80000007 90000001 a0000000"), SAYS_NO),
    # Every word with bit 3 set selects entry 0, but its condition is open until bits 2 to 0 are fixed.
    ("eight unmatching patterns, its tree", check(EIGHT_UNMATCHING, EIGHT_UNMATCHING_TREE), ACCEPTED),
    ("eight unmatching patterns, named too soon", check(EIGHT_UNMATCHING, "70040003 81800003 a0000000 90000000"), SAYS_NO),
    # Each nothing has step 2.
    ("two nothings", check(PRINTED, "70020003 80800003 a0000000 a0000000"), SAYS_NO),
    ("0-- and --0, word 0 nothing", check(ZERO_HIGH_ZERO_LOW,
                                          "70030007 81000005 80000004 a0000000 90000000 80000007 90000001 a0000000"), SAYS_NO),
    # No word selects the entry, but it is live where no bit is fixed.
    ("eight conditions, nothing at once", check(EIGHT_CONDITIONS, "70040001 a0000000"), SAYS_NO),

    # 1 to 4 come first, whatever the tree is.
    ("bad table, good tree", check(BAD, PRINTED_TREE), "7 2 5 00000000"),
    ("bad table, no tree", check(BAD, []), "7 2 5 00000000"),
    ("empty table", check([], PRINTED_TREE), "7 1 0 00000000"),
    ("cut table", check(PRINTED[:4], PRINTED_TREE), "7 2 4 00000000"),
]


# ---------------------------------------------------------------------------- images

# Width 32: a 16-bit entry 0---.. with a field on bits 30-16, and a 32-bit entry 10--.. with a field on bits 29-0.
SHORT_OR_LONG = table("10020020 20001010 80000000 00000000 3000100f 20012010 c0000000 80000000 3000001e")
SHORT_OR_LONG_TREE = table("70200005 8f800003 90000000 8f000005 90000001 a0000000")

# Width 32: a 16-bit entry 1---.., and a 32-bit entry 1---..-0 that refines it.
ZERO_BELOW = table("10020020 20001010 80000000 80000000 3000100f 20012010 80000001 80000000 3000011e")
ZERO_BELOW_TREE = table("70200005 8f800003 a0000000 80000005 90000001 90000000")

# The first table with a length of 24 in its second entry: 10------.. on bits 31-8.
LENGTH_24 = table("10020020 20001010 80000000 00000000 3000100f 20011810 c0000000 80000000 30000816")

# Halfwords 1234 8001 0002 c000 7fff 9000. At 0 12348001 is entry 0, at 1 80010002 entry 1, at 3 c0007fff nothing,
# at 4 7fff9000 entry 0, at 5 9000 begins entry 1, whatever would come below, and lacks its second half.
SIX_HALVES = bytes.fromhex("3412 0180 0200 00c0 ff7f 0090")
NO_TREE = table("70200001 a0000000")        # no tree of the tables here


def step(words, tree, image, address):
    return ("step", words, tree, bytes.fromhex(image) if isinstance(image, str) else image, address)


def listing(words, tree, image, length):
    """A listing with this many lent words, 11111111 22222222 and so on."""
    return ("list", words, tree, bytes.fromhex(image) if isinstance(image, str) else image, LENT[:length])


# (what it shows, the question, the line)
IMAGE_EXAMPLES = [
    ("six halfwords, 5 words", listing(SHORT_OR_LONG, SHORT_OR_LONG_TREE, SIX_HALVES, 5),
     "9 0 0 00000000 5 | c0000000 c0100001 d0000003 c0000004 e0000005"),
    ("six halfwords, 7 words", listing(SHORT_OR_LONG, SHORT_OR_LONG_TREE, SIX_HALVES, 7),
     "9 0 0 00000000 5 | c0000000 c0100001 d0000003 c0000004 e0000005 66666666 77777777"),
    ("six halfwords, 4 words", listing(SHORT_OR_LONG, SHORT_OR_LONG_TREE, SIX_HALVES, 4),
     "9 17 5 00000000 | c0000000 c0100001 d0000003 c0000004"),
    ("six halfwords, 2 words", listing(SHORT_OR_LONG, SHORT_OR_LONG_TREE, SIX_HALVES, 2), "9 17 3 00000000 | c0000000 c0100001"),
    ("six halfwords, 1 word", listing(SHORT_OR_LONG, SHORT_OR_LONG_TREE, SIX_HALVES, 1), "9 17 1 00000000 | c0000000"),
    ("six halfwords, no word", listing(SHORT_OR_LONG, SHORT_OR_LONG_TREE, SIX_HALVES, 0), "9 17 0 00000000 |"),
    ("no image, no word", listing(SHORT_OR_LONG, SHORT_OR_LONG_TREE, "", 0), "9 0 0 00000000 0 |"),
    ("no image, 2 words", listing(SHORT_OR_LONG, SHORT_OR_LONG_TREE, "", 2), "9 0 0 00000000 0 | 11111111 22222222"),
    ("a 16-bit entry at the end", listing(SHORT_OR_LONG, SHORT_OR_LONG_TREE, "ff7f", 1), "9 0 0 00000000 1 | c0000000"),
    ("nothing at the end", listing(SHORT_OR_LONG, SHORT_OR_LONG_TREE, "00c0", 1), "9 0 0 00000000 1 | d0000000"),
    ("a 32-bit entry at the end, whole", listing(SHORT_OR_LONG, SHORT_OR_LONG_TREE, "00800000", 2),
     "9 0 0 00000000 1 | c0100000 22222222"),
    ("a 32-bit entry at the end, cut", listing(SHORT_OR_LONG, SHORT_OR_LONG_TREE, "0080", 2),
     "9 0 0 00000000 1 | e0000000 22222222"),
    ("no entries", listing([0x10000020], NO_TREE, "34120180", 3), "9 0 0 00000000 2 | d0000000 d0000001 33333333"),
    # 8000 8001: 80008001 has bit 0 set: the 16-bit entry; at 1 the missing half may have it set or not.
    ("the missing half may be either", listing(ZERO_BELOW, ZERO_BELOW_TREE, "00800180", 2),
     "9 0 0 00000000 2 | c0000000 e0000001"),
    # 8001 8000 8001: at 0 80018000 is the 32-bit one; at 2 it is cut.
    ("the next half is the lower one", listing(ZERO_BELOW, ZERO_BELOW_TREE, "018000800180", 2),
     "9 0 0 00000000 2 | c0100000 e0000002"),

    *[(f"a step at {address}", step(SHORT_OR_LONG, SHORT_OR_LONG_TREE, SIX_HALVES, address), f"8 0 0 00000000 {said}")
      # At 2 0002c000 is entry 0: a step may begin inside an instruction.
      for address, said in enumerate(["c0000000 1 80000000", "c0100001 3 c0000000", "c0000002 3 80000000", "d0000003 4 c0000000",
                                      "c0000004 5 80000000", "e0000005 6 c0000000", "end", "end"])],
    *[(f"a step at {address:#x}", step(SHORT_OR_LONG, SHORT_OR_LONG_TREE, SIX_HALVES, address), "8 0 0 00000000 end")
      for address in (0x10000, 0x7FFFFFFF, 0x80000000, 0x80000001, 0xFFFFFFFE, 0xFFFFFFFF)],
    ("a step in no image", step(SHORT_OR_LONG, SHORT_OR_LONG_TREE, "", 0), "8 0 0 00000000 end"),

    # Listing: 1 to 4, then 15, 16, 14, 17. A step refuses alike, also past the end.
    ("a bad table, an odd image", listing(SHORT_OR_LONG + [0], [], "00", 2), "9 2 9 00000000 | 11111111 22222222"),
    ("a bad table, a step", step(SHORT_OR_LONG + [0], [], "00", 9), "8 2 9 00000000"),
    ("width 2", listing(PRINTED, PRINTED_TREE, "0080", 1), "9 15 0 00000000 | 11111111"),
    ("width 2, a step", step(PRINTED, PRINTED_TREE, "0080", 0), "8 15 0 00000000"),
    ("no entries, width 31", step([0x1000001F], table("701f0001 a0000000"), "0080", 0), "8 15 0 00000000"),
    ("a length of 24", listing(LENGTH_24, SHORT_OR_LONG_TREE, "0080", 1), "9 15 0 00000000 | 11111111"),
    ("a length of 24, an odd image, no tree, no word", listing(LENGTH_24, [], "00", 0), "9 15 0 00000000 |"),
    ("a length of 24, a step past the end", step(LENGTH_24, [], "", 5), "8 15 0 00000000"),
    ("an odd image", listing(SHORT_OR_LONG, SHORT_OR_LONG_TREE, "340012", 1), "9 16 0 00000000 | 11111111"),
    ("an odd image, no tree, no word", listing(SHORT_OR_LONG, [], "34", 0), "9 16 0 00000000 |"),
    ("an odd image, a step past the end", step(SHORT_OR_LONG, SHORT_OR_LONG_TREE, "34", 7), "8 16 0 00000000"),
    ("no tree", listing(SHORT_OR_LONG, [], "3412", 1), "9 14 0 00000000 | 11111111"),
    ("another tree, no word", listing(SHORT_OR_LONG, NO_TREE, "3412", 0), "9 14 0 00000000 |"),
    ("another tree, no image", listing(SHORT_OR_LONG, NO_TREE, "", 2), "9 14 0 00000000 | 11111111 22222222"),
    ("another tree, a step past the end", step(SHORT_OR_LONG, NO_TREE, "3412", 0xFFFFFFFF), "8 14 0 00000000"),
    ("words lent after the tree, a step", step(SHORT_OR_LONG, SHORT_OR_LONG_TREE + [7], "0180", 0),
     "8 0 0 00000000 e0000000 1 c0000000"),
]

# Masks of steps: every kind of item, and bits tested in both halves.
STEP_MASK_EXAMPLES = [
    # The missing half is tested too, as zeros: 80010000 has bits 31 and 0 tested; 00018000 has bit 31 alone.
    ("a step at a cut entry, bit 0 tested", step(ZERO_BELOW, ZERO_BELOW_TREE, "0180", 0), "8 0 0 00000000 e0000000 1 80000001"),
    ("a step at a short entry, bit 0 tested", step(ZERO_BELOW, ZERO_BELOW_TREE, "00800180", 0),
     "8 0 0 00000000 c0000000 1 80000001"),
    ("a step at nothing, bit 31 tested", step(ZERO_BELOW, ZERO_BELOW_TREE, "01000080", 0), "8 0 0 00000000 d0000000 1 80000000"),
    ("a step, no test", step([0x10000020], NO_TREE, "34120180", 1), "8 0 0 00000000 d0000001 2 00000000"),
]


# ---------------------------------------------------------------------------- the last halfword of an image

# Width 32; the upper half's first digit says the case. An entry of 16 bits can't look at the lower half, one of 32 bits can.
LAST_HALVES = table("""10180020
    20001010 f0000000 00000000 3000100c
    20011010 f0010000 10010000 3000110b
    20021010 f0000000 20000000 3000100c
    20032010 f0000001 20000001 3000011b
    20042010 f0000001 30000001 3000011b
    20052010 f0000001 40000000 3000011b
    20061010 f0000000 50000000 3000100c
    20072010 f0000001 50000000 3000011b
    20082010 f0000000 70000000 3000001c
    20092020 f0008000 80008000 3000000f 3000100c
    200a1010 f0000000 90000000 3000100c
    200b2010 f000ffff 90001234 3000100c
    200c1010 f0000000 a0000000 3000100c
    200c2010 f0000001 a0000001 3000011b
    200d2020 f0008000 b0000000 3000000f 3000100c
    200d2020 f0008000 b0008000 3000000f 3000100c
    200e2011 f0000000 c0000000 3000001c 40000000 00000003 00000003
    200f1010 f0000000 d0000000 3000100c
    20102021 f0000008 d0000008 30000003 30000418 40000000 08000000 08000000
    20111010 f0000000 e0000000 3000100c
    20122010 f8000001 e0000000 3000011a
    20132010 f8000001 e0000001 3000011a
    20141011 f0000000 f0000000 3000100c 40000000 00010000 00010000
    20171010 f8000000 08000000 3000100b""")
LAST_HALVES_TREE = table("""7020005f
    8f80001d 8f000012 8e80000b 8e000008 8d800007 90000000 90000017 8800000a a0000000 90000001 8e00000f 8000000e
    90000002 90000003 80000011 a0000000 90000004 8e80001a 8e000017 80000016 90000005 a0000000 80000019 90000007
    90000006 8e00001c a0000000 90000008 8f00004b 8e800044 8e000023 87800022 a0000000 90000009 87800043 87000042
    86800041 86000028 9000000a 85800040 8500003f 8480002c 9000000a 8400003e 8380003d 8300003c 82800031 9000000a
    82000033 9000000a 8180003b 81000036 9000000a 8080003a 80000039 9000000b 9000000a 9000000a 9000000a 9000000a
    9000000a 9000000a 9000000a 9000000a 9000000a 9000000a 9000000a 8e000048 80000047 9000000c 9000000d 8780004a
    9000000e 9000000f 8e800057 8e000052 8080004f 90000010 80000051 90000010 a0000000 81800054 90000011 8d800056
    90000012 90000011 8e00005d 8d80005c 8000005b 90000014 90000015 90000013 8800005f 90000016 a0000000""")

# A single entry of mask 0: of 16 bits, and of 32 bits.
ANY_SHORT = table("10010020 20001010 00000000 00000000 30001010")
ANY_LONG = table("10010020 20002010 00000000 00000000 30000020")
ANY_TREE = table("70200001 90000000")

# Each upper half with what it is, the item at address 0 of the image that it is alone, and the mask of the word with zeros below.
LAST_ITEMS = [
    ("a 16-bit entry", "0000", "c0000000", "f8000000"),
    ("a 16-bit entry more specific than another", "0800", "c1700000", "f8000000"),
    ("bit 16 is there: a 16-bit entry", "1001", "c0100000", "f0010000"),
    ("bit 16 is there: nothing", "1000", "d0000000", "f0010000"),
    ("zeros below a 16-bit entry, others a 32-bit one", "2000", "e0000000", "f0000001"),      # before No. 6: kind 12
    ("zeros below nothing, others a 32-bit entry", "3000", "e0000000", "f0000001"),           # before: kind 13
    ("zeros below a 32-bit entry, others nothing", "4000", "e0000000", "f0000001"),
    ("zeros below a 32-bit entry, others a 16-bit one", "5000", "e0000000", "f0000001"),
    ("nothing", "6000", "d0000000", "f0000000"),
    ("a 32-bit entry", "7000", "e0000000", "f0000000"),
    ("bit 15 decides: nothing or a 32-bit entry", "8000", "e0000000", "f0008000"),            # before: kind 13
    # Zeros below have bits 15 to 12 tested, as 1234 has bit 12 set; ones below would have bit 15 tested alone.
    ("one lower half of all is a 32-bit entry", "9000", "e0000000", "f000f000"),              # before: kind 12
    ("two entries of the same label", "a000", "e0000000", "f0000001"),                        # before: kind 12
    ("two 32-bit entries, bit 15 decides", "b000", "e0000000", "f0008000"),
    # Bits 1 and 0 are tested, but after a zero in bit 1 no more.
    ("a condition excludes some lower halves", "c000", "e0000000", "f0000002"),
    ("a 32-bit entry with a condition that lets it be", "d000", "e0000000", "f0000008"),      # before: kind 12
    ("a condition on the upper half takes the 32-bit entry away", "d800", "c1100000", "f0000008"),
    ("two 32-bit entries cover a 16-bit one", "e000", "e0000000", "f8000001"),
    ("two 32-bit entries cover half of a 16-bit one, not this half", "e800", "c1300000", "f8000000"),
    ("a condition on the upper half that lets the 16-bit entry be", "f000", "c1600000", "f0010000"),
    ("a condition on the upper half takes the 16-bit entry away", "f001", "d0000000", "f0010000"),
]


def image_text(*halves):
    """Halfwords in hexadecimal as the bytes of an image: low byte first."""
    return " ".join(half[2:] + half[:2] for half in halves)


def last_list(length, *halves):
    return listing(LAST_HALVES, LAST_HALVES_TREE, image_text(*halves), length)


def last_step(address, *halves):
    return step(LAST_HALVES, LAST_HALVES_TREE, image_text(*halves), address)


# (what it shows, the question, the line)
HALVES_EXAMPLES = [
    ("the tree for the last halfword", ("generate", LAST_HALVES, [0] * 96), f"3 0 0 00000000 96 | {tree_text(LAST_HALVES_TREE)}"),
    ("the tree for the last halfword, accepted", check(LAST_HALVES, LAST_HALVES_TREE), "7 0 0 00000000 yes"),
    *[(f"last step, {what}", last_step(0, half), f"8 0 0 00000000 {item} 1 {mask}") for what, half, item, mask in LAST_ITEMS],
    *[(f"last item, {what}", last_list(2, half), f"9 0 0 00000000 1 | {item} 22222222") for what, half, item, _ in LAST_ITEMS],
    *[(f"no room, {what}", last_list(0, half), "9 17 0 00000000 |") for what, half, _, _ in LAST_ITEMS],
    # 0000 before it is entry 0 of 16 bits.
    *[(f"second item, {what}", last_list(3, "0000", half), f"9 0 0 00000000 2 | c0000000 {item[:-1]}1 33333333")
      for what, half, item, _ in LAST_ITEMS],
    *[(f"no room for the second, {what}", last_list(1, "0000", half), "9 17 1 00000000 | c0000000") for what, half, _, _ in LAST_ITEMS],
    *[(f"second step, {what}", last_step(1, "0000", half), f"8 0 0 00000000 {item[:-1]}1 2 {mask}")
      for what, half, item, mask in LAST_ITEMS],

    # A full word is read as before: 2000 2000 is entry 2 of 16 bits, 2000 0001 entry 3 of 32 bits.
    ("a full word before the last halfword", last_step(0, "2000", "2000"), "8 0 0 00000000 c0200000 1 f0000001"),
    ("the last halfword after a full word", last_step(1, "2000", "2000"), "8 0 0 00000000 e0000001 2 f0000001"),
    ("past the last halfword", last_step(2, "2000", "2000"), "8 0 0 00000000 end"),
    ("a 16-bit entry, then the last halfword", last_list(2, "2000", "2000"), "9 0 0 00000000 2 | c0200000 e0000001"),
    ("a 32-bit entry to the end", last_list(2, "2000", "0001"), "9 0 0 00000000 1 | c0300000 22222222"),
    ("a 32-bit entry to the end, a step", last_step(0, "2000", "0001"), "8 0 0 00000000 c0300000 2 f0000001"),
    # At 1 a step begins inside of it: 0001 by itself is entry 0.
    ("a step inside the 32-bit entry at the end", last_step(1, "2000", "0001"), "8 0 0 00000000 c0000001 2 f8000000"),
    ("nothing, then a 16-bit entry", last_list(2, "3000", "0000"), "9 0 0 00000000 2 | d0000000 c0000001"),
    ("nothing, then a 32-bit entry cut off", last_list(2, "8000", "7fff"), "9 0 0 00000000 2 | d0000000 e0000001"),
    ("bit 15 is there", last_list(2, "8000", "8000"), "9 0 0 00000000 1 | c0900000 22222222"),
    ("a whole lower half of one", last_list(2, "9000", "1234"), "9 0 0 00000000 1 | c0b00000 22222222"),
    # 9000 1235 7000 6000 2000: entry 10, entry 1, entry 8 of 32 bits, and the last one at 4.
    ("five halfwords", last_list(5, "9000", "1235", "7000", "6000", "2000"),
     "9 0 0 00000000 4 | c0a00000 c0100001 c0800002 e0000004 55555555"),
    ("five halfwords, no room for the last", last_list(3, "9000", "1235", "7000", "6000", "2000"),
     "9 17 4 00000000 | c0a00000 c0100001 c0800002"),
    ("five halfwords, a step at 3", last_step(3, "9000", "1235", "7000", "6000", "2000"), "8 0 0 00000000 d0000003 4 f0000000"),
    # The refusals come first.
    ("the last halfword, an odd image", listing(LAST_HALVES, LAST_HALVES_TREE, "0020 00", 1), "9 16 0 00000000 | 11111111"),
    ("the last halfword, another tree", listing(LAST_HALVES, NO_TREE, "0020", 1), "9 14 0 00000000 | 11111111"),
    ("the last halfword, another tree, a step", step(LAST_HALVES, NO_TREE, "0020", 0), "8 14 0 00000000"),
    # Without entries every lower half selects nothing.
    ("the last halfword, no entries", listing([0x10000020], NO_TREE, "0020", 1), "9 0 0 00000000 1 | d0000000"),
    ("the last halfword, any word 16 bits", listing(ANY_SHORT, ANY_TREE, "0020", 1), "9 0 0 00000000 1 | c0000000"),
    ("the last halfword, any word 32 bits", listing(ANY_LONG, ANY_TREE, "0020", 1), "9 0 0 00000000 1 | e0000000"),
]


# ---------------------------------------------------------------------------- cycles

def cycles(words, entry):
    return ("cycles", words, entry)


# Twice 1-, with 1 cycle and with 2: cycles decide nothing.
TWINS_CYCLES = table("60020002 20050210 00000002 00000002 00000001 30000001 20050210 00000002 00000002 00000002 30000001")

# Width 32, as above, with 3 and 65,535 cycles.
SHORT_OR_LONG_CYCLES = table("60020020 20001010 80000000 00000000 00000003 3000100f 20012010 c0000000 80000000 0000ffff 3000001e")

MANY_CYCLES = table("60010002 20050210 00000002 00000002 00010000 30000001")      # 65,536
NO_SUCH = "13 11 0 00000000"

# (what it shows, the question, the line). But for request 13 the lines are those of the tables without cycles.
CYCLES_EXAMPLES = [
    ("77 cycles", cycles(CYCLES_77, 0), "13 0 0 00000000 77"),
    ("77 cycles, entry 1", cycles(CYCLES_77, 1), NO_SUCH),
    *((f"cycles of {'ABCDEFG'[entry]}", cycles(WORKED_CYCLES, entry), f"13 0 0 00000000 {number}")
      for entry, number in enumerate(CYCLES_OF_WORKED)),
    *((f"worked table, cycles of entry {entry}", cycles(WORKED_CYCLES, entry), NO_SUCH)
      for entry in (7, 8, 255, 256, 262, 0x10000, 0x80000000, 0xFFFFFFFF)),
    ("cycles of twins, the first", cycles(TWINS_CYCLES, 0), "13 0 0 00000000 1"),
    ("cycles of twins, the second", cycles(TWINS_CYCLES, 1), "13 0 0 00000000 2"),
    ("cycles, entry 255 of 256", cycles([0x61000001] + entry_with(SMALL_ENTRY, 7) * 255 + entry_with(SMALL_ENTRY, 300), 255),
     "13 0 0 00000000 300"),
    ("16,384 words, cycles of the last", cycles(LONGEST_CYCLES, 118), "13 0 0 00000000 0"),
    ("16,384 words, cycles of the last of 228 words", cycles(LONGEST_CYCLES, 70), "13 0 0 00000000 65535"),
    ("16,384 words, cycles after it", cycles(LONGEST_CYCLES, 71), "13 0 0 00000000 9"),

    # "Kind 1 tables are still read, with cycles 0." Field words, heads or nothing stand after their values.
    ("kind 1, cycles", cycles(PRINTED, 0), "13 0 0 00000000 0"),
    ("kind 1, cycles of G", cycles(WORKED, 6), "13 0 0 00000000 0"),
    ("kind 1, no field, cycles", cycles([0x10010001, *SMALL_ENTRY], 0), "13 0 0 00000000 0"),
    ("kind 1, cycles of entry 7", cycles(WORKED, 7), NO_SUCH),
    ("no entries, kind 1, cycles", cycles([0x10000001], 0), NO_SUCH),
    ("no entries, kind 6, cycles", cycles([0x60000001], 0), NO_SUCH),

    # 1 to 4 before 11.
    ("cycles in the empty table", cycles([], 0), "13 1 0 00000000"),
    ("cycles, kind 7", cycles(table("70000001"), 0), "13 1 0 00000000"),
    ("cycles in a bad table, no such entry", cycles(BAD, 9), "13 2 5 00000000"),
    ("65,536 cycles asked", cycles(MANY_CYCLES, 0), "13 2 4 00000000"),
    ("65,536 cycles, no such entry", cycles(MANY_CYCLES, 1), "13 2 4 00000000"),
    ("cycles not there", cycles(CYCLES_77[:4], 0), "13 2 4 00000000"),
    ("cycles not there, nor the value", cycles(CYCLES_77[:3], 0), "13 2 3 00000000"),
    ("cycles not there, nor the mask", cycles(CYCLES_77[:2], 0), "13 2 2 00000000"),
    ("cycles, opcode value outside the mask", cycles(table("60010002 20050210 00000002 00000003 00010000 30000001"), 0), "13 3 2 00000000"),
    ("too many cycles and a field of width 0", cycles(table("60010002 20050210 00000002 00000002 00010000 30000000"), 0), "13 2 4 00000000"),
    ("too many cycles and not covered", cycles(table("60010002 20050200 00000002 00000002 00010000"), 0), "13 2 4 00000000"),
    ("cycles, not covered", cycles(table("60010002 20050200 00000002 00000002 0000004d"), 5), "13 4 1 00000000"),

    # Selection and fields.
    *((f"with cycles, {word:#04x}", lookup(WORKED_CYCLES, word), f"2 0 0 00000000 {named}") for word, named, _, _ in MARKED),
    ("77 cycles, word 3", lookup(CYCLES_77, 3), "2 0 0 00000000 0"),
    ("77 cycles, word 1", lookup(CYCLES_77, 1), "2 0 0 00000000 nothing"),
    ("77 cycles, word 4", lookup(CYCLES_77, 4), "2 7 0 00000000"),
    ("twins with cycles are ambiguous", lookup(TWINS_CYCLES, 3), "2 6 0 00000003"),
    ("65,536 cycles, word 3", lookup(MANY_CYCLES, 3), "2 2 4 00000000"),
    ("77 cycles, decoded", decode(CYCLES_77, 3, EIGHTS),
     "5 0 0 00000000 0 | 00000001 88888888 88888888 88888888 88888888 88888888 88888888 88888888"),
    ("with cycles, 0x36 decodes to G, f 0, b 1, c 2", decode(WORKED_CYCLES, 0x36, EIGHTS),
     "5 0 0 00000000 6 | 00000000 00000001 00000002 88888888 88888888 88888888 88888888 88888888"),
    ("65,536 cycles, decoded", decode(MANY_CYCLES, 3, EIGHTS), "5 2 4 00000000 " + KEPT),
    ("77 cycles, encoded", encode(CYCLES_77, 0, [1]), "6 0 0 00000000 00000003"),
    ("77 cycles, a value that does not fit", encode(CYCLES_77, 0, [2]), "6 12 0 00000000"),
    ("with cycles, A with 0, 0, 1 is E's word", encode(WORKED_CYCLES, 0, [0, 0, 1]), "6 13 0 00000001"),
    ("with cycles, G with 1, 2, 3", encode(WORKED_CYCLES, 6, [1, 2, 3]), "6 0 0 00000000 0000007b"),
    ("65,536 cycles, encoded", encode(MANY_CYCLES, 9, []), "6 2 4 00000000"),

    # The tree, its size, and what is done with it.
    ("77 cycles, 5 words", generate(CYCLES_77, 5), "3 0 0 00000000 4 | " + tree_text(PRINTED_TREE) + " 55555555"),
    ("77 cycles, 3 words", generate(CYCLES_77, 3), "3 5 0 00000000 | 00000000 00000000 00000000"),
    ("with cycles, 28 words", generate(WORKED_CYCLES, 28), "3 0 0 00000000 28 | " + tree_text(WORKED_TREE)),
    ("no entries, kind 6", generate([0x60000020], 3), "3 0 0 00000000 2 | 70200001 a0000000 33333333"),
    ("twins with cycles, 4 words", generate(TWINS_CYCLES, 4), "3 6 0 00000002 | 00000000 00000000 00000000 00000000"),
    ("65,536 cycles, 2 words", generate(MANY_CYCLES, 2), "3 2 4 00000000 | 11111111 22222222"),
    ("size, 77 cycles", size(CYCLES_77), "12 0 0 00000000 3 1"),
    ("size of the worked table with cycles", size(WORKED_CYCLES), "12 0 0 00000000 27 6"),
    ("size of twins with cycles", size(TWINS_CYCLES), "12 6 0 00000002"),
    ("size, 65,536 cycles", size(MANY_CYCLES), "12 2 4 00000000"),
    ("with cycles, the worked tree", check(WORKED_CYCLES, WORKED_TREE), ACCEPTED),
    ("with cycles, the leaves swapped", check(CYCLES_77, "70020003 80800003 90000000 a0000000"), SAYS_NO),
    ("65,536 cycles, checked", check(MANY_CYCLES, PRINTED_TREE), "7 2 4 00000000"),
    ("six halfwords with cycles, 5 words", listing(SHORT_OR_LONG_CYCLES, SHORT_OR_LONG_TREE, SIX_HALVES, 5),
     "9 0 0 00000000 5 | c0000000 c0100001 d0000003 c0000004 e0000005"),
    ("a step at 1, with cycles", step(SHORT_OR_LONG_CYCLES, SHORT_OR_LONG_TREE, SIX_HALVES, 1), "8 0 0 00000000 c0100001 3 c0000000"),
]


# ---------------------------------------------------------------------------- entries that no word selects

def zeros(length):
    return " ".join(["|"] + ["00000000"] * length)


# Width 1, labels from 7 on. An entry that matches both words, -, is 20070110 00000000 00000000 30000001 without conditions.
# - without word 0, and 1: all that the first claims is the second's.
COVERED_BY_ONE = table("10020001 20070111 00000000 00000000 30000001 40000000 00000001 00000000 20080100 00000001 00000001")
COVERED_BY_ONE_TREE = table("70010003 80000003 a0000000 90000001")
# -, 0 and 1; then the same with - in the middle, and at the end.
COVERED_BY_TWO = table("10030001 20070110 00000000 00000000 30000001 20080100 00000001 00000000 20090100 00000001 00000001")
COVERED_BY_TWO_TREE = table("70010003 80000003 90000001 90000002")
MIDDLE_COVERED = table("10030001 20070100 00000001 00000000 20080110 00000000 00000000 30000001 20090100 00000001 00000001")
LAST_COVERED = table("10030001 20070100 00000001 00000000 20080100 00000001 00000001 20090110 00000000 00000000 30000001")
# - without every word.
OWN_CONDITION = table("10010001 20070111 00000000 00000000 30000001 40000000 00000000 00000000")
OWN_CONDITION_TREE = table("70010001 a0000000")
# 0 and -: the second keeps word 1.
NOT_COVERED = table("10020001 20070100 00000001 00000000 20080110 00000000 00000000 30000001")
# 0, - without every word, 1, -: the second and the fourth are never selected.
TWO_UNREACHED = table("""10040001 20070100 00000001 00000000 20080111 00000000 00000000 30000001 40000000 00000000 00000000
    20090100 00000001 00000001 200a0110 00000000 00000000 30000001""")
# - without every word, and twice 1: ambiguous.
TWINS_AND_EXCLUDED = table("""10030001 20070111 00000000 00000000 30000001 40000000 00000000 00000000
    20080100 00000001 00000001 20090100 00000001 00000001""")
COVERED_CYCLES = table("60030001 20070110 00000000 00000000 00000005 30000001 20080100 00000001 00000000 00000006 "
                       "20090100 00000001 00000001 00000007")
# 256 entries of width 8, the values 0 to 255; the last excludes its word.
LAST_OF_256 = [0x11000008, *(word for value in range(255) for word in (0x20000800, 0xFF, value)),
               0x20000801, 0xFF, 0xFF, 0x40000000, 0, 0]
# SHORT_OR_LONG with a third entry, 11--.. of 32 bits, that excludes every word. Its condition holds in every cell: the tree is the same.
IMAGE_EXCLUDED = [0x10030020, *SHORT_OR_LONG[1:], *table("20022011 c0000000 c0000000 3000001e 40000000 00000000 00000000")]

REFUSED_0, REFUSED_1 = "19 0 00000000", "19 1 00000000"

# (what it shows, the question, the line)
REACH_EXAMPLES = [
    # Generating: as many words as the tree has, more, and one fewer. "the tree buffer is all zero"
    ("covered by one, 4 words", generate(COVERED_BY_ONE, 4), f"3 {REFUSED_0} {zeros(4)}"),
    ("covered by one, 6 words", generate(COVERED_BY_ONE, 6), f"3 {REFUSED_0} {zeros(6)}"),
    ("covered by one, 3 words", generate(COVERED_BY_ONE, 3), f"3 5 0 00000000 {zeros(3)}"),
    ("covered by two, 4 words", generate(COVERED_BY_TWO, 4), f"3 {REFUSED_0} {zeros(4)}"),
    ("covered by two, 3 words", generate(COVERED_BY_TWO, 3), f"3 5 0 00000000 {zeros(3)}"),
    ("its own condition, 2 words", generate(OWN_CONDITION, 2), f"3 {REFUSED_0} {zeros(2)}"),
    ("its own condition, 5 words", generate(OWN_CONDITION, 5), f"3 {REFUSED_0} {zeros(5)}"),
    ("its own condition, 1 word", generate(OWN_CONDITION, 1), f"3 5 0 00000000 {zeros(1)}"),
    ("its own condition, no word", generate(OWN_CONDITION, 0), "3 5 0 00000000 |"),
    ("not covered, 4 words", generate(NOT_COVERED, 4), "3 0 0 00000000 4 | 70010003 80000003 90000000 90000001"),
    ("the middle covered, 4 words", generate(MIDDLE_COVERED, 4), f"3 {REFUSED_1} {zeros(4)}"),
    ("the last covered, 4 words", generate(LAST_COVERED, 4), f"3 19 2 00000000 {zeros(4)}"),
    ("the lower of two, 4 words", generate(TWO_UNREACHED, 4), f"3 {REFUSED_1} {zeros(4)}"),
    ("6 before 19, 4 words", generate(TWINS_AND_EXCLUDED, 4), f"3 6 0 00000001 {zeros(4)}"),
    ("6 before 19, 3 words", generate(TWINS_AND_EXCLUDED, 3), f"3 5 0 00000000 {zeros(3)}"),
    ("eight conditions, 18 words", generate(EIGHT_CONDITIONS, 18), f"3 {REFUSED_0} {zeros(18)}"),
    ("eight conditions, 17 words", generate(EIGHT_CONDITIONS, 17), f"3 5 0 00000000 {zeros(17)}"),
    ("covered, with cycles", generate(COVERED_CYCLES, 4), f"3 {REFUSED_0} {zeros(4)}"),
    ("covered, cut by a word", generate(COVERED_BY_TWO[:-1], 2), "3 2 10 00000000 | 11111111 22222222"),

    # Sizing.
    ("size, covered by one", size(COVERED_BY_ONE), f"12 {REFUSED_0}"),
    ("size, covered by two", size(COVERED_BY_TWO), f"12 {REFUSED_0}"),
    ("size, its own condition", size(OWN_CONDITION), f"12 {REFUSED_0}"),
    ("size, not covered", size(NOT_COVERED), "12 0 0 00000000 3 1"),
    ("size, the middle covered", size(MIDDLE_COVERED), f"12 {REFUSED_1}"),
    ("size, the last covered", size(LAST_COVERED), "12 19 2 00000000"),
    ("size, the lower of two", size(TWO_UNREACHED), f"12 {REFUSED_1}"),
    ("size, 6 before 19", size(TWINS_AND_EXCLUDED), "12 6 0 00000001"),
    ("size, eight conditions", size(EIGHT_CONDITIONS), f"12 {REFUSED_0}"),
    ("size, covered, with cycles", size(COVERED_CYCLES), f"12 {REFUSED_0}"),
    ("size, the last of 256", size(LAST_OF_256), "12 19 255 00000000"),
    ("size, covered, cut by a word", size(COVERED_BY_TWO[:-1]), "12 2 10 00000000"),
    ("size, an image's table", size(IMAGE_EXCLUDED), "12 19 2 00000000"),

    # "lookup, decoding and encoding still take the table"; so do the other calls.
    ("covered, read", ("read", COVERED_BY_TWO), "1 0 0 00000000 1 3"),
    *((f"covered by one, word {word}", lookup(COVERED_BY_ONE, word), f"2 0 0 00000000 {named}") for word, named in ((0, "nothing"), (1, "1"))),
    *((f"covered by two, word {word}", lookup(COVERED_BY_TWO, word), f"2 0 0 00000000 {word + 1}") for word in (0, 1)),
    *((f"its own condition, word {word}", lookup(OWN_CONDITION, word), "2 0 0 00000000 nothing") for word in (0, 1)),
    ("covered, word 2", lookup(COVERED_BY_TWO, 2), "2 7 0 00000000"),
    ("covered, decoded", decode(COVERED_BY_TWO, 1, EIGHTS), "5 0 0 00000000 2 " + KEPT),
    ("its own condition, decoded", decode(OWN_CONDITION, 1, EIGHTS), "5 0 0 00000000 nothing " + KEPT),
    ("covered, encoded", encode(COVERED_BY_TWO, 0, [1]), "6 13 0 00000001"),
    ("covered, another encoded", encode(COVERED_BY_TWO, 2, []), "6 0 0 00000000 00000001"),
    ("its own condition, encoded", encode(OWN_CONDITION, 0, [1]), "6 13 0 00000001"),
    ("covered, a value that does not fit", encode(COVERED_BY_TWO, 0, [2]), "6 12 0 00000000"),
    ("covered, cycles", cycles(COVERED_CYCLES, 0), "13 0 0 00000000 5"),
    ("covered by one, its tree", check(COVERED_BY_ONE, COVERED_BY_ONE_TREE), ACCEPTED),
    ("covered by two, its tree", check(COVERED_BY_TWO, COVERED_BY_TWO_TREE), ACCEPTED),
    ("its own condition, its tree", check(OWN_CONDITION, OWN_CONDITION_TREE), ACCEPTED),
    ("covered by two, the first named", check(COVERED_BY_TWO, "70010001 90000000"), SAYS_NO),
    ("its own condition, named", check(OWN_CONDITION, "70010001 90000000"), SAYS_NO),
    ("an entry excluded, six halfwords, 5 words", listing(IMAGE_EXCLUDED, SHORT_OR_LONG_TREE, SIX_HALVES, 5),
     "9 0 0 00000000 5 | c0000000 c0100001 d0000003 c0000004 e0000005"),
    ("an entry excluded, a step at 1", step(IMAGE_EXCLUDED, SHORT_OR_LONG_TREE, SIX_HALVES, 1), "8 0 0 00000000 c0100001 3 c0000000"),
]


# ---------------------------------------------------------------------------- withdrawals

def changed(words, entry, listed):
    return ("changed", words, entry, listed)


def counts(what, words, listed, numbers):
    """(what it shows, question, line) for each entry: how many words of the list change."""
    return [(f"{what}, entry {entry} withdrawn", changed(words, entry, listed), f"22 0 0 00000000 {number}")
            for entry, number in enumerate(numbers)]


# Width 3: 1--, 11- and 111, each more specific than those before it.
ONE_IN_ANOTHER = table("10030003 20000310 00000004 00000004 30000002 20010310 00000006 00000006 30000001 20020300 00000007 00000007")
# Width 3: 111, 11- and 1--. Without an entry, the one behind it takes its number and its words.
EACH_BEHIND = table("10030003 20000300 00000007 00000007 20010310 00000006 00000006 30000001 20020310 00000004 00000004 30000002")

NO_SUCH_WITHDRAWN = "22 11 0 00000000"
MARKED_WORDS = [word for word, *_ in MARKED]
EIGHT_WORDS = list(range(8))

# (what it shows, the question, the line)
WITHDRAWAL_EXAMPLES = [
    # A: 64 words, without 16 of a = 3, and 8 of a = 0 with c 1 or 2. B: 64 without 16. C and D: 16 each. E and F: 4 each. G: 32.
    *counts("all words of the worked table", WORKED, list(range(256)), [40, 48, 16, 16, 4, 4, 32]),
    *counts("with cycles, all words of the worked table", WORKED_CYCLES, list(range(256)), [40, 48, 16, 16, 4, 4, 32]),
    *counts("the marked words", WORKED, MARKED_WORDS, [3, 1, 1, 1, 1, 1, 2]),
    *counts("with cycles, the marked words", WORKED_CYCLES, MARKED_WORDS, [3, 1, 1, 1, 1, 1, 2]),

    # The words turn to nothing.
    *counts("the printed table", PRINTED, [0, 1, 2, 3], [2]),
    *counts("77 cycles", CYCLES_77, [0, 1, 2, 3], [2]),
    *counts("every kind once", EVERY_KIND, [3, 2, 1, 0], [1]),
    *counts("short entries", SHORT, [0x80, 0x9F, 0xA0, 0x60, 0x00], [2, 1]),
    *counts("eight unmatching patterns", EIGHT_UNMATCHING, list(range(16)), [8]),
    # 256 words have bit 8; 64 of them have bit 0 and not bit 1.
    *counts("eight of everything", LONGEST_ENTRY, list(range(512)), [192]),
    *counts("width 32", SHORT_OR_LONG, [0, 0x7FFFFFFF, 0x80000000, 0xBFFFFFFF, 0xC0000000, 0xFFFFFFFF], [2, 2]),

    # 0--, --0 and 0-0: without the first 1 and 3 are nothing, without the second 4 and 6; without the third 0 and 2 are ambiguous.
    *counts("0-0 added, all words", WITH_THIRD, EIGHT_WORDS, [2, 2, 2]),
    *counts("0-0 added, word 0", WITH_THIRD, [0], [0, 0, 1]),
    *counts("0-0 added, words 2 and 0", WITH_THIRD, [2, 0], [0, 0, 2]),
    *counts("0-0 added, word 1", WITH_THIRD, [1], [1, 0, 0]),
    *counts("0-0 added, word 6", WITH_THIRD, [6], [0, 1, 0]),
    *counts("0-0 added, word 7", WITH_THIRD, [7], [0, 0, 0]),

    # To a less specific entry: before it in the table, and behind it.
    *counts("a short entry and a longer one", SHORT_AND_LONG, list(range(256)), [64, 64]),
    *counts("one in another, all words", ONE_IN_ANOTHER, EIGHT_WORDS, [2, 1, 1]),
    *counts("one in another, word 7", ONE_IN_ANOTHER, [7], [0, 0, 1]),
    *counts("each behind, all words", EACH_BEHIND, EIGHT_WORDS, [1, 1, 2]),
    *counts("each behind, word 7", EACH_BEHIND, [7], [1, 0, 0]),
    *counts("each behind, word 6", EACH_BEHIND, [6], [0, 1, 0]),
    *counts("each behind, word 4", EACH_BEHIND, [4], [0, 0, 1]),
    *counts("not covered, word 0", NOT_COVERED, [0], [1, 0]),
    *counts("not covered, word 1", NOT_COVERED, [1], [0, 1]),

    # A word counts as often as it is there; the first and the last count too.
    *counts("word 3 three times", PRINTED, [3, 0, 3, 0, 3], [3]),
    *counts("word 3 at the start", PRINTED, [3, 0, 1], [1]),
    *counts("word 3 at the end", PRINTED, [0, 1, 3], [1]),
    *counts("256 times", PRINTED, [2, 3] * 128, [256]),
    *counts("no words", PRINTED, [], [0]),
    *counts("no words, worked table", WORKED, [], [0] * 7),

    # Entries that no word selects are withdrawn too, and 19 is not judged.
    *counts("covered by one", COVERED_BY_ONE, [0, 1], [0, 1]),
    *counts("covered by two", COVERED_BY_TWO, [0, 1], [0, 1, 1]),
    *counts("covered, with cycles", COVERED_CYCLES, [0, 1], [0, 1, 1]),
    *counts("the middle covered", MIDDLE_COVERED, [0, 1], [1, 0, 1]),
    *counts("the last covered", LAST_COVERED, [0, 1], [1, 1, 0]),
    *counts("its own condition", OWN_CONDITION, [0, 1], [0]),
    *counts("two that no word selects", TWO_UNREACHED, [0, 1], [1, 0, 1, 0]),
    *counts("eight conditions", EIGHT_CONDITIONS, list(range(16)), [0]),
    *counts("256 entries, all words", LAST_OF_256, list(range(256)), [1] * 255 + [0])[::85],

    # 11, whatever the list is.
    *((f"the printed table, entry {entry:#x} withdrawn, {what}", changed(PRINTED, entry, listed), NO_SUCH_WITHDRAWN)
      for entry in (1, 2, 255, 256, 0x10000, 0x80000000, 0xFFFFFFFF)
      for what, listed in (("no words", []), ("a word", [3]), ("a high word", [4]))),
    ("an ambiguous word, no such entry withdrawn", changed(ZERO_HIGH_ZERO_LOW, 2, [2]), NO_SUCH_WITHDRAWN),
    ("worked table, entry 7 withdrawn", changed(WORKED, 7, MARKED_WORDS), NO_SUCH_WITHDRAWN),
    ("no entries, kind 1, withdrawn", changed([0x10000001], 0, []), NO_SUCH_WITHDRAWN),
    ("no entries, kind 6, withdrawn", changed([0x60000001], 0, [2]), NO_SUCH_WITHDRAWN),
    ("256 entries, entry 256 withdrawn", changed(LAST_OF_256, 256, [0]), NO_SUCH_WITHDRAWN),
    ("16,384 words, entry 85 withdrawn", changed(LONGEST, 85, []), NO_SUCH_WITHDRAWN),

    # 0-- and --0: 0 and 2 are ambiguous, 8 and 10 too high. The first unfit word decides; it is ambiguous before the withdrawal.
    ("ambiguous, entry 0 withdrawn", changed(ZERO_HIGH_ZERO_LOW, 0, [2]), "22 6 0 00000002"),
    ("ambiguous, entry 1 withdrawn", changed(ZERO_HIGH_ZERO_LOW, 1, [1, 4, 2, 0]), "22 6 0 00000002"),
    ("ambiguous word 0 first", changed(ZERO_HIGH_ZERO_LOW, 1, [0, 2]), "22 6 0 00000000"),
    ("ambiguous at the start", changed(ZERO_HIGH_ZERO_LOW, 0, [2, 1, 3]), "22 6 0 00000002"),
    ("ambiguous at the end", changed(ZERO_HIGH_ZERO_LOW, 0, [1, 3, 4, 5, 6, 7, 2]), "22 6 0 00000002"),
    ("a high word at the start", changed(ZERO_HIGH_ZERO_LOW, 0, [8, 1, 3]), "22 7 0 00000000"),
    ("a high word at the end", changed(ZERO_HIGH_ZERO_LOW, 0, [1, 3, 4, 5, 6, 7, 8]), "22 7 0 00000000"),
    ("a high word before an ambiguous one", changed(ZERO_HIGH_ZERO_LOW, 0, [1, 8, 2]), "22 7 0 00000000"),
    ("an ambiguous word before a high one", changed(ZERO_HIGH_ZERO_LOW, 0, [1, 2, 8]), "22 6 0 00000002"),
    ("high, ambiguous, high", changed(ZERO_HIGH_ZERO_LOW, 1, [10, 2, 8]), "22 7 0 00000000"),
    ("ambiguous, high, ambiguous", changed(ZERO_HIGH_ZERO_LOW, 1, [2, 10, 0]), "22 6 0 00000002"),
    ("the highest word", changed(PRINTED, 0, [3, 0xFFFFFFFF]), "22 7 0 00000000"),
    ("the first word over the width, with cycles", changed(CYCLES_77, 0, [4]), "22 7 0 00000000"),
    ("twins with cycles, one withdrawn", changed(TWINS_CYCLES, 1, [0, 3]), "22 6 0 00000003"),

    # Ambiguous words that are not in the list.
    *counts("0-- and --0, the words that are not ambiguous", ZERO_HIGH_ZERO_LOW, [1, 3, 4, 5, 6, 7], [2, 2]),
    *counts("twins with cycles, the other words", TWINS_CYCLES, [0, 1], [0, 0]),
    *counts("6 and 19 elsewhere", TWINS_AND_EXCLUDED, [0, 0], [0, 0, 0]),
    ("6 and 19", changed(TWINS_AND_EXCLUDED, 0, [0, 1]), "22 6 0 00000001"),
    ("16,384 words, the last withdrawn", changed(LONGEST, 84, [1, 0x101]), "22 0 0 00000000 0"),
    ("16,384 words, an ambiguous one", changed(LONGEST, 84, [1, 0x101, 0x100]), "22 6 0 00000100"),
    ("16,384 words with cycles", changed(LONGEST_CYCLES, 118, [2, 0x101]), "22 0 0 00000000 0"),

    # 1 to 4 before 11, and before the words.
    ("withdrawn from the empty table", changed([], 0, []), "22 1 0 00000000"),
    ("withdrawn from 16,385 words", changed(ONE_TOO_LONG, 0, [1]), "22 1 0 00000000"),
    ("withdrawn from kind 7", changed(table("70000001"), 0, [4]), "22 1 0 00000000"),
    ("withdrawn from a bad table", changed(BAD, 0, [3]), "22 2 5 00000000"),
    ("withdrawn from a bad table, a high word", changed(BAD, 0, [4]), "22 2 5 00000000"),
    ("withdrawn from a bad table, no such entry", changed(BAD, 9, [4]), "22 2 5 00000000"),
    ("withdrawn, 65,536 cycles", changed(MANY_CYCLES, 1, []), "22 2 4 00000000"),
    ("withdrawn, opcode value outside the mask", changed(table("10010002 20050210 00000002 00000003 30000001"), 0, [3]), "22 3 2 00000000"),
    ("withdrawn, not covered", changed(table("10010002 20050200 00000002 00000002"), 1, [3]), "22 4 1 00000000"),
    # The fault is in the entry that is withdrawn, and the rest is good.
    ("the faulty entry withdrawn", changed(table("10020001 20000100 00000001 00000000 20000100 00000001 00000002"), 1, [0]),
     "22 3 5 00000000"),
]


# ---------------------------------------------------------------------------- operands with a sign or a point

ROOM = bytes(range(0xA0, 0xA0 + 28))        # what a text's buffer holds before; its first bytes are lent


def signed(field, value):
    return ("signed", field, value)


def stored(field, number):
    return ("stored", field, number)


def text(field, value, length):
    return ("text", field, value, ROOM[:length])


def room_text(length, written=""):
    """A buffer of so many bytes with a text at its start."""
    return " ".join(["|", *(f"{byte:02x}" for byte in (written.encode() + ROOM[len(written):])[:length])])


def two_ways(field, value, number):
    """(what it shows, question, line): from the value to the number, and back."""
    what = f"field {field:08x}, value {value:x}"
    return [(what, signed(field, value), f"14 0 0 00000000 {number}"),
            (what + ", back", stored(field, number), f"15 0 0 00000000 {value:08x}")]


def texts(field, value, written):
    """The same of the text: in a buffer of its length, and of two bytes more; not in one that is a byte shorter."""
    what, size = f"field {field:08x}, text of {value:x}", len(written)
    return [(what, text(field, value, size), f"16 0 0 00000000 {size} {room_text(size, written)}"),
            (what + ", room left", text(field, value, size + 2), f"16 0 0 00000000 {size} {room_text(size + 2, written)}"),
            (what + ", too short", text(field, value, size - 1), f"16 18 0 00000000 {room_text(size - 1)}")]


def refused(what, number, field, value):
    """By all three calls; the text has no room, which is judged last."""
    return [(f"{what}, signed", signed(field, value), f"14 {number} 0 00000000"),
            (f"{what}, stored", stored(field, value), f"15 {number} 0 00000000"),
            (f"{what}, text", text(field, value, 0), f"16 {number} 0 00000000 |")]


# Width 9, entry 1--------; its field has eight bits, four of them after the point.
EIGHT_FOUR = 0x32040008
POINT = table("10010009 20050910 00000100 00000100 32040008")

# Twice 1-, with a signed field and with a plain one: forms decide nothing.
TWINS_FORMS = table("10020002 20050210 00000002 00000002 31000001 20050210 00000002 00000002 30000001")

# (what it shows, the question, the line)
NUMBERS_EXAMPLES = [
    # "Eight bits with four fraction bits: 0xF8 is -0.5000."
    ("0xf8 is -0.5000", text(EIGHT_FOUR, 0xF8, 8), "16 0 0 00000000 7 | 2d 30 2e 35 30 30 30 a7"),
    ("0xf8 is -8 of its smallest steps", signed(EIGHT_FOUR, 0xF8), "14 0 0 00000000 -8"),
    ("-8 is 0xf8", stored(EIGHT_FOUR, -8), "15 0 0 00000000 000000f8"),

    # Numbers, both ways. Field words: form, fraction bits, lowest bit 0, width.
    *(case for field, value, number in [
        (0x30000001, 0, 0), (0x30000001, 1, 1), (0x31000001, 0, 0), (0x31000001, 1, -1), (0x32000001, 1, -1), (0x32010001, 1, -1),
        (0x30000008, 0xF8, 248), (0x31000008, 0xF8, -8), (0x32000008, 0xF8, -8), (0x32080008, 0xF8, -8),
        (0x31000008, 0x7F, 127), (0x31000008, 0x80, -128), (0x31000008, 0xFF, -1), (0x31000008, 0, 0),
        (0x31000010, 0x8000, -32768), (0x32100010, 0x7FFF, 32767), (0x3100001F, 0x40000000, -1073741824),
        (0x30000020, 0xFFFFFFFF, 4294967295), (0x30000020, 0x80000000, 2147483648), (0x31000020, 0xFFFFFFFF, -1),
        (0x31000020, 0x80000000, -2147483648), (0x31000020, 0x7FFFFFFF, 2147483647), (0x32100020, 0x80000001, -2147483647),
        # the lowest bit is not judged
        (0x3000FF08, 0xF8, 248), (0x3100FF20, 0x80000000, -2147483648), (0x32042008, 0xF8, -8)] for case in two_ways(field, value, number)),

    # Texts.
    *(case for field, value, written in [
        (0x30000001, 0, "0"), (0x30000001, 1, "1"), (0x31000001, 1, "-1"), (0x31000001, 0, "0"), (0x32000001, 1, "-1"),
        (0x32010001, 1, "-0.5"), (0x32010001, 0, "0.0"),
        (0x32010004, 0, "0.0"), (0x32010004, 7, "3.5"), (0x32010004, 8, "-4.0"), (0x32010004, 0xF, "-0.5"), (0x32010004, 0xD, "-1.5"),
        (0x30000008, 0xF8, "248"), (0x31000008, 0xF8, "-8"), (0x32000008, 0xF8, "-8"), (0x30000008, 100, "100"), (0x32000008, 10, "10"),
        (EIGHT_FOUR, 0xF8, "-0.5000"), (EIGHT_FOUR, 0x08, "0.5000"), (EIGHT_FOUR, 0, "0.0000"), (EIGHT_FOUR, 0x10, "1.0000"),
        (EIGHT_FOUR, 0xF0, "-1.0000"), (EIGHT_FOUR, 0x7F, "7.9375"), (EIGHT_FOUR, 0x80, "-8.0000"), (EIGHT_FOUR, 0x01, "0.0625"),
        (EIGHT_FOUR, 0xEF, "-1.0625"), (0x3204FF08, 0xF8, "-0.5000"),
        (0x32080008, 0x80, "-0.50000000"), (0x32080008, 0x01, "0.00390625"), (0x32080008, 0xFF, "-0.00390625"),
        (0x32100010, 0x8000, "-0.5000000000000000"), (0x32100010, 0x7FFF, "0.4999847412109375"),
        (0x30000020, 0xFFFFFFFF, "4294967295"), (0x31000020, 0x80000000, "-2147483648"), (0x31000020, 0x7FFFFFFF, "2147483647"),
        (0x32010020, 0x80000001, "-1073741823.5"), (0x32100020, 0x00000001, "0.0000152587890625"),
        (0x32100020, 0xFFFFFFFF, "-0.0000152587890625"), (0x32100020, 0x7FFFFFFF, "32767.9999847412109375"),
        (0x32100020, 0x80000000, "-32768.0000000000000000")] for case in texts(field, value, written)),

    # "a wrong kind or spare bit gives 2"; what comes after is wrong too, where it can be.
    *(case for field in (0x20000008, 0x40000008, 0x00000008, 0xB0000008, 0x20000021) for case in refused(f"kind, {field:08x}", 2, field, 0x100)),
    *(case for field in (0x30010008, 0x30800008, 0x31010008, 0x31800008, 0x33010008, 0x3FFF0008, 0x30040000, 0x310800FF)
      for case in refused(f"spare bit, {field:08x}", 2, field, 0x100)),

    # "then a width outside 1-32 or a form fault as above 4"
    *(case for field in (0x30000000, 0x31000000, 0x32000000, 0x30000021, 0x31000021, 0x32100021, 0x300000FF, 0x3210FFFF)
      for case in refused(f"width, {field:08x}", 4, field, 0)),
    *(case for field in (0x33000008, 0x34000008, 0x38000008, 0x3F000008, 0x32090008, 0x32020001, 0x32110011, 0x32110020, 0x32FF0020)
      for case in refused(f"form, {field:08x}", 4, field, 0)),
    ("form 3, a value out of range", signed(0x33000008, 0x100), "14 4 0 00000000"),
    ("form 3, a number out of range", stored(0x33000008, -129), "15 4 0 00000000"),
    ("form 3, the text of a value out of range", text(0x33000008, 0x100, 0), "16 4 0 00000000 |"),

    # "then a value out of range 12"
    *((f"field {field:08x}, value {value:x} out of range", signed(field, value), "14 12 0 00000000")
      for field, value in [(0x30000001, 2), (0x31000001, 2), (0x30000008, 0x100), (0x31000008, 0x100), (EIGHT_FOUR, 0x1F8),
                           (0x31000008, 0xFFFFFFF8), (0x3000001F, 0x80000000), (0x3100001F, 0xFFFFFFFF)]),
    *((f"field {field:08x}, number {number} out of range", stored(field, number), "15 12 0 00000000")
      for field, number in [(0x30000001, 2), (0x30000001, -1), (0x31000001, 1), (0x31000001, -2), (0x30000008, 256), (0x30000008, -1),
                            (0x31000008, 128), (0x31000008, -129), (EIGHT_FOUR, 128), (EIGHT_FOUR, -129), (0x30000020, 4294967296),
                            (0x30000020, -1), (0x31000020, 2147483648), (0x31000020, -2147483649), (0x31000020, 4294967295),
                            (0x31000020, -4294967296), (0x31000008, 4294967296), (0x31000008, -4294967297), (0x30000020, 2 ** 63 - 1),
                            (0x31000020, -2 ** 63), (0x30000020, -2 ** 63)]),
    *((f"field {field:08x}, text of {value:x} out of range, {length} bytes", text(field, value, length), "16 12 0 00000000 " + room_text(length))
      for field, value in [(0x30000008, 0x100), (0x31000001, 2), (EIGHT_FOUR, 0xFFFFFFF8)] for length in (0, 3, 20)),

    # "Encoding and decoding keep to stored values"; nothing else depends on forms.
    ("with a point, word 1f8", lookup(POINT, 0x1F8), "2 0 0 00000000 0"),
    ("with a point, word 1f8 decoded", decode(POINT, 0x1F8, EIGHTS),
     "5 0 0 00000000 0 | 000000f8 88888888 88888888 88888888 88888888 88888888 88888888 88888888"),
    ("with a point, f8 encoded", encode(POINT, 0, [0xF8]), "6 0 0 00000000 000001f8"),
    ("with a point, 100 does not fit", encode(POINT, 0, [0x100]), "6 12 0 00000000"),
    ("with a point, -8 is no stored value", encode(POINT, 0, [0xFFFFFFF8]), "6 12 0 00000000"),
    ("with a point, 5 words", generate(POINT, 5), "3 0 0 00000000 4 | 70090003 84000003 a0000000 90000000 55555555"),
    ("size, with a point", size(POINT), "12 0 0 00000000 3 1"),
    ("with a point, its tree", check(POINT, "70090003 84000003 a0000000 90000000"), ACCEPTED),
    ("with a point, cycles", cycles(POINT, 0), "13 0 0 00000000 0"),
    ("twins with forms are ambiguous", lookup(TWINS_FORMS, 3), "2 6 0 00000003"),
    ("size of twins with forms", size(TWINS_FORMS), "12 6 0 00000002"),
    ("form 3, word 1f8", lookup(table("10010009 20050910 00000100 00000100 33000008"), 0x1F8), "2 4 4 00000000"),
    ("9 fraction bits of 8, decoded", decode(table("10010009 20050910 00000100 00000100 32090008"), 0x1F8, EIGHTS), "5 4 4 00000000 " + KEPT),
    ("a spare bit, encoded", encode(table("10010009 20050910 00000100 00000100 31040008"), 0, [0xF8]), "6 2 4 00000000"),
]


# ---------------------------------------------------------------------------- tables in another order

# The worked table from its last entry to its first, and its tree: entry e is entry 6 - e.
WORKED_BACKWARDS = table("""
    10070008
    20100830 000000b0 00000030 30000601 30000202 30000002
    200f0810 000000f3 00000002 30000202
    200e0810 000000f3 00000001 30000202
    200d0820 000000c3 00000081 30000402 30000202
    200c0820 000000c3 00000080 30000402 30000202
    200b0831 000000c0 00000040 30000402 30000202 30000002
      40000000 00000030 00000030
    200a0832 000000c0 00000000 30000402 30000202 30000002
      40000002 00000030 00000000 50000000 00000003 00000000 50000000 00000003 00000003
      40000000 00000030 00000030
""")
WORKED_BACKWARDS_TREE = table("""7008001b
    83800015 83000010 8280000d 8200000c 80800009 80000008 90000006 90000002 8000000b 90000001 90000006
      90000006 8200000f 90000006 90000000
      82800012 90000005 82000014 90000005 90000000
    8300001b 8080001a 80000019 90000004 90000003 a0000000 a0000000""")
# --0, 0-- and 0-0: bits 2 and 0 are each in two masks, and the highest is tested, whichever entry comes first.
LOW_FIRST = table("""10030003 20010310 00000001 00000000 30000102 20000310 00000004 00000000 30000002
    20020310 00000005 00000000 30000101""")
LOW_FIRST_TREE = table("70030007 81000005 80000004 90000002 90000001 80000007 90000000 a0000000")
# -, 1, - without every word, 0: now the first and the third are never selected.
TWO_UNREACHED_BACKWARDS = table("""10040001 200a0110 00000000 00000000 30000001 20090100 00000001 00000001
    20080111 00000000 00000000 30000001 40000000 00000000 00000000 20070100 00000001 00000000""")
# 1, - and 0, with cycles and without.
COVERED_ROTATED = table("10030001 20090100 00000001 00000001 20070110 00000000 00000000 30000001 20080100 00000001 00000000")
COVERED_CYCLES_ROTATED = table("60030001 20090100 00000001 00000001 00000007 20070110 00000000 00000000 00000005 30000001 "
                               "20080100 00000001 00000000 00000006")
# Width 1, each word twice.
TWICE_ZERO_FIRST = table("10040001 20000100 00000001 00000000 20010100 00000001 00000000 "
                         "20020100 00000001 00000001 20030100 00000001 00000001")
TWICE_ONE_FIRST = table("10040001 20020100 00000001 00000001 20030100 00000001 00000001 "
                        "20000100 00000001 00000000 20010100 00000001 00000000")
# Width 3: --- without --1, and --- without 1-1 and --0. Bit 2 is the highest in their conditions; the first entry alone has bit 0.
CONDITIONS_APART = table("10020003 20000311 00000000 00000000 30000003 40000000 00000001 00000001 "
                         "20010312 00000000 00000000 30000003 40000000 00000005 00000005 40000000 00000001 00000000")
CONDITIONS_APART_TREE = table("70030007 81000005 80000004 90000000 90000001 80000007 90000000 a0000000")
CONDITIONS_APART_BACKWARDS = table("10020003 20010312 00000000 00000000 30000003 40000000 00000005 00000005 40000000 00000001 00000000 "
                                   "20000311 00000000 00000000 30000003 40000000 00000001 00000001")
CONDITIONS_APART_BACKWARDS_TREE = table("70030007 81000005 80000004 90000001 90000000 80000007 90000001 a0000000")
# The entries of SHORT_OR_LONG exchanged, and its tree.
LONG_OR_SHORT = (table("10020020 20012010 c0000000 80000000 3000001e 20001010 80000000 00000000 3000100f"),
                 table("70200005 8f800003 90000001 8f000005 90000000 a0000000"))

# (table, order, the reordered table): entry e of the table is the entry of the reordered one that the order has at e.
REORDERED = [
    (WORKED, [6, 5, 4, 3, 2, 1, 0], WORKED_BACKWARDS),
    (WITH_THIRD, [1, 0, 2], LOW_FIRST),
    (TWO_UNREACHED, [3, 2, 1, 0], TWO_UNREACHED_BACKWARDS),
    (COVERED_BY_TWO, [1, 2, 0], COVERED_ROTATED),
    (COVERED_CYCLES, [1, 2, 0], COVERED_CYCLES_ROTATED),
    (TWICE_ZERO_FIRST, [2, 3, 0, 1], TWICE_ONE_FIRST),
    (CONDITIONS_APART, [1, 0], CONDITIONS_APART_BACKWARDS),
    (SHORT_OR_LONG, [1, 0], LONG_OR_SHORT[0]),
]

# (what it shows, the question, the line)
SHUFFLE_EXAMPLES = [
    ("the worked table backwards, 28 words", generate(WORKED_BACKWARDS, 28), "3 0 0 00000000 28 | " + tree_text(WORKED_BACKWARDS_TREE)),
    ("the worked table backwards, 27 words", generate(WORKED_BACKWARDS, 27), f"3 5 0 00000000 {zeros(27)}"),
    ("size of the worked table backwards", size(WORKED_BACKWARDS), "12 0 0 00000000 27 6"),
    *((f"the worked table backwards, {word:#04x}", lookup(WORKED_BACKWARDS, word),
       f"2 0 0 00000000 {named if named == 'nothing' else 6 - int(named)}") for word, named, _, _ in MARKED),
    ("backwards, 0x36 decodes to G", decode(WORKED_BACKWARDS, 0x36, EIGHTS),
     "5 0 0 00000000 0 | 00000000 00000001 00000002 88888888 88888888 88888888 88888888 88888888"),
    ("backwards, encoding A with 0, 0, 1", encode(WORKED_BACKWARDS, 6, [0, 0, 1]), "6 13 0 00000001"),
    ("0-0 added, the second first", generate(LOW_FIRST, 9), "3 0 0 00000000 8 | " + tree_text(LOW_FIRST_TREE) + " 99999999"),
    ("conditions with other bits", generate(CONDITIONS_APART, 8), "3 0 0 00000000 8 | " + tree_text(CONDITIONS_APART_TREE)),
    ("conditions with other bits, backwards", generate(CONDITIONS_APART_BACKWARDS, 8),
     "3 0 0 00000000 8 | " + tree_text(CONDITIONS_APART_BACKWARDS_TREE)),
    # The entry of TWO_UNREACHED that was the lower one has become the higher one.
    ("two unreached, backwards, 4 words", generate(TWO_UNREACHED_BACKWARDS, 4), f"3 19 0 00000000 {zeros(4)}"),
    ("two unreached, backwards, 3 words", generate(TWO_UNREACHED_BACKWARDS, 3), f"3 5 0 00000000 {zeros(3)}"),
    ("size, two unreached, backwards", size(TWO_UNREACHED_BACKWARDS), "12 19 0 00000000"),
    ("covered, rotated, 4 words", generate(COVERED_ROTATED, 4), f"3 19 1 00000000 {zeros(4)}"),
    ("size, covered, rotated", size(COVERED_ROTATED), "12 19 1 00000000"),
    *((f"covered, rotated, word {word}", lookup(COVERED_ROTATED, word), f"2 0 0 00000000 {named}") for word, named in ((0, 2), (1, 0))),
    *((f"covered, rotated, cycles of {entry}", cycles(COVERED_CYCLES_ROTATED, entry), f"13 0 0 00000000 {number}")
      for entry, number in enumerate((7, 5, 6))),
    # "6 and the word": that of the first conflict cell in node order, not of the first entries.
    *((f"{what}, {length} words", generate(words, length), f"3 {number} 0 00000000 {zeros(length)}")
      for what, words in (("twice 0, twice 1", TWICE_ZERO_FIRST), ("twice 1, twice 0", TWICE_ONE_FIRST))
      for number, length in ((6, 4), (5, 3))),
    ("twice 1, twice 0, word 1", lookup(TWICE_ONE_FIRST, 1), "2 6 0 00000001"),
    ("twice 1, twice 0, word 0", lookup(TWICE_ONE_FIRST, 0), "2 6 0 00000000"),

    # Trees with their leaves renumbered, and not.
    ("the worked table backwards, its tree", check(WORKED_BACKWARDS, WORKED_BACKWARDS_TREE), ACCEPTED),
    ("the worked table backwards, the tree as it was", check(WORKED_BACKWARDS, WORKED_TREE), SAYS_NO),
    ("the worked table, the tree backwards", check(WORKED, WORKED_BACKWARDS_TREE), SAYS_NO),
    ("0-0 added, the second first, its tree", check(LOW_FIRST, LOW_FIRST_TREE), ACCEPTED),
    ("0-0 added, the second first, the tree as it was", check(LOW_FIRST, WITH_THIRD_TREE), SAYS_NO),
    ("the entries exchanged, the tree as it was", check(LONG_OR_SHORT[0], SHORT_OR_LONG_TREE), SAYS_NO),

    # The items of IMAGE_EXAMPLES: kind 12 names the other entry, and kinds 13 and 14 stay.
    ("the entries exchanged, six halfwords, 7 words", listing(*LONG_OR_SHORT, SIX_HALVES, 7),
     "9 0 0 00000000 5 | c0100000 c0000001 d0000003 c0100004 e0000005 66666666 77777777"),
    ("the entries exchanged, six halfwords, 2 words", listing(*LONG_OR_SHORT, SIX_HALVES, 2), "9 17 3 00000000 | c0100000 c0000001"),
    ("the entries exchanged, the tree as it was, listed", listing(LONG_OR_SHORT[0], SHORT_OR_LONG_TREE, SIX_HALVES, 2),
     "9 14 0 00000000 | 11111111 22222222"),
    *((f"the entries exchanged, a step at {address}", step(*LONG_OR_SHORT, SIX_HALVES, address), f"8 0 0 00000000 {said}")
      for address, said in enumerate(["c0100000 1 80000000", "c0000001 3 c0000000", "c0100002 3 80000000", "d0000003 4 c0000000",
                                      "c0100004 5 80000000", "e0000005 6 c0000000", "end"])),

    # As in WITHDRAWAL_EXAMPLES, each count with its entry.
    *counts("all words of the worked table backwards", WORKED_BACKWARDS, list(range(256)), [32, 4, 4, 16, 16, 48, 40]),
    *counts("0-0 added, the second first, word 1", LOW_FIRST, [1], [0, 1, 0]),
    *counts("0-0 added, the second first, word 6", LOW_FIRST, [6], [1, 0, 0]),
    ("the worked table backwards, entry 7 withdrawn", changed(WORKED_BACKWARDS, 7, MARKED_WORDS), NO_SUCH_WITHDRAWN),
    *((f"twice 1, twice 0, ambiguous, entry {entry} withdrawn", changed(TWICE_ONE_FIRST, entry, [1, 0]), "22 6 0 00000001")
      for entry in range(4)),
]
