"""Checks the instruction sets in data/: each table is what its list makes, its tree is the second implementation's, what
probe selects is what the second implementation selects and what a decoder in decoders/ names, and its cycles are the list's. The twin
of a table, which is of the other kind, has the same tree and selects the same; without forms it has the same tree. Its forms are those
written here, and operands of known words come out as known numbers and texts. Images that a transfer has cut end in a halfword that is
listed as written here, and as the decoder names all words that it begins. With two instructions more that cover an old one it has
no tree. If an instruction is withdrawn, the words change that the decoder names so. With its instructions in another order it has the same
tree but for the numbers in the leaves, and a word selects the instruction that the decoder names. A table that somebody adds to data/, with
a list or without, has no such decoder, and is compared with the second implementation alone.

Usage: compare_data.py [path of probe [path of mktree]]. Exits with status 1 at the first difference.
"""

import random
import struct
import sys
import tempfile
from collections import Counter
from dataclasses import dataclass, replace
from pathlib import Path

import masks
import mktree
import probe
import twinned

DATA = Path(__file__).resolve().parent.parent / "data"
sys.path.insert(1, str(DATA))

import decoders.a32
import decoders.avr
import decoders.buoy
import decoders.riscv
import make
from patterns import POINT, SIGNED, Form, field_words, fields_of, listed, mask_and_value, table_bytes, table_words
from second import examples, halves, shuffles
from second.images import image_of
from second.lines import line_of, mktree_text, read_line
from second.reader import Refusal, read
from second.selection import AMBIGUOUS, NOTHING, select
from second.tree import nodes_once
from second.twins import Twins, cycles_of, heads_in

SEED = 9
TWINS = Twins(902)
MASK_SEED = 901                 # words that agree on a mask; the other draws don't depend on them
FORM_SEED = 903                 # forms that are added
COVER_SEED = 904                # instructions that are covered
WITHDRAWAL_SEED = 905           # instructions that are withdrawn
SHUFFLE_SEED = 906              # orders of instructions
DECODERS = {"avr": decoders.avr, "riscv": decoders.riscv, "a32": decoders.a32, "buoy": decoders.buoy}
RANDOM_WORDS = 5400
WORDS_AT_LEAST_EACH = 30        # words made of each entry, and as many neighbours
MADE_WORDS = 7500
ALTERED = 15                    # altered sets of each, which the decoder must tell from the real one
WORDS_FOR_ALTERED = 40
COVERED = 3                     # instructions of each set that are covered
WITHDRAWN = 12                  # instructions of each set that are withdrawn
WORDS_FOR_WITHDRAWN = 40
DRAWN_ORDERS = 2                # of each set, beside the one from its last instruction to its first
WORDS_FOR_SHUFFLED = 300        # looked up in each order
LABEL_BITS = 0x0FFF0000         # in the head of an entry
ADDED_WORDS = 200               # looked up in a table that somebody added
TWIN_EACH = 5                   # every so many-th word is looked up in the twin too

# Words as assemblers print them, known without any table of ours.
KNOWN = {
    "avr": {0x940C0034: "JMP", 0x940E0040: "CALL", 0x24110000: "EOR", 0xBE1F0000: "OUT", 0xEFCF0000: "LDI",
            0x95080000: "RET", 0x95180000: "RETI", 0x94F80000: "BCLR", 0x94780000: "BSET", 0xCFFF0000: "RJMP", 0x93CF0000: "PUSH",
            0x91CF0000: "POP", 0x95C80000: "LPM", 0x91800100: "LDS", 0x93800100: "STS", 0x96210000: "ADIW", 0x9A280000: "SBI",
            0xF7E90000: "BRBC", 0x00000000: "NOP", 0x81880000: "LDD Y", 0x83880000: "STD Y", 0xFFFF0000: "nothing"},
    "riscv": {0x00000013: "ADDI", 0x00008067: "JALR", 0x00000073: "ECALL", 0x00100073: "EBREAK", 0x0FF0000F: "FENCE",
              0x8330000F: "FENCE.TSO", 0x0100000F: "PAUSE", 0x0000100F: "FENCE.I", 0x30200073: "MRET", 0x10200073: "SRET",
              0x10500073: "WFI", 0x12000073: "SFENCE.VMA", 0xFE010113: "ADDI", 0x00113C23: "SD", 0x02A5F553: "FADD.D",
              0x02B50533: "MUL", 0x1005252F: "LR.W", 0x0805453B: "ZEXT.H", 0x6B855513: "REV8", 0x00000000: "nothing",
              0xFFFFFFFF: "nothing", 0xC0102573: "CSRRS"},
    "a32": {0xE3A00001: "MOV", 0xE1A00000: "MOV", 0xE12FFF1E: "BX", 0xE12FFF33: "BLX", 0xE92D4800: "PUSH", 0xE8BD8800: "POP",
            0xE0810392: "UMULL", 0xE0010392: "MUL", 0xE320F000: "NOP", 0xEF000000: "SVC", 0xE59F0004: "LDR", 0xEAFFFFFE: "B",
            0xEB000000: "BL", 0xFA000000: "BLX", 0xF57FF05F: "DMB", 0xF57FF04F: "DSB", 0xF57FF06F: "ISB", 0xF57FF01F: "CLREX",
            0xE1200070: "BKPT", 0xE7F000F0: "UDF", 0xE10F0000: "MRS", 0xE129F000: "MSR", 0xE28F0004: "ADR", 0xE16F0F11: "CLZ",
            0xE1D000B0: "LDRH", 0xE1C000B0: "STRH", 0xE1900F9F: "LDREX", 0xE6EF0071: "UXTB", 0xE7E70050: "UBFX",
            0xEE070F15: "MCR", 0xE2500001: "SUB", 0xF5D0F000: "PLD", 0xE320F0EF: "HINT", 0xE320F0F3: "DBG", 0xF4100000: "MEMORY HINT",
            0xF6100010: "nothing"},
    "buoy": {0x0F000000: "TRIP", 0x1FF30000: "ADD", 0x1F030000: "TRIP", 0xB1000000: "nothing", 0xB1F00000: "DOZE",
             0xB1FF0000: "SLEEP", 0x9F100000: "LAMP OFF", 0xB0000000: "RETURN", 0xB0010000: "RELEASE", 0xE8000000: "STOP",
             0xEFF00000: "STOP ALL", 0xEFF00001: "nothing", 0xEFF00100: "SAMPLE"},
}

# The fields with a form, known from the manuals: mnemonic, lowest bit in the word, width, form, bits after the point. (In buoy's case from
# the story of its versions.) Every other field is plain.
I_TYPE = ("JALR", "LB", "LH", "LW", "LD", "LBU", "LHU", "LWU", "ADDI", "SLTI", "SLTIU", "XORI", "ORI", "ANDI", "ADDIW", "FLH", "FLW", "FLD")
FORMS = {
    "avr": {("RJMP", 16, 12, 1, 0), ("RCALL", 16, 12, 1, 0), ("BRBS", 19, 7, 1, 0), ("BRBC", 19, 7, 1, 0)},
    "riscv": {*((mnemonic, 20, 12, 1, 0) for mnemonic in I_TYPE), ("LUI", 12, 20, 1, 0), ("AUIPC", 12, 20, 1, 0),
              *((f"PREFETCH.{letter}", 25, 7, 1, 0) for letter in "IRW")},
    "a32": {("B", 0, 24, 1, 0), ("BL", 0, 24, 1, 0), ("BLX", 0, 24, 1, 0)},
    "buoy": {("SET", 16, 8, 1, 0), ("BRANCH", 16, 8, 1, 0), ("CALL", 16, 12, 1, 0), ("COMPARE", 16, 8, 1, 0), ("SET LONG", 0, 16, 1, 0),
             ("FILTER", 0, 16, 2, 12)},
}

# Operands of words as assemblers print them: the word, the field's number in its entry, the signed number, the text.
OPERANDS = {
    "avr": [(0xCFFF0000, 0, -1, "-1"),                      # rjmp .-2: one word back, to itself
            (0xC0000000, 0, 0, "0"),                        # rjmp .+0
            (0xC8000000, 0, -2048, "-2048"),                # rjmp .-4096
            (0xC7FF0000, 0, 2047, "2047"),                  # rjmp .+4094
            (0xDFFD0000, 0, -3, "-3"),                      # rcall .-6
            (0xF7F10000, 0, -2, "-2"),                      # brne .-4
            (0xF7F10000, 1, 1, "1"),                        # its flag, Z
            (0xF0090000, 0, 1, "1"),                        # breq .+2
            (0xF2000000, 0, -64, "-64"),                    # brcs .-128
            (0xEF8F0000, 0, 15, "15")],                     # ldi r24, 0xFF: the upper half of it
    "riscv": [(0xFFF50513, 0, -1, "-1"),                    # addi a0, a0, -1
              (0xFFF50513, 1, 10, "10"),                    # its register a0
              (0x80010113, 0, -2048, "-2048"),              # addi sp, sp, -2048
              (0x7FF00513, 0, 2047, "2047"),                # li a0, 2047
              (0xFE843783, 0, -24, "-24"),                  # ld a5, -24(s0)
              (0xFFC52503, 0, -4, "-4"),                    # lw a0, -4(a0)
              (0xFFF53513, 0, -1, "-1"),                    # sltiu a0, a0, -1
              (0xFFF54513, 0, -1, "-1"),                    # not a0, a0
              (0xFFF7879B, 0, -1, "-1"),                    # addiw a5, a5, -1
              (0x00008067, 0, 0, "0"),                      # ret
              (0xFFFFF537, 0, -1, "-1"),                    # lui a0, 0xfffff
              (0x80000537, 0, -524288, "-524288"),          # lui a0, 0x80000
              (0x00001517, 0, 1, "1"),                      # auipc a0, 0x1
              (0xFE056013, 0, -1, "-1"),                    # prefetch.i -32(a0)
              (0x03F51513, 0, 63, "63")],                   # slli a0, a0, 63
    "a32": [(0xEAFFFFFE, 1, -2, "-2"),                      # b to itself
            (0xEAFFFFFE, 0, 14, "14"),                      # its condition, AL
            (0xEB000000, 1, 0, "0"),
            (0xEA7FFFFF, 1, 8388607, "8388607"),            # the farthest on
            (0xEA800000, 1, -8388608, "-8388608"),          # the farthest back
            (0xFAFFFFFF, 1, -1, "-1"),                      # blx
            (0xEFFFFFFF, 1, 16777215, "16777215")],         # svc
    "buoy": [(0x40FF0000, 1, -1, "-1"), (0x417F0000, 1, 127, "127"), (0x90800000, 1, -128, "-128"), (0xAFFE0000, 0, -2, "-2"),
             (0xD0800000, 1, -128, "-128"), (0xE3008000, 1, -32768, "-32768"), (0x50FF0000, 1, 255, "255"),
             (0xE4001000, 3, 4096, "1.000000000000"), (0xE400F800, 3, -2048, "-0.500000000000"),
             (0xE4008000, 3, -32768, "-8.000000000000"), (0xE4007FFF, 3, 32767, "7.999755859375"),
             (0xE400FFFF, 3, -1, "-0.000244140625"), (0xE4000000, 3, 0, "0.000000000000")],
}

# The start of a program as avr-gcc makes it, bytes in flash order, and what a lister must say of it.
AVR_PROGRAM = bytes.fromhex("0c943400 1124 1fbe cfef d8e0 debf cdbf 0e944000 0c944500 8fef 80930001 80910001 0197 f1f7 ffff 0895"
                            "f894 ffcf 0c94")
AVR_LISTING = ["0 JMP", "2 EOR", "3 OUT", "4 LDI", "5 LDI", "6 OUT", "7 OUT", "8 CALL", "10 JMP", "12 LDI", "13 STS", "15 LDS",
               "17 SBIW", "18 BRBC", "19 nothing", "20 RET", "21 BCLR", "22 RJMP", "23 cut off"]

# The last halfword of an image, and what a lister must say of it. The second halfword of AVR never decides anything, only whether it is
# there; in the others it decides, and zeros for it would often make another answer.
CUT_OFF = "cut off"
LAST = {
    "avr": {0x940E: CUT_OFF,        # CALL
            0x940C: CUT_OFF,        # JMP
            0x9180: CUT_OFF,        # LDS
            0x9380: CUT_OFF,        # STS
            0x9409: "IJMP", 0x9508: "RET", 0x95C8: "LPM", 0x0000: "NOP", 0xCFFF: "RJMP", 0xFFFF: NOTHING, 0x0001: NOTHING},
    "riscv": {0x0000: CUT_OFF,      # zeros below are nothing, but 00000013 is a nop
              0xFFFF: CUT_OFF},     # zeros below are nothing, but ffff0537 is a lui
    "a32": {0xEAFF: CUT_OFF,        # b
            0xE320: CUT_OFF,        # zeros below are nothing, but e320f000 is a nop
            0xF57F: CUT_OFF,        # zeros below are nothing, but f57ff05f is a dmb
            0xF610: CUT_OFF,        # zeros below are a memory hint, but f6100010 is nothing
            0xF800: NOTHING},
    "buoy": {0x0F00: "TRIP", 0x1FF3: "ADD", 0xB1F0: "DOZE", 0xB1FF: "SLEEP", 0x9F10: "LAMP OFF", 0xB001: "RELEASE", 0xB100: NOTHING,
             0xF000: NOTHING, 0xE310: NOTHING,
             0xE000: CUT_OFF,       # SEND
             0xE300: CUT_OFF,       # SET LONG
             0xE800: CUT_OFF,       # STOP, SAMPLE or nothing
             0xEFF0: CUT_OFF},      # STOP ALL, SAMPLE or nothing
}
# What stands before it in a longer image, and its items.
BEFORE_LAST = {"avr": ([0x940C, 0x0034], ["0 JMP"]), "riscv": ([0x0000, 0x0013], ["0 ADDI"]), "a32": ([0xE3A0, 0x0001], ["0 MOV"]),
               "buoy": ([0x0F00, 0x1FF3], ["0 TRIP", "1 ADD"])}


@dataclass
class Ready:
    """A set with its table as words and as the second implementation reads it."""
    name: str
    set: object
    words: list
    table: object

    def mnemonic(self, answer):
        return answer if answer in (NOTHING, AMBIGUOUS) else self.set.instructions[answer].mnemonic


def ready(name, one):
    words = table_words(one)
    table = read(words)
    if isinstance(table, Refusal):
        stop(f"{name}: refused with {table}")
    return Ready(name, one, words, table)


def stop(text):
    print(text)
    sys.exit(1)


# ---------------------------------------------------------------------------- files, reading, trees

def compare_file(path, one, tally):
    """The file is what the list makes; probe reads it as the second implementation does."""
    if (DATA / f"{one.name}.table").read_bytes() != table_bytes(one.set):
        stop(f"data/{one.name}.table isn't what data/make.py makes")
    question = "read", one.words
    line = probe.ask(path, [question])[0]
    probe.stop_at_difference(f"{one.name}, reading", question, read_line(one.words), line)
    twinned.compare(path, TWINS, [(f"{one.name}, reading", question, line)], tally)


def compare_cycles(path, one, tally):
    """Each entry's cycles, of the list and in the table, and those of its twin; 11 for the entry after them."""
    for words, cycles in ((one.words, [instruction.cycles or 0 for instruction in one.set.instructions]),
                          (TWINS.of(one.words), cycles_of(TWINS.of(one.words)))):
        expected = [*(f"13 0 0 00000000 {number}" for number in cycles), "13 11 0 00000000"]
        questions = [("cycles", words, entry) for entry in range(len(expected))]
        for question, line, seen in zip(questions, expected, probe.ask(path, questions), strict=True):
            probe.stop_at_difference(f"{one.name}, cycles", question, line, seen)
            probe.stop_at_difference(f"{one.name}, cycles by the second", question, line_of(question), seen)
        tally["cycles"] += len(cycles)
        tally["cycles, not 0"] += sum(number != 0 for number in cycles)


def compare_tree(path, mktree_path, one, tally):
    """The tree that mktree prints: the second implementation's, which is no refusal; probe's checker accepts it, and probe sizes it."""
    data = probe.pack(one.words)
    expected = mktree_text(data)
    if expected.startswith("refused"):
        stop(f"{one.name}: {expected}")
    seen = mktree.text_of(mktree_path, data)
    mktree.stop_at_difference(one.name, data, expected, seen)
    plain = probe.pack(table_words(without_forms(one.set)))
    mktree.stop_at_difference(f"{one.name}, without forms", plain, seen, mktree.text_of(mktree_path, plain))
    tally["without forms"] += plain != data
    twinned.compare_text(mktree_path, TWINS, one.name, data, seen, tally, second=len(one.words) < 1000)
    tree = [int(line.split(" ")[1], 16) for line in seen.splitlines()]
    questions = ("check", one.words, tree), ("measure", one.words)
    checked, size = probe.ask(path, questions)
    probe.stop_at_difference(f"{one.name}, check", questions[0], "7 0 0 00000000 yes", checked)
    probe.stop_at_difference(f"{one.name}, size", questions[1], line_of(questions[1]), size)
    twinned.compare(path, TWINS, [(one.name, questions[0], checked), (one.name, questions[1], size)], tally)
    tally["tree lines"] += len(tree)
    return tree


def numbers_of(one, tree):
    """What README.md says of a set: width, entries, words, fields with a form, nodes, most tests on a path."""
    most = max(len(node.cell.fixed) for node in nodes_once(tuple(one.words)))
    return [one.set.width, len(one.set.instructions), len(one.words), forms_in(one).total(), len(tree) - 1, most]


def compare_readme(one, tree):
    row = f"| {one.name} | " + " | ".join(map(str, numbers_of(one, tree))) + " |"
    if row not in (DATA / "README.md").read_text():
        stop(f"data/README.md has no row that begins with: {row}")


# ---------------------------------------------------------------------------- words

def some_value(rng, size):
    """Zero and all ones often: special cases are there."""
    return rng.choice([0, (1 << size) - 1, rng.getrandbits(size), rng.getrandbits(size)])


def made_word(rng, instruction, width):
    """The instruction with some values in its fields, and anything below its own bits."""
    word = mask_and_value(instruction.pattern, width)[1] | rng.getrandbits(width - len(instruction.pattern))
    for lowest, size in fields_of(instruction.pattern, width):
        word |= some_value(rng, size) << lowest
    return word


def some_words(rng, one, tally):
    """Words made of every entry, their one-bit neighbours, and random words."""
    width, instructions = one.set.width, one.set.instructions
    made = [made_word(rng, instruction, width) for instruction in instructions
            for _ in range(max(WORDS_AT_LEAST_EACH, MADE_WORDS // len(instructions)))]
    neighbours = [word ^ 1 << rng.randrange(width) for word in made]
    tally[f"{one.name}, made"] += len(made)
    tally[f"{one.name}, neighbours"] += len(neighbours)
    tally[f"{one.name}, random"] += RANDOM_WORDS
    return made + neighbours + [rng.getrandbits(width) for _ in range(RANDOM_WORDS)]


def lookups(path, words, asked):
    """Probe's lines for many lookups in one table, whose words are packed only once."""
    start = probe.pack([2, 2, *probe.part_of(words)])
    together = probe.MOST_BYTES // (len(start) + 8)
    lines = []
    for at in range(0, len(asked), together):
        lines += probe.lines_of(path, b"".join(start + probe.pack(probe.part_of(word)) for word in asked[at:at + together]))
    return lines


def decoded_name(name, word):
    return DECODERS[name].name_of(word) or NOTHING


def compare_twin_words(path, one, asked, lines, tally):
    """The same lookups in the twin."""
    twin, part = TWINS.of(one.words), asked[::TWIN_EACH]
    for word, line, seen in zip(part, lines[::TWIN_EACH], lookups(path, twin, part), strict=True):
        probe.stop_at_difference(f"{one.name}, lookup in the twin", ("lookup", twin, word), line, seen)
    tally[f"{one.name}, twin"] += len(part)


def compare_words(path, rng, one, tally):
    asked = some_words(rng, one, tally)
    lines = lookups(path, one.words, asked)
    compare_twin_words(path, one, asked, lines, tally)
    for word, line in zip(asked, lines, strict=True):
        answer = select(one.table, word)
        probe.stop_at_difference(f"{one.name}, lookup", ("lookup", one.words, word), f"2 0 0 00000000 {answer}", line)
        if decoded_name(one.name, word) != one.mnemonic(answer):
            stop(f"{one.name}, {word:08x}: the table says {one.mnemonic(answer)}, the decoder {decoded_name(one.name, word)}")
        tally[one.name] += 1
        tally[f"{one.name}, entry {answer}"] += 1


def compare_known(path, one, tally):
    known = KNOWN[one.name]
    for (word, mnemonic), line in zip(known.items(), lookups(path, one.words, list(known)), strict=True):
        answer = line.split(" ")[4]
        seen = one.mnemonic(NOTHING if answer == NOTHING else int(answer))
        if not seen == mnemonic == decoded_name(one.name, word):
            stop(f"{one.name}, {word:08x}: {mnemonic} is known, seen {seen}, by the decoder {decoded_name(one.name, word)}")
        tally["known"] += 1


def compare_masks(path, one, tree, tally):
    """The known words walked: the second implementation's line, as many ones in the mask as tests, and words that agree on it."""
    questions = [("walk", tree, word) for word in KNOWN[one.name]]
    walked = []
    for question, line in zip(questions, probe.ask(path, questions), strict=True):
        probe.stop_at_difference(f"{one.name}, walk", question, line_of(question), line)
        masks.check_ones(one.name, question, *masks.tests_and_mask(line))
        walked.append((tree, question[2], line))
    masks.compare_agreeing(path, random.Random(MASK_SEED), walked, tally)


def listed_name(one, item):
    """Kind 12 has an entry, kind 13 nothing, kind 14 is an instruction that the image's end cuts off."""
    if item >> 28 == 12:
        return one.mnemonic(item >> 20 & 0xFF)
    return {13: NOTHING, 14: CUT_OFF}[item >> 28]


def names_listed(one, line):
    """The items in a line of request 9: address and name."""
    items = [int(item, 16) for item in line.partition("| ")[2].split()][:int(line.split(" ")[4])]
    return [f"{item & 0xFFFFF} {listed_name(one, item)}" for item in items]


def compare_listing(path, one, tree, tally):
    """The lister on AVR code."""
    question = "list", one.words, tree, AVR_PROGRAM, [0] * (len(AVR_PROGRAM) // 2)
    line = probe.ask(path, [question])[0]
    twinned.compare(path, TWINS, [("AVR program", question, line)], tally)
    seen = names_listed(one, line)
    if seen != AVR_LISTING:
        stop(f"AVR program: expected {AVR_LISTING}, seen {seen}")
    tally["listed"] += len(seen)


def name_by_decoder(one, upper):
    """What a lister must say of the last halfword, by the decoder's names of all words that it begins."""
    names = {decoded_name(one.name, upper << 16 | lower) for lower in range(65536)}
    lengths = {len(instruction.pattern) for instruction in one.set.instructions if instruction.mnemonic in names}
    return names.pop() if len(names) == 1 and lengths <= {16} else CUT_OFF


def compare_last(path, one, tree, tally):
    """The last halfword of an image by itself, and after others (document 02's No. 6)."""
    before, items = BEFORE_LAST[one.name]
    for upper, name in LAST[one.name].items():
        if name_by_decoder(one, upper) != name:
            stop(f"{one.name}, the last halfword {upper:04x}: {name} is known, by the decoder it is {name_by_decoder(one, upper)}")
        kind, entry = halves.kind_and_entry(one.table, upper)
        if listed_name(one, kind << 28 | entry << 20) != name:
            stop(f"{one.name}, the last halfword {upper:04x}: {name} is known, by the second implementation it is of kind {kind}")
        questions = [("list", one.words, tree, image_of(some), [0] * len(some)) for some in ([upper], [*before, upper])]
        expected = [f"0 {name}"], [*items, f"{len(before)} {name}"]
        for question, wanted, line in zip(questions, expected, probe.ask(path, questions), strict=True):
            if names_listed(one, line) != wanted:
                stop(f"{one.name}, an image that ends in {upper:04x}: expected {wanted}, seen {names_listed(one, line)}")
        zeros = select(one.table, upper << 16)
        tally["last halfwords"] += 1
        tally["last halfwords that are cut off"] += name == CUT_OFF
        tally["last halfwords that zeros below would have otherwise"] += name == CUT_OFF and zeros == NOTHING


# ---------------------------------------------------------------------------- forms and operands

def without_forms(one):
    return replace(one, instructions=tuple(replace(instruction, forms=()) for instruction in one.instructions))


def forms_in(one):
    """The fields with a form that the second implementation reads in a table, as in FORMS."""
    return Counter((instruction.mnemonic, field.lowest, field.width, field.form, field.fraction)
                   for instruction, entry in zip(one.set.instructions, one.table.entries, strict=True)
                   for field in entry.fields if (field.form, field.fraction) != (0, 0))


def form_faults(one):
    """What the table has beside the known forms, or lacks of them. No two encodings of a mnemonic have the same one."""
    return forms_in(one) - Counter(FORMS[one.name]) + (Counter(FORMS[one.name]) - forms_in(one))


def field_word(field):
    return 3 << 28 | field.form << 24 | field.fraction << 16 | field.lowest << 8 | field.width


def operand_questions(one):
    """(question, its line) for each known operand: its number, the value of that number, its text in a buffer that has a byte more, and
    18 in one that has a byte less."""
    for word, index, number, text in OPERANDS[one.name]:
        field = one.table.entries[select(one.table, word)].fields[index]
        its, value = field_word(field), word >> field.lowest & (1 << field.width) - 1
        after, short = text.encode() + b"*", b"*" * (len(text) - 1)
        yield ("signed", its, value), f"14 0 0 00000000 {number}"
        yield ("stored", its, number), f"15 0 0 00000000 {value:08x}"
        yield ("text", its, value, b"*" * len(after)), f"16 0 0 00000000 {len(text)} | {after.hex(' ')}"
        yield ("text", its, value, short), f"16 18 0 00000000 | {short.hex(' ')}".rstrip()


def operand_faults(path, one):
    """The known operands that probe has otherwise: (question, expected line, seen line)."""
    questions, expected = zip(*operand_questions(one))
    return [one for one in zip(questions, expected, probe.ask(path, questions), strict=True) if one[1] != one[2]]


def compare_forms(path, one, tally):
    if faults := form_faults(one):
        stop(f"{one.name}: other forms than the known ones: {dict(faults)}")
    for question, expected, seen in operand_faults(path, one):
        probe.stop_at_difference(f"{one.name}, operands", question, expected, seen)
    tally["forms"] += forms_in(one).total()
    tally["operands"] += len(OPERANDS[one.name])
    tally["operands below zero"] += sum(number < 0 for _, _, number, _ in OPERANDS[one.name])


def altered_forms(instruction):
    """The instruction with its first form left out, or another one in its place."""
    form, *others = instruction.forms
    width = instruction.pattern.count(form.letter)
    for fraction in {0, 1, form.fraction - 1, form.fraction + 1, min(width, 16)} - {form.fraction, -1}:
        yield replace(instruction, forms=(Form(form.letter, POINT, fraction), *others))
    if form.form == POINT:
        yield replace(instruction, forms=(Form(form.letter, SIGNED), *others))
    yield replace(instruction, forms=tuple(others))


def added_forms(instruction):
    """The instruction with a form for each plain field that may have one."""
    for lowest, size in fields_of(instruction.pattern, 32):
        letter = instruction.pattern[31 - lowest]
        if instruction.pattern.count(letter) == size and all(form.letter != letter for form in instruction.forms):
            yield replace(instruction, forms=(*instruction.forms, Form(letter, SIGNED)))


def notice_forms(path, rng, one, tally):
    """Other forms than the known ones are noticed; those of a field of an operand below zero by this operand too."""
    entries = one.set.instructions
    with_form = [number for number, instruction in enumerate(entries) if instruction.forms]
    below_zero = {select(one.table, word) for word, _, number, _ in OPERANDS[one.name] if number < 0}
    added = [(number, after) for number, before in enumerate(entries) for after in added_forms(before)]
    others = [(number, after) for number in with_form for after in altered_forms(entries[number])]
    for number, after in others + rng.sample(added, ALTERED):
        other = ready(one.name, replace(one.set, instructions=(*entries[:number], after, *entries[number + 1:])))
        if not form_faults(other):
            stop(f"{one.name}, entry {number}: {entries[number].forms} altered to {after.forms} isn't noticed")
        tally["altered forms"] += 1
        if number in below_zero and (number, after) in others:
            if not operand_faults(path, other):
                stop(f"{one.name}, entry {number}: {entries[number].forms} altered to {after.forms} isn't noticed by operands")
            tally["altered forms of operands"] += 1


def try_lists(tally):
    """What a list may not have: an unknown form, a letter that is split, that is not there or named twice, too many bits after the
    point. Then what it may."""
    for line in ("A  1kkk kkkk : k", "A  1kkk kkkk : k sign", "A  1kkk kkkk : signed", "A  1kkk kkkk :", "A  1kkk kkkk : k point",
                 "A  1kkk kkkk : k point -1", "A  1kkk kkkk : kk signed", "A  1kkk 0kkk : k signed", "A  1kkk kkkk : j signed",
                 "A  1kkk kkkk : k signed, k signed", "A  1kkk kkkk : k point 8", "A  kkkk kkkk kkkk kkkk kkkk : k point 17"):
        try:
            field_words(listed(line)[0], 32)
        except ValueError:
            tally["forms in lists"] += 1
        else:
            stop(f"a list may have {line!r}")
    for line, word in (("A  1kkk kkkk : k point 7", 0x32071807), ("A  kkkk kkkk kkkk kkkk : k point 16 = 3", 0x32101010),
                       ("A  1kkk kkkk : k point 0 = 3", 0x32001807), ("A  k100 0000 : k signed", 0x31001F01)):
        if field_words(listed(line)[0], 32) != [word]:
            stop(f"{line!r} has not the field {word:08x}")
        tally["forms in lists"] += 1


# ---------------------------------------------------------------------------- altered sets, which must be noticed

def altered(rng, instruction):
    """The instruction with one opcode bit turned over, or without its last condition."""
    if instruction.conditions and rng.random() < 0.4:
        return replace(instruction, conditions=instruction.conditions[:-1])
    at = rng.choice([place for place, bit in enumerate(instruction.pattern) if bit in "01"])
    turned = "10"[int(instruction.pattern[at])]
    return replace(instruction, pattern=instruction.pattern[:at] + turned + instruction.pattern[at + 1:])


def excluded_words(rng, instruction, width):
    """Words of the instruction on which one of its conditions looks: made words with the condition's bits put in."""
    for condition in instruction.conditions:
        mask, value = mask_and_value(condition.matching.replace(" ", ""), width)
        yield made_word(rng, instruction, width) & ~mask | value


def noticed(rng, one, number):
    """Whether the decoder differs from the set with this entry altered."""
    before = one.set.instructions[number]
    after = altered(rng, before)
    entries = [*one.set.instructions[:number], after, *one.set.instructions[number + 1:]]
    other = ready(one.name, replace(one.set, instructions=tuple(entries)))
    for _ in range(WORDS_FOR_ALTERED):
        for word in (made_word(rng, before, 32), made_word(rng, after, 32), *excluded_words(rng, before, 32)):
            if other.mnemonic(select(other.table, word)) != decoded_name(one.name, word):
                return True
    stop(f"{one.name}, entry {number}: {before} altered to {after} isn't noticed")


def notice_altered(rng, one, tally):
    for number in rng.sample(range(len(one.set.instructions)), ALTERED):
        tally["altered"] += noticed(rng, one, number)


# ---------------------------------------------------------------------------- instructions that no word is left to

def standing_apart(one):
    """The instructions with a field and without conditions whose words match no other's pattern."""
    patterns = [mask_and_value(instruction.pattern, one.set.width) for instruction in one.set.instructions]
    for number, instruction in enumerate(one.set.instructions):
        mask, value = patterns[number]
        overlapping = sum((value ^ other) & mask & other_mask == 0 for other_mask, other in patterns)
        if overlapping == 1 and not instruction.conditions and set(instruction.pattern) - {"0", "1"}:
            yield number


def in_halves(instruction):
    """Two more specific instructions that share its words: the highest bit of its first field is 0, and 1."""
    at = next(place for place, bit in enumerate(instruction.pattern) if bit not in "01")
    return tuple(replace(instruction, pattern=instruction.pattern[:at] + bit + instruction.pattern[at + 1:], forms=()) for bit in "01")


def compare_covered(path, mktree_path, rng, one, tally):
    """19 for the covered instruction, by mktree and in sizing. Lookup takes the table, and selects one of the halves."""
    entries = one.set.instructions
    for number in rng.sample(list(standing_apart(one)), COVERED):
        other = ready(one.name, replace(one.set, instructions=(*entries, *in_halves(entries[number]))))
        data, name = probe.pack(other.words), f"{one.name}, entry {number} covered"
        mktree.stop_at_difference(name, data, f"refused 19 {number} 00000000\n", mktree.text_of(mktree_path, data))
        low, high = (made_word(rng, half, 32) for half in other.set.instructions[-2:])
        questions = ("measure", other.words), ("lookup", other.words, low), ("lookup", other.words, high)
        expected = f"12 19 {number} 00000000", f"2 0 0 00000000 {len(entries)}", f"2 0 0 00000000 {len(entries) + 1}"
        for question, line, seen in zip(questions, expected, probe.ask(path, questions), strict=True):
            probe.stop_at_difference(name, question, line, seen)
        tally["covered"] += 1


# ---------------------------------------------------------------------------- instructions that are withdrawn

def words_about(rng, instructions, instruction, width):
    """Words made of the instruction and of others, some of them twice, and neighbours."""
    made = [made_word(rng, rng.choice([instruction, rng.choice(instructions)]), width) for _ in range(WORDS_FOR_WITHDRAWN // 2)]
    return made + [word ^ rng.choice([0, 1 << rng.randrange(width)]) for word in made]


def compare_withdrawn(path, rng, one, tally):
    """Of instructions with a mnemonic of their own: as many words change as the decoder names so."""
    instructions, names = one.set.instructions, Counter(instruction.mnemonic for instruction in one.set.instructions)
    alone = [number for number, instruction in enumerate(instructions) if names[instruction.mnemonic] == 1]
    questions = [("changed", one.words, number, words_about(rng, instructions, instructions[number], one.set.width))
                 for number in rng.sample(alone, WITHDRAWN)]
    lines = probe.ask(path, questions)
    for question, seen in zip(questions, lines, strict=True):
        _, _, number, asked = question
        named = sum(decoded_name(one.name, word) == instructions[number].mnemonic for word in asked)
        probe.stop_at_difference(f"{one.name}, withdrawn", question, f"22 0 0 00000000 {named}", seen)
        probe.stop_at_difference(f"{one.name}, withdrawn, by the second", question, line_of(question), seen)
        tally["withdrawn"] += named > 0
    twinned.compare(path, TWINS, [(one.name, *answered) for answered in zip(questions, lines)], tally)


# ---------------------------------------------------------------------------- instructions in another order

def without_labels(words):
    heads = set(heads_in(words))
    return [word & ~LABEL_BITS if index in heads else word for index, word in enumerate(words)]


def shuffled(one, to):
    """The set with its instructions in another order, and the reordered table. The list in that order must make the same words, but for
    labels, which it numbers anew."""
    instructions = tuple(one.set.instructions[entry] for entry in shuffles.from_of(to))
    other = Ready(one.name, replace(one.set, instructions=instructions), shuffles.reordered(one.words, to), None)
    if without_labels(other.words) != without_labels(table_words(other.set)):
        stop(f"{one.name}: in the order {to} the list makes other words")
    return other


def compare_shuffled_tree(path, mktree_path, rng, one, other, to, tree, tally):
    """By probe from buffers with three words more than the tree has, and by mktree."""
    questions = [("generate", words, [rng.getrandbits(32) for _ in range(len(tree) + 3)]) for words in (one.words, other.words)]
    line, seen = probe.ask(path, questions)
    probe.stop_at_difference(f"{one.name} in another order", questions[1], shuffles.moved_line(line, to, questions[1][2]), seen)
    data, text = probe.pack(other.words), "".join(f"{index} {word:08x}\n" for index, word in enumerate(tree))
    mktree.stop_at_difference(f"{one.name} in another order", data, shuffles.moved_text(text, to), mktree.text_of(mktree_path, data))
    tally["shuffled leaves"] += sum(word >> 28 == 9 and to[word & 0xFF] != word & 0xFF for word in tree)


def compare_shuffled_words(path, one, other, to, asked, tally):
    """What the reordered table selects is the entry that the table selects, moved, and has the name that the decoder gives."""
    lines = zip(lookups(path, one.words, asked), lookups(path, other.words, asked), strict=True)
    for word, (line, seen) in zip(asked, lines, strict=True):
        probe.stop_at_difference(f"{one.name} in another order", ("lookup", other.words, word), shuffles.moved_line(line, to), seen)
        answer = seen.split(" ")[4]
        name = other.mnemonic(NOTHING if answer == NOTHING else int(answer))
        if name != decoded_name(one.name, word):
            stop(f"{one.name} in the order {to}, {word:08x}: the table says {name}, the decoder {decoded_name(one.name, word)}")
        tally["shuffled words"] += 1
        tally["shuffled words with another number"] += line != seen


def compare_shuffled(path, mktree_path, rng, one, tree, tally):
    """"Reordering the entries of a table that reads without fault must change no more than entry numbers" (document 02's No. 12)."""
    instructions, count = one.set.instructions, len(one.set.instructions)
    for to in (shuffles.backwards(count), *(shuffles.drawn(rng, count) for _ in range(DRAWN_ORDERS))):
        other = shuffled(one, to)
        compare_shuffled_tree(path, mktree_path, rng, one, other, to, tree, tally)
        made = [made_word(rng, rng.choice(instructions), one.set.width) for _ in range(WORDS_FOR_SHUFFLED)]
        asked = [word ^ rng.choice([0, 0, 1 << rng.randrange(one.set.width)]) for word in made]
        compare_shuffled_words(path, one, other, to, asked, tally)
        tally["orders"] += 1


# ---------------------------------------------------------------------------- tables that somebody added

def added(folder):
    """The tables in the folder that this test has no decoder for."""
    return sorted(file for file in folder.glob("*.table") if file.stem not in DECODERS)


def words_in(file):
    data = file.read_bytes()
    return list(struct.unpack(f"<{len(data) // 4}I", data[:len(data) // 4 * 4]))


def compare_added(path, mktree_path, rng, file, tally):
    """What probe reads, selects and counts and what mktree prints: the second implementation's, refusals too."""
    words, data = words_in(file), file.read_bytes()
    if file.stem in make.SETS and data != table_bytes(make.SETS[file.stem]):
        stop(f"data/{file.name} isn't what data/make.py makes")
    mktree.stop_at_difference(file.name, data, mktree_text(data), mktree.text_of(mktree_path, data))
    width = words[0] & 0xFF if words else 0
    asked = [rng.getrandbits(min(width, 32) or 32) for _ in range(ADDED_WORDS)]
    questions = [("read", words), *(("lookup", words, word) for word in asked)]
    for entry in (0, 1, 255, 256):
        questions += [("cycles", words, entry), ("changed", words, entry, asked), ("changed", words, entry, [])]
    for question, line in zip(questions, probe.ask(path, questions), strict=True):
        probe.stop_at_difference(file.name, question, line_of(question), line)
    tally["added"] += 1


def try_added(path, mktree_path, rng):
    """A folder with tables that a user added: a good one, one with cycles, an ambiguous one, one with an entry that no word selects, one at
    fault and an empty file."""
    tally = Counter()
    with tempfile.TemporaryDirectory() as folder:
        for name, words in (("good", examples.WORKED), ("cycles", examples.WORKED_CYCLES), ("ambiguous", examples.ZERO_HIGH_ZERO_LOW),
                            ("covered", examples.COVERED_BY_TWO), ("cut", examples.WORKED[:5]), ("empty", [])):
            (Path(folder) / f"{name}.table").write_bytes(probe.pack(words))
        for file in added(Path(folder)):
            compare_added(path, mktree_path, rng, file, tally)
    if tally["added"] != 6:
        stop(f"of six added tables {tally['added']} were compared")


# ---------------------------------------------------------------------------- all of it

def least(sets):
    needed = {"known": 90, "listed": len(AVR_LISTING), "altered": ALTERED * len(sets), "tree lines": 10000}
    needed |= {"words that agree": 60, "cycles": 2 * sum(len(one.set.instructions) for one in sets), "cycles, not 0": 400,
               "twins": 4 * len(sets) + 1, "twins by the second": 2, "without forms": len(sets), "forms": 36, "operands": 45,
               "operands below zero": 25, "altered forms": 160, "altered forms of operands": 60, "forms in lists": 16,
               "covered": COVERED * len(sets), "withdrawn": WITHDRAWN * len(sets), "orders": (1 + DRAWN_ORDERS) * len(sets)}
    needed |= {"last halfwords": 31, "last halfwords that are cut off": 14, "last halfwords that zeros below would have otherwise": 4}
    needed |= {"shuffled leaves": 12000, "shuffled words": 3600, "shuffled words with another number": 3000}
    for one in sets:
        needed |= {f"{one.name}, twin": 20000 // TWIN_EACH}
        needed |= {one.name: 20000, f"{one.name}, made": 7000, f"{one.name}, neighbours": 7000}
        needed |= {f"{one.name}, entry {NOTHING}": 300}
        needed |= {f"{one.name}, entry {number}": 10 for number in range(len(one.set.instructions))}
    return needed


def main():
    path, mktree_path = probe.path_from_arguments(), mktree.path_from_arguments(2)
    rng, tally = random.Random(SEED), Counter()
    if missing := sorted(DECODERS.keys() - make.SETS.keys() | {name for name in DECODERS if not (DATA / f"{name}.table").is_file()}):
        stop(f"data/ lacks {missing}")
    sets = [ready(name, make.SETS[name]) for name in DECODERS]
    for one in sets:
        compare_file(path, one, tally)
        compare_cycles(path, one, tally)
        tree = compare_tree(path, mktree_path, one, tally)
        compare_readme(one, tree)
        compare_known(path, one, tally)
        compare_masks(path, one, tree, tally)
        compare_words(path, rng, one, tally)
        notice_altered(rng, one, tally)
        compare_forms(path, one, tally)
        notice_forms(path, random.Random(FORM_SEED), one, tally)
        compare_covered(path, mktree_path, random.Random(COVER_SEED), one, tally)
        compare_withdrawn(path, random.Random(WITHDRAWAL_SEED), one, tally)
        compare_shuffled(path, mktree_path, random.Random(SHUFFLE_SEED), one, tree, tally)
        compare_last(path, one, tree, tally)
        if one.name == "avr":
            compare_listing(path, one, tree, tally)
    try_lists(tally)
    try_added(path, mktree_path, rng)
    for file in added(DATA):
        compare_added(path, mktree_path, rng, file, tally)
    probe.require_enough(tally, least(sets))
    said = ", ".join(f"{one.name}: {tally[one.name]}" for one in sets)
    in_twins = sum(tally[f"{one.name}, twin"] for one in sets)
    print(f"compare_data good: {len(sets)} sets, {tally['tree lines']} tree words; words by set {said}; "
          f"{tally['known']} known words and {tally['words that agree']} that agree on a mask, "
          f"{tally['listed']} items listed, {tally['last halfwords']} last halfwords, {tally['altered']} altered sets noticed; "
          f"{tally['cycles']} cycles; {tally['forms']} forms, "
          f"{tally['operands']} operands known by number and text, {tally['altered forms']} altered forms noticed; "
          f"{tally['covered']} sets with a covered instruction refused with 19; {tally['withdrawn']} instructions withdrawn; "
          f"{tally['orders']} orders of the sets, {tally['shuffled leaves']} leaves with another number, {tally['shuffled words']} words "
          f"named by the decoder; of the twins "
          f"{in_twins} words and {tally['twins']} other questions; "
          f"{tally['added']} tables added by others")


if __name__ == "__main__":
    main()
