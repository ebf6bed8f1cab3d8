"""The examples that document 01 lists under "Run" and under mktree, as far as trees are concerned, tables with cycles, and tables with
entries that no word selects. Every expected line is written out here or follows from a rule written here; the second implementation
isn't used. Each good table is asked again as its twin of the other kind.

Usage: run_examples.py [path of probe [path of mktree]]. Exits with status 1 at the first difference.
"""

from collections import Counter

import mktree
import probe
import twinned
from second.examples import COVERED_BY_ONE, COVERED_BY_TWO, CYCLES_77, CYCLES_EXAMPLES, LAST_COVERED, LAST_OF_256, MARKED, MIDDLE_COVERED, \
    OWN_CONDITION, PRINTED, PRINTED_TEXT, REACH_EXAMPLES, SIZE_EXAMPLES, TREE_EXAMPLES, TWINS_AND_EXCLUDED, TWO_UNREACHED, WITH_THIRD, \
    WITH_THIRD_TREE, WORKED, ZERO_HIGH_ZERO_LOW
from second.twins import Twins

TWINS = Twins(16)


def check_lines(path, tally):
    """Width 3 with 0-- and --0, and with 0-0 added; the printed and the worked table, also with cycles; walks by hand; entries that no word
    selects."""
    examples = TREE_EXAMPLES + SIZE_EXAMPLES + CYCLES_EXAMPLES + REACH_EXAMPLES
    lines = probe.ask(path, [question for _, question, _ in examples])
    for (name, question, expected), seen in zip(examples, lines, strict=True):
        probe.stop_at_difference(name, question, expected, seen)
    twinned.compare(path, TWINS, examples, tally, second_each=0)
    return len(lines)


def check_worked(path):
    """The twelve marked words, walked on the tree that probe itself makes of the worked table."""
    line = probe.ask(path, [("generate", WORKED, [0] * 64)])[0]
    tree = [int(word, 16) for word in line.partition("| ")[2].split()]
    questions = [("walk", tree, word) for word, *_ in MARKED]
    for question, (word, named, tests, mask), seen in zip(questions, MARKED, probe.ask(path, questions), strict=True):
        probe.stop_at_difference(f"worked table, {word:#04x}", question, f"10 0 0 00000000 {named} {tests} {mask:08x}", seen)
    return len(MARKED)


def all_of_eight_bits(count):
    """`count` entries of width 8 with all bits in the mask and the values 0, 1, 2 and so on."""
    words = [0x10000008 | count << 16]
    for value in range(count):
        words += [0x20000800, 0xFF, value & 0xFF]
    return words


def full_tree(bit, first, index):
    """The nodes for all words of bits `bit` to 0 after `first`: the highest bit is tested first, each word is its entry."""
    if bit < 0:
        return [0x90000000 | first]
    size = 2 ** (bit + 1) - 1       # nodes of each side
    return [0x80000000 | bit << 23 | index + 1 + size] + full_tree(bit - 1, first, index + 1) \
        + full_tree(bit - 1, first + 2 ** bit, index + 1 + size)


def check_mktree(path, tally):
    """"256 entries pass, 257 give 1", and the printed example byte for byte."""
    full = [0x70080000 | 511] + full_tree(7, 0, 1)
    cases = [("the printed example", probe.pack(PRINTED), PRINTED_TEXT),
             ("empty input", b"", "refused 1 0 00000000\n"),
             ("256 entries", probe.pack(all_of_eight_bits(256)), "".join(f"{at} {word:08x}\n" for at, word in enumerate(full))),
             ("257 entries", probe.pack(all_of_eight_bits(257)), "refused 1 0 00000000\n"),
             ("257 entries said", probe.pack([0x11010008] + all_of_eight_bits(256)[1:]), "refused 1 0 00000000\n"),
             ("0-- and --0", probe.pack(ZERO_HIGH_ZERO_LOW), "refused 6 0 00000000\n"),
             ("0-0 added", probe.pack(WITH_THIRD),
              "".join(f"{at} {word:08x}\n" for at, word in enumerate(WITH_THIRD_TREE))),
             # Two entries of width 2, both 1-: ambiguous from word 2 on.
             ("twins", probe.pack([0x10020002, *PRINTED[1:], *PRINTED[1:]]), "refused 6 0 00000002\n"),
             ("cut by a word", probe.pack(PRINTED[:4]), "refused 2 4 00000000\n"),
             ("cut by a byte", probe.pack(PRINTED)[:-1], "refused 1 0 00000000\n"),
             ("no entries", probe.pack([0x10000020]), "0 70200001\n1 a0000000\n"),
             ("77 cycles", probe.pack(CYCLES_77), PRINTED_TEXT),
             ("257 entries said, with cycles", probe.pack([0x61010008] + all_of_eight_bits(256)[1:]), "refused 1 0 00000000\n"),
             ("cut before the cycles", probe.pack(CYCLES_77[:4]), "refused 2 4 00000000\n"),
             ("covered by one", probe.pack(COVERED_BY_ONE), "refused 19 0 00000000\n"),
             ("covered by two", probe.pack(COVERED_BY_TWO), "refused 19 0 00000000\n"),
             ("its own condition", probe.pack(OWN_CONDITION), "refused 19 0 00000000\n"),
             ("the middle covered", probe.pack(MIDDLE_COVERED), "refused 19 1 00000000\n"),
             ("the last covered", probe.pack(LAST_COVERED), "refused 19 2 00000000\n"),
             ("the lower of two", probe.pack(TWO_UNREACHED), "refused 19 1 00000000\n"),
             ("the last of 256", probe.pack(LAST_OF_256), "refused 19 255 00000000\n"),
             ("6 before 19", probe.pack(TWINS_AND_EXCLUDED), "refused 6 0 00000001\n")]
    for name, data, expected in cases:
        mktree.stop_at_difference(name, data, expected, mktree.text_of(path, data))
        twinned.compare_text(path, TWINS, name, data, expected, tally)
    return len(cases)


def main():
    probe_path, mktree_path = probe.path_from_arguments(), mktree.path_from_arguments(2)
    tally = Counter()
    lines = check_lines(probe_path, tally)
    walked = check_worked(probe_path)
    printed = check_mktree(mktree_path, tally)
    probe.require_enough(tally, {"twins": 120})
    print(f"run_examples good: {lines} lines of probe, {walked} marked words, {printed} inputs of mktree, {tally['twins']} of twins")


if __name__ == "__main__":
    main()
