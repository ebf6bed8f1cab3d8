"""Compares the program `upper` with a model written here: what the words of a tree, which may be any words, name for all lower halves of
one upper half (document 02's No. 6). The lister asks that of a tree that it has checked; the program asks it of what it is given. Where
it names an entry or nothing, walks of words with that upper half by the second implementation must name the same. Trees of 65,535 nodes
must not take long, also where sides share their nodes and plain descents would take one path after another. At the end mistakes are put
into the model one by one, and each must give another line somewhere.

Usage: hostile.py [path of upper]. Exits with status 1 at the first difference. Quotations are document 01's.

The program reads words, low byte first: the upper half, then the tree. It prints one line: `entry N` or `nothing` if all lower halves
surely name that, else `several`. It is not sure where a side runs into another, where a path has more tests than the tree's width or
where a node is damaged. Input that is not whole words, has no word, an upper half of more than sixteen bits or over 65,537 words
is `several`.
"""

import random
import resource
import sys
from collections import Counter
from dataclasses import dataclass
from pathlib import Path

import probe
import running
from compare_image import ready_tables
from second import checktrees, halves, images, trees
from second.reader import Refusal, bits, read
from second.selection import NOTHING
from second.trees import NOTHING_NODE, header, names_node, test_node
from second.walk import damaged, header_good, walk

SEED = 27
DEFAULT_PATH = Path(__file__).resolve().parent.parent / "target" / "bin" / "upper"
SEVERAL = "several"
MOST_WORDS = 65537          # with the upper half
MOST_NODES = 65535
SECONDS = 2                 # of the processor, for a tree of 65,535 nodes
TABLES = 45
RANDOM_TREES = 160
WALKS_EACH = 40             # lower halves that are walked where all are said to name the same


# ---------------------------------------------------------------------------- the model

class Model:
    """The rule. A mistake of MISTAKES makes it wrong in one way."""

    def __init__(self, upper, tree, mistake=None):
        self.upper, self.tree, self.mistake = upper, tree, mistake
        self.width, self.nodes = bits(tree[0], 21, 16), bits(tree[0], 15, 0)
        self.known = {}

    def node(self, index):
        return self.tree[index] if index < len(self.tree) else 0

    def from_index(self, index, last, depth):
        """What is named below a node: an entry, NOTHING or SEVERAL. `last` is the last index of the side that it begins."""
        asked = index, last, depth
        if asked not in self.known:
            self.known[asked] = self.below(*asked)
        return self.known[asked]

    def below(self, index, last, depth):
        node = self.node(index)
        # "A path node is damaged if its kind is not 8-10, a spare bit is set, the tested bit is at or above the width, or the one side's
        # index is below its own + 2 or above the number of nodes." A side's last index stands for that number.
        if damaged(node, index, self.width, last):
            return NOTHING if self.mistake == "a damaged node is nothing" else SEVERAL
        kind = bits(node, 31, 28)
        if kind == 9:
            return bits(node, 7, 0)
        if kind == 10:
            return NOTHING
        if depth == 0 and self.mistake != "any depth":
            return SEVERAL
        return self.of_test(index, bits(node, 27, 23), bits(node, 15, 0), last, depth)

    def of_test(self, index, bit, one_side, last, depth):
        zero_last = last if self.mistake == "the zero side has no end" else one_side - 1
        one_last = self.nodes if self.mistake == "the one side has no end" else last
        zero, one = (index + 1, zero_last, depth - 1), (one_side, one_last, depth - 1)
        lowest = {"bit 15 is there": 15, "bit 16 is missing": 17}.get(self.mistake, 16)
        if bit >= lowest:
            there = bits(self.upper, bit - 16, bit - 16) if bit >= 16 else 0
            there = 1 - there if self.mistake == "the other side" else there
            return self.from_index(*(one if there else zero))
        return self.both(self.from_index(*zero), self.from_index(*one))

    def both(self, zero, one):
        if self.mistake == "the zero side decides":
            return zero
        if self.mistake == "the one side decides":
            return one
        if self.mistake == "nothing gives way" and NOTHING in (zero, one):
            return one if zero == NOTHING else zero
        if self.mistake == "two entries are nothing" and zero != one and SEVERAL not in (zero, one):
            return NOTHING
        return zero if zero == one else SEVERAL


MISTAKES = ("a damaged node is nothing", "any depth", "the zero side has no end", "bit 15 is there", "bit 16 is missing", "the other side",
            "the one side has no end", "the zero side decides", "the one side decides", "nothing gives way", "two entries are nothing",
            "any upper half", "any header")


def named(upper, tree, mistake=None):
    """An entry, NOTHING or SEVERAL."""
    # "tree header: length 0, kind, spare bit, width not 1-32, no nodes, more nodes than words after it": 8.
    if not header_good(tree) and not (mistake == "any header" and len(tree) > 1):
        return SEVERAL
    model = Model(upper, tree, mistake)
    # "A word of the width has no bit at or above it."
    if 65536 * upper + 65535 >= 2 ** model.width and mistake != "any upper half":
        return SEVERAL
    return model.from_index(1, model.nodes, model.width)


def line_for(upper, tree, mistake=None):
    answer = named(upper, tree, mistake)
    return answer if answer in (NOTHING, SEVERAL) else f"entry {answer}"


# ---------------------------------------------------------------------------- trees by hand

E5, E6 = names_node(5), names_node(6)


def tree_of(nodes, width=32):
    return [header(width, len(nodes)), *nodes]


# (what it shows, the upper half, the tree, the line)
BY_HAND = [
    ("an entry", 0x1234, tree_of([E5]), "entry 5"),
    ("entry 255", 0xFFFF, tree_of([names_node(255)]), "entry 255"),
    ("nothing", 0x1234, tree_of([NOTHING_NODE]), "nothing"),
    ("bit 31 is 1", 0x8000, tree_of([test_node(31, 3), NOTHING_NODE, E5]), "entry 5"),
    ("bit 31 is 0", 0x7FFF, tree_of([test_node(31, 3), NOTHING_NODE, E5]), "nothing"),
    ("bit 16 is 1", 0x0001, tree_of([test_node(16, 3), NOTHING_NODE, E5]), "entry 5"),
    ("bit 16 is 0", 0xFFFE, tree_of([test_node(16, 3), NOTHING_NODE, E5]), "nothing"),
    ("bit 15 is missing", 0xFFFF, tree_of([test_node(15, 3), NOTHING_NODE, E5]), "several"),
    ("bit 0 is missing", 0, tree_of([test_node(0, 3), E5, NOTHING_NODE]), "several"),
    ("two entries", 0, tree_of([test_node(0, 3), E5, E6]), "several"),
    ("the same entry twice", 0, tree_of([test_node(0, 3), E5, E5]), "entry 5"),
    ("nothing twice", 0, tree_of([test_node(15, 3), NOTHING_NODE, NOTHING_NODE]), "nothing"),
    ("the same on three sides", 0, tree_of([test_node(15, 5), test_node(0, 4), E5, E5, E5]), "entry 5"),
    ("another on one of three sides", 0, tree_of([test_node(15, 5), test_node(0, 4), E5, E6, E5]), "several"),
    ("the side that is not there differs", 0x8000, tree_of([test_node(31, 3), E6, test_node(0, 5), E5, E5]), "entry 5"),
    ("a damaged node that is not there", 0x8000, tree_of([test_node(31, 3), 0xFFFFFFFF, E5]), "entry 5"),
    ("a damaged node that is there", 0x7FFF, tree_of([test_node(31, 3), 0xFFFFFFFF, E5]), "several"),
    ("a damaged node below a missing bit", 0, tree_of([test_node(0, 3), E5, 0x90000105]), "several"),
    ("no such kind", 0, tree_of([0xB0000000]), "several"),
    ("nothing with a spare bit", 0, tree_of([0xA0000001]), "several"),
    ("a test with a spare bit", 0, tree_of([test_node(0, 3) | 1 << 16, E5, E5]), "several"),
    ("its own index for the one side", 0, tree_of([test_node(31, 1), E5, E5]), "several"),
    ("the next index for the one side", 0, tree_of([test_node(31, 2), E5, E5]), "several"),
    ("an index past the nodes", 0, tree_of([test_node(31, 4), E5, E5]), "several"),
    # The test at 2 has its one side at 4, where the one side of the test at 1 begins: it leaves its own side.
    ("a side that runs into another", 0, tree_of([test_node(15, 4), test_node(0, 4), E5, E5]), "several"),
    # The same, but the bit at 2 is there and is 0: the one side is not gone to, and still the node is damaged in its side.
    ("a side that may run into another", 0, tree_of([test_node(15, 4), test_node(31, 4), E5, E5]), "several"),
    # The test at 4 is the one side of the one at 2, and ends with it before 6.
    ("a one side that runs into another", 0, tree_of([test_node(15, 6), test_node(0, 4), E5, test_node(1, 6), E5, E5]), "several"),
    ("a gap between the sides", 0, tree_of([test_node(15, 4), E5, 0, E5]), "entry 5"),
    ("a bit twice", 0, tree_of([test_node(3, 5), test_node(3, 4), E5, E5, E5]), "entry 5"),
    ("a bit twice, another where no word comes", 0, tree_of([test_node(3, 5), test_node(3, 4), E5, E6, E5]), "several"),
    ("words after the tree", 0, [*tree_of([E5]), 0, 0xFFFFFFFF], "entry 5"),
    ("width 16", 0, tree_of([test_node(15, 3), E5, E5], 16), "entry 5"),
    ("width 16, an upper half", 1, tree_of([E5], 16), "several"),
    ("width 17", 1, tree_of([test_node(16, 3), E6, E5], 17), "entry 5"),
    ("width 17, bit 17", 2, tree_of([E5], 17), "several"),
    ("width 15", 0, tree_of([E5], 15), "several"),
    ("width 16, bit 16 tested", 0, tree_of([test_node(16, 3), E5, E5], 16), "several"),
    ("no words", 0, [], "several"),
    ("a header of kind 6", 0, [0x60200001, E5], "several"),
    ("a header with a spare bit", 0, [0x70600001, E5], "several"),
    ("width 0", 0, [0x70000001, E5], "several"),
    ("width 33", 0, [0x70210001, E5], "several"),
    ("no nodes", 0, [0x70200000, E5], "several"),
    ("more nodes than words", 0, [0x70200002, E5], "several"),
    ("an upper half of 17 bits", 0x10000, tree_of([E5]), "several"),
    ("the highest word for an upper half", 0xFFFFFFFF, tree_of([E5]), "several"),
]

# (what it shows, the bytes, the line)
BYTES_BY_HAND = [
    ("no byte", b"", "several"),
    ("three bytes", b"\1\2\3", "several"),
    ("an upper half alone", probe.pack([0]), "several"),
    ("a byte more", probe.pack([0, *tree_of([E5])]) + b"\0", "several"),
    ("a byte less", probe.pack([0, *tree_of([E5])])[:-1], "several"),
    ("as many words as it takes", probe.pack([0, *tree_of([E5]), *[0] * (MOST_WORDS - 3)]), "entry 5"),
    ("a word more", probe.pack([0, *tree_of([E5]), *[0] * (MOST_WORDS - 2)]), "several"),
    ("twice as many words", probe.pack([0, *tree_of([E5]), *[0] * 2 * MOST_WORDS]), "several"),
]


# ---------------------------------------------------------------------------- shapes of trees

@dataclass
class Case:
    name: str
    upper: int
    tree: list
    known: str = None       # the line, where it follows from how the tree is made


def to_zero_side(depth, leaf, other, width=32, tested=16):
    """So many tests, each in the zero side of the one before, of the lowest bits in turn: leaves from the deepest on, `other` the last."""
    tests = [test_node(at % tested, 2 * depth + 1 - at) for at in range(depth)]
    return tree_of([*tests, *[leaf] * depth, other], width)


def to_one_side(depth, leaf, other, width=32, tested=16):
    """The same with each test in the one side of the one before; `other` is the deepest leaf."""
    nodes = []
    for at in range(depth):
        nodes += [test_node(at % tested, len(nodes) + 3), leaf]
    return tree_of([*nodes, other], width)


def full_shape(tested, leaf):
    if not tested:
        return leaf
    below = full_shape(tested[1:], leaf)
    return ("test", tested[0], below, below)


def full_tree(tested, node, width=32):
    """All bits tested on every path, and this node for each leaf."""
    leaf = checktrees.NOTHING_LEAF if node == NOTHING_NODE else ("names", node & 0xFF)
    return checktrees.written(width, full_shape(tuple(tested), leaf))


def shared(nodes, leaf, other, width=32):
    """Each test's sides are the next two nodes, so that the sides share all that comes after: as many paths as can be."""
    tests = [test_node(index % 16, index + 2) for index in range(1, nodes - 1)]
    return tree_of([*tests, leaf, other], width)


def chained(nodes, leaf, distance):
    """Each test's one side a distance on, over the sides of the tests between."""
    tests = [test_node(index % 16, min(nodes, index + distance)) for index in range(1, nodes - 1)]
    return tree_of([*tests, leaf, leaf])


def deep_trees(rng):
    """Paths up to the width, and longer ones; most test a bit again. Of missing bits alone, and of all bits."""
    for make in (to_zero_side, to_one_side):
        for width in (16, 17, 31, 32):
            for depth in (1, 2, 16, width - 1, width, width + 1, 40, 200):
                upper = rng.getrandbits(width - 16)
                yield Case("deep, all the same", upper, make(depth, E5, E5, width), "entry 5" if depth <= width else "several")
                yield Case("deep, the last is another", upper, make(depth, E5, E6, width), "several")
                yield Case("deep, bits of both halves", upper, make(depth, E5, rng.choice([E5, E6]), width, width))
    for depth in (32, 33):
        tests = [test_node(0, 2 * depth + 1 - at) for at in range(depth)]
        yield Case("deep, bit 0 again and again", 0, tree_of([*tests, *[E5] * (depth + 1)]), "entry 5" if depth == 32 else "several")


def wide_trees(rng):
    """Full trees and crossing sides, small enough that every mistake can be tried."""
    for bits_tested in (range(4), range(14, 20), range(12, 18), (15, 16), (3, 3, 3), range(9)):
        for leaf, line in ((E5, "entry 5"), (NOTHING_NODE, "nothing")):
            tree = full_tree(bits_tested, leaf)
            yield Case("full", rng.getrandbits(16), tree, line)
            at = rng.choice([index for index in range(1, len(tree)) if tree[index] == leaf])
            yield Case("full, but for a leaf", rng.getrandbits(16), trees.with_node(tree, at, rng.choice([E6, NOTHING_NODE, 0xB0000000])))
    for nodes in (3, 4, 5, 8, 17, 40):
        yield Case("shared", rng.getrandbits(16), shared(nodes, E5, E5), None if nodes == 3 else "several")
        for distance in (2, 3, 5):
            yield Case("chained", rng.getrandbits(16), chained(nodes, E5, distance))


def largest_trees(rng):
    """65,535 nodes. A full tree over fifteen bits has as many."""
    low, upper = tuple(range(15)), rng.getrandbits(16)
    yield Case("largest, full", upper, full_tree(low, E5), "entry 5")
    yield Case("largest, full, nothing", upper, full_tree(low, NOTHING_NODE), "nothing")
    yield Case("largest, full, highest bits", upper, full_tree(low[::-1], E5), "entry 5")
    yield Case("largest, full, but for the last leaf", upper, trees.with_node(full_tree(low, E5), MOST_NODES, E6), "several")
    yield Case("largest, full, bits of both halves", upper, full_tree(range(9, 24), E5), "entry 5")
    yield Case("largest, full, one bit", upper, full_tree([7] * 15, E5), "entry 5")
    for leaf, other in ((E5, E5), (NOTHING_NODE, NOTHING_NODE), (E5, E6)):
        yield Case("largest, shared", upper, shared(MOST_NODES, leaf, other), "several")
    for distance in (3, 17, 32768, 65000):
        yield Case("largest, chained", upper, chained(MOST_NODES, E5, distance))
    yield Case("largest, to the zero side", upper, to_zero_side(32767, E5, E5), "several")
    yield Case("largest, to the one side", upper, to_one_side(32767, E5, E5), "several")
    # Thirty tests, the last of them over sides that are shared by as many nodes as there are.
    front = [test_node(16 + at % 16, MOST_NODES - 29 + at) for at in range(30)]
    middle = [test_node(index % 16, index + 2) for index in range(31, MOST_NODES - 32)]
    yield Case("largest, shared below thirty tests", 0, tree_of([*front, *middle, *[E5] * (MOST_NODES - 30 - len(middle))]), "several")
    yield Case("largest, foreign", upper, trees.foreign(rng, 32, MOST_NODES))


# ---------------------------------------------------------------------------- trees of tables, and altered ones

def table_trees(rng):
    """Trees that the checker accepts, with what all lower halves select; and altered ones."""
    for one in ready_tables(rng, lambda rng: images.lower_plan(rng, rng.randint(1, 7)), TABLES):
        table = read(one.words)
        for upper in images.some_uppers(rng, one.plan, 4):
            same = [answer for answer, lowers in halves.selecting(table, upper).items() if lowers == halves.ALL]
            line = SEVERAL if not same else NOTHING if same == [NOTHING] else f"entry {same[0]}"
            yield Case("of a table", upper, one.tree, line)
            nodes = one.tree[0] & 0xFFFF
            what, altered = rng.choice(list(trees.altered_nodes(rng, one.tree, rng.randint(1, nodes))))
            yield Case(f"altered, {what}", upper, altered)
            yield Case("altered, flipped", upper, trees.flipped(rng, one.tree))
        what, altered = rng.choice(list(trees.altered_headers(rng, one.tree)))
        yield Case(f"altered, {what}", upper, altered)
        narrow = list(checktrees.other_widths(one.tree[:1 + nodes]))
        if narrow:
            yield Case("altered, width", rng.choice([0, 1, upper]), rng.choice(narrow))


def random_node(rng, index, nodes):
    return rng.choice([names_node(5), names_node(5), NOTHING_NODE, test_node(rng.randrange(32), index + rng.choice([1, 2, 2, 3, 5])),
                       test_node(rng.randrange(16), min(index + 2 + rng.randrange(4), nodes)), rng.getrandbits(32)])


def random_trees(rng):
    for _ in range(RANDOM_TREES):
        nodes = rng.choice([1, 2, 3, 5, 9, 30])
        words = [random_node(rng, index, nodes) for index in range(1, nodes + 1)]
        width = rng.choice([32, 32, 32, 16, 20, rng.randrange(40)])
        yield Case("random nodes", rng.choice([0, 1, rng.getrandbits(16)]), [header(width, nodes), *words])
        width = rng.choice([16, 20, 31, 32, 32])
        yield Case("foreign", rng.getrandbits(width - 16), trees.foreign(rng, width, rng.choice([1, 3, 7, 20, 200])))
        one_entry = [names_node(5) if bits(node, 31, 28) == 9 else node for node in trees.foreign(rng, 32, rng.choice([3, 5, 9]))]
        yield Case("foreign, one entry", rng.getrandbits(16), one_entry)
    for _ in range(RANDOM_TREES // 4):
        yield Case("random words", rng.getrandbits(16), [rng.getrandbits(32) for _ in range(rng.randrange(30))])


# ---------------------------------------------------------------------------- comparing

def path_from_arguments():
    path = Path(sys.argv[1]) if len(sys.argv) > 1 else DEFAULT_PATH
    if not path.is_file():
        sys.exit(f"no program at {path}")
    return path


def seen_line(path, data):
    return running.output_of(path, data, SECONDS).decode("ascii", errors="replace")


def stop_at_difference(name, data, expected, seen):
    if seen != f"{expected}\n":
        print(f"difference: {name}, {len(data)} bytes: {data[:400].hex(' ', 4)}\nexpected: {expected!r}\nseen:     {seen!r}")
        sys.exit(1)


def compare_by_hand(path):
    """Literal lines, which don't rest on the model; the model must have them too."""
    for name, upper, tree, line in BY_HAND:
        data = probe.pack([upper, *tree])
        stop_at_difference(name, data, line, seen_line(path, data))
        if upper < 65536:
            stop_at_difference(f"{name}, by the model", data, line, f"{line_for(upper, tree)}\n")
    for name, data, line in BYTES_BY_HAND:
        stop_at_difference(name, data, line, seen_line(path, data))


def compare(path, case, tally):
    data, line = probe.pack([case.upper, *case.tree]), line_for(case.upper, case.tree)
    stop_at_difference(case.name, data, line, seen_line(path, data))
    if case.known is not None:
        stop_at_difference(f"{case.name}, as it is made", data, case.known, f"{line}\n")
        tally["known"] += 1
    what = "entry" if line.startswith("entry") else line
    tally[what] += 1
    tally[f"{case.name.split(',')[0]}: {what}"] += 1
    return line


def compare_walks(rng, case, line, tally):
    """Where all lower halves are said to name the same, walks do."""
    if line == SEVERAL:
        return
    for lower in (0, 1, 0x8000, 0xFFFF, *(rng.getrandbits(16) for _ in range(WALKS_EACH))):
        outcome = walk(case.tree, case.upper << 16 | lower)
        walked = "refused" if isinstance(outcome, Refusal) else NOTHING if outcome.names == NOTHING else f"entry {outcome.names}"
        stop_at_difference(f"{case.name}, walked with {lower:04x}", probe.pack([case.upper, *case.tree]), line, f"{walked}\n")
        tally["walks"] += 1


def notice_wrong(cases):
    """Each mistake gives another line for some small tree. (Where sides have no end the model takes long for large ones.)"""
    small = [case for case in cases if len(case.tree) < 100]
    for mistake in MISTAKES:
        if all(line_for(case.upper, case.tree, mistake) == line_for(case.upper, case.tree) for case in small):
            sys.exit(f"no tree shows it: {mistake}")
    return len(MISTAKES)


LEAST = {
    "entry": 350, "nothing": 120, "several": 650, "known": 300, "walks": 20000, "deep: entry": 60, "deep: several": 90,
    "full: entry": 8, "full: nothing": 8, "full: several": 3, "shared: several": 5, "chained: several": 10,
    "largest: entry": 4, "largest: nothing": 1, "largest: several": 10, "of a table: entry": 50, "of a table: nothing": 15,
    "of a table: several": 60, "altered: entry": 70, "altered: nothing": 35, "altered: several": 200, "foreign: entry": 90,
    "foreign: nothing": 40, "foreign: several": 110, "random nodes: entry": 30, "random nodes: nothing": 10, "random nodes: several": 70,
    "random words: several": 40,
}


def main():
    path = path_from_arguments()
    rng, tally = random.Random(SEED), Counter()
    compare_by_hand(path)
    cases = [case for source in (deep_trees, wide_trees, table_trees, random_trees) for case in source(rng)]
    before = resource.getrusage(resource.RUSAGE_CHILDREN).ru_utime
    for case in (*cases, *largest_trees(rng)):
        compare_walks(rng, case, compare(path, case, tally), tally)
        took = resource.getrusage(resource.RUSAGE_CHILDREN).ru_utime
        tally["milliseconds, at most"] = max(tally["milliseconds, at most"], round(1000 * (took - before)))
        before = took
    probe.require_enough(tally, LEAST)
    by_hand = [Case(name, upper, tree) for name, upper, tree, _ in BY_HAND if upper < 65536]
    noticed = notice_wrong([*cases, *by_hand])
    largest = sum(number for what, number in tally.items() if what.startswith("largest: "))
    print(f"hostile good: {tally['entry'] + tally[NOTHING] + tally[SEVERAL]} trees, an entry: {tally['entry']}, "
          f"nothing: {tally[NOTHING]}, several: {tally[SEVERAL]}, {tally['known']} of them known; {largest} of 65,535 nodes, at most "
          f"{tally['milliseconds, at most']} ms each; {tally['walks']} walks name the same; {len(BY_HAND) + len(BYTES_BY_HAND)} examples by "
          f"hand; {noticed} of {len(MISTAKES)} mistakes noticed")


if __name__ == "__main__":
    main()
