"""Trees for the tests of the checker: other trees of a table that must be accepted, and trees that miss a part of the rule.

A shape is a tree without indices: ("test", bit, zero side, one side), ("names", entry) or ("nothing",). Everything is drawn
from the random.Random that is handed in. The steps in a cell are those of the second implementation.
"""

from second.checker import NEITHER, NO_LIVE, first_step, side_ends
from second.tree import OPEN, Cell, TooLarge, entry_status
from second.trees import NOTHING_NODE, TEST, header, names_node, test_node, with_node

NOTHING_LEAF = ("nothing",)


# ---------------------------------------------------------------------------- shapes

def size_of(shape):
    return 1 + size_of(shape[2]) + size_of(shape[3]) if shape[0] == "test" else 1


def nodes_from(shape, index):
    """The words of a shape whose first node has this index."""
    nodes = []

    def add(part):
        nodes.append(names_node(part[1]) if part[0] == "names" else NOTHING_NODE)
        if part[0] == "test":
            at = len(nodes) - 1
            add(part[2])
            nodes[at] = test_node(part[1], index + len(nodes))
            add(part[3])

    add(shape)
    return nodes


def written(width, shape):
    nodes = nodes_from(shape, 1)
    return [header(width, len(nodes))] + nodes


def shape_at(tree, index):
    """The shape that begins at an index of a good tree."""
    node = tree[index]
    if node >> 28 == TEST:
        return ("test", node >> 23 & 0x1F, shape_at(tree, index + 1), shape_at(tree, node & 0xFFFF))
    return NOTHING_LEAF if node == NOTHING_NODE else ("names", node & 0xFF)


def replaced(shape, at, change):
    """The shape with its part number `at` (in node order, from 0) changed."""
    if at == 0:
        return change(shape)
    _, bit, zero, one = shape
    if at <= size_of(zero):
        return ("test", bit, replaced(zero, at - 1, change), one)
    return ("test", bit, zero, replaced(one, at - 1 - size_of(zero), change))


def parts_of(shape):
    """Every part of a shape in node order, itself first."""
    yield shape
    if shape[0] == "test":
        yield from parts_of(shape[2])
        yield from parts_of(shape[3])


# ---------------------------------------------------------------------------- other trees of the same table

def deciding_bits(table, cell):
    """The unfixed bits in any pattern of an open entry."""
    found = set()
    for entry in table.entries:
        if entry_status(cell, entry)[0] == OPEN:
            patterns = [entry.opcode]
            for condition in entry.conditions:
                patterns += [condition.matching, *condition.unmatching]
            found |= {bit for pattern in patterns for bit in pattern.mask}
    return found - cell.fixed


def other_shape(rng, table, most_nodes):
    """A tree that must be accepted, with the tests in any order and some that nothing needs; None if it grows too large
    or the table is ambiguous."""
    room = [most_nodes]

    def grow(cell):
        room[0] -= 1
        if room[0] < 0:
            raise TooLarge
        step = first_step(table, cell)
        unfixed = set(range(table.width)) - cell.fixed
        if step != NEITHER and (not unfixed or rng.random() < 0.93):
            return NOTHING_LEAF if step == NO_LIVE else ("names", step)
        wanted = deciding_bits(table, cell) if step == NEITHER and rng.random() < 0.95 else unfixed
        if not wanted:
            raise TooLarge      # a conflict
        bit = rng.choice(sorted(wanted))
        return ("test", bit, grow(cell.with_zero(bit)), grow(cell.with_one(bit)))

    try:
        return grow(Cell())
    except TooLarge:
        return None


# ---------------------------------------------------------------------------- a part of the rule missed

def other_widths(tree):
    """The same nodes under another width that lets them pass as undamaged."""
    tested = [node >> 23 & 0x1F for node in tree[1:] if node >> 28 == TEST]
    for width in range(max(tested, default=0) + 1, 33):
        if width != tree[0] >> 16 & 0x3F:
            yield [header(width, len(tree) - 1)] + tree[1:]


def without_block(tree, start, end):
    """The nodes from start to end taken out, indices after them moved."""
    size = end - start

    def moved(node):
        return node - size if node >> 28 == TEST and node & 0xFFFF >= end else node

    return [tree[0] - size] + [moved(node) for node in tree[1:start]] + [moved(node) for node in tree[end:]]


def shared_sides(tree):
    """Trees in which one side is left out because the same nodes stand elsewhere: every path is right and all nodes are
    used, but a one side doesn't begin where its zero side ends."""
    nodes = dict(enumerate(tree))
    del nodes[0]
    ends = side_ends(nodes)
    for index, node in nodes.items():
        if node >> 28 != TEST:
            continue
        start = node & 0xFFFF
        end = ends[start]
        for other in range(index + 2, len(tree)):
            if other == start or start < other < end or shape_at(tree, other) != shape_at(tree, start):
                continue
            cut = without_block(tree, start, end)
            yield with_node(cut, index, test_node(node >> 23 & 0x1F, other - (end - start) if other >= end else other))


def with_unused(rng, tree):
    """Good nodes after the tree that the header counts too."""
    width, nodes = tree[0] >> 16 & 0x3F, len(tree) - 1
    for extra in (NOTHING_LEAF, ("names", rng.randrange(256)), shape_at(tree, rng.randint(1, nodes)), shape_at(tree, 1)):
        yield [header(width, nodes + size_of(extra))] + tree[1:] + nodes_from(extra, nodes + 1)


def with_gap(rng, tree):
    """A nothing before a one side, which no path comes to."""
    tests = [index for index in range(1, len(tree)) if tree[index] >> 28 == TEST]
    for index in tests:
        gap = tree[index] & 0xFFFF
        moved = [node + 1 if node >> 28 == TEST and node & 0xFFFF >= gap else node for node in tree[1:]]
        yield [tree[0] + 1] + moved[:gap - 1] + [rng.choice([NOTHING_NODE, names_node(0)])] + moved[gap - 1:]


def tested_again(rng, shape):
    """Each test repeated below itself, at once on either side or somewhere below; the leaves are right for the last test."""
    def again_on_zero(part):
        _, bit, zero, one = part
        return ("test", bit, ("test", bit, zero, one), one)

    def again_on_one(part):
        _, bit, zero, one = part
        return ("test", bit, zero, ("test", bit, zero, one))

    def again_below(part):
        _, bit, zero, one = part
        return ("test", bit, zero, replaced(one, rng.randrange(size_of(one)), lambda below: ("test", bit, below, below)))

    for at, part in enumerate(parts_of(shape)):
        if part[0] == "test":
            for change in (again_on_zero, again_on_one, again_below):
                yield replaced(shape, at, change)


def collapsed(shape):
    """Each test replaced by each leaf below it. Where all of them are equal every walk stays right, but the step may be
    another one in the larger cell."""
    for at, part in enumerate(parts_of(shape)):
        if part[0] == "test":
            # Not a set: its order would differ from run to run.
            for leaf in dict.fromkeys(one for one in parts_of(part) if one[0] != "test"):
                yield replaced(shape, at, lambda _, leaf=leaf: leaf)


def leaves_changed(shape, entries):
    """Each leaf replaced by nothing, by each entry and by entries that the table doesn't have."""
    for at, part in enumerate(parts_of(shape)):
        if part[0] != "test":
            for leaf in (NOTHING_LEAF, *(("names", number) for number in {*range(min(entries, 12)), entries & 0xFF, 255})):
                if leaf != part:
                    yield replaced(shape, at, lambda _, leaf=leaf: leaf)


def sides_swapped(shape):
    for at, part in enumerate(parts_of(shape)):
        if part[0] == "test":
            yield replaced(shape, at, lambda one: ("test", one[1], one[3], one[2]))


def nodes_swapped(tree):
    """Each two nodes swapped as words."""
    for index in range(1, len(tree)):
        for other in range(index + 1, len(tree)):
            if tree[index] != tree[other]:
                yield with_node(with_node(tree, index, tree[other]), other, tree[index])


def one_sides_moved(tree):
    """Each one side's index one more, one less, 0 and beyond."""
    for index in range(1, len(tree)):
        if tree[index] >> 28 == TEST:
            one_side = tree[index] & 0xFFFF
            for other in {one_side + 1, one_side - 1, 0, len(tree), 0xFFFF}:
                yield with_node(tree, index, tree[index] & ~0xFFFF | other)
