"""Trees for the tests of the walk: damaged ones and foreign ones, as words. Nothing here uses the second implementation.

Everything is drawn from the random.Random that is handed in, so the same seed gives the same trees.
"""

HEADER, TEST, NAMES, NOTHING = 7, 8, 9, 10


def header(width, nodes):
    return HEADER << 28 | width << 16 | nodes


def test_node(bit, one_side):
    return TEST << 28 | bit << 23 | one_side


def names_node(entry):
    return NAMES << 28 | entry


NOTHING_NODE = NOTHING << 28


def high_word(rng, width):
    """A word with a bit at or above the width, often that bit alone; None when the width is 32."""
    if width == 32:
        return None
    bit = rng.choice([width, 31, rng.randint(width, 31)])
    return 1 << bit | rng.choice([0, rng.getrandbits(width)])


def word_to(rng, tree, index):
    """A word of the width whose path in a good tree comes to this index; free bits are random."""
    width = tree[0] >> 16 & 0x3F
    word = rng.getrandbits(width)
    at = 1
    while at != index:
        node = tree[at]
        bit, one_side = node >> 23 & 0x1F, node & 0xFFFF
        if index >= one_side:
            word |= 1 << bit
            at = one_side
        else:
            word &= ~(1 << bit)
            at += 1
    return word


def tested_bits(tree, word):
    """The bits tested on the word's path, in order; no node on it may be damaged."""
    at, tested = 1, []
    while tree[at] >> 28 == TEST:
        tested.append(tree[at] >> 23 & 0x1F)
        at = tree[at] & 0xFFFF if word >> tested[-1] & 1 else at + 1
    return tested


# ---------------------------------------------------------------------------- damages

def with_node(tree, index, node):
    return tree[:index] + [node] + tree[index + 1:]


def test_changes(rng, node, index, width, nodes):
    """(what, node) for a kind 8 node: other tested bits and other indices, some of them good."""
    for bit in range(32):
        if bit != node >> 23 & 0x1F:
            yield "tested bit", node & ~(0x1F << 23) | bit << 23
    one_side = node & 0xFFFF
    for other in {0, 1, index - 1, index, index + 1}:
        yield "index below", node & ~0xFFFF | other
    for other in {nodes + 1, nodes + 2, 0x7FFF, 0x8000, 0xFFFF, rng.randint(nodes + 1, 0xFFFF)}:
        yield "index above", node & ~0xFFFF | other
    for other in range(index + 2, nodes + 1):
        if other != one_side:
            yield "index moved", node & ~0xFFFF | other


SPARE_BITS = {TEST: range(16, 23), NAMES: range(8, 28), NOTHING: range(0, 28)}


def altered_nodes(rng, tree, index):
    """(what, tree) for each way to alter one node: all other kinds, all spare bits, tested bits and indices."""
    node, width, nodes = tree[index], tree[0] >> 16 & 0x3F, tree[0] & 0xFFFF
    kind = node >> 28
    for other in range(16):
        if other != kind:
            yield "kind", with_node(tree, index, node & 0x0FFFFFFF | other << 28)
            yield "kind", with_node(tree, index, other << 28)
    for bit in SPARE_BITS[kind]:
        yield "spare bit", with_node(tree, index, node | 1 << bit)
    if kind == TEST:
        for what, changed in test_changes(rng, node, index, width, nodes):
            yield what, with_node(tree, index, changed)
    if kind == NAMES:
        yield "entry", with_node(tree, index, names_node(rng.randrange(256)))
    yield "word", with_node(tree, index, rng.getrandbits(32))


def altered_headers(rng, tree):
    """(what, tree): other kinds, spare bits, every other width that six bits hold, and numbers of nodes.
    The tree may be cut, so that the header says more nodes than there are."""
    first, nodes = tree[0], tree[0] & 0xFFFF
    for kind in range(16):
        if kind != HEADER:
            yield "header kind", [first & 0x0FFFFFFF | kind << 28] + tree[1:]
    for bit in range(22, 28):
        yield "header spare", [first | 1 << bit] + tree[1:]
    for width in range(64):
        yield "header width", [first & ~(0x3F << 16) | width << 16] + tree[1:]
    for count in {0, 1, nodes // 2, nodes - 1, nodes + 1, nodes + 256, 0xFFFF}:
        if count >= 0:
            yield "header nodes", [first & ~0xFFFF | count] + tree[1:]
    # As many words as said, one fewer, one more.
    yield "header nodes", [header(first >> 16 & 0x3F, len(tree))] + tree[1:] + [NOTHING_NODE]
    yield "header nodes", [header(first >> 16 & 0x3F, len(tree))] + tree[1:]
    yield "header nodes", [header(first >> 16 & 0x3F, len(tree))] + tree[1:] + [NOTHING_NODE, rng.getrandbits(32)]
    yield "header nodes", tree[:1]
    yield "header nodes", []


# ---------------------------------------------------------------------------- foreign trees

def foreign(rng, width, nodes):
    """A tree of nodes that are good by themselves; a path may come to a node from several sides and test a bit again."""
    tree = [header(width, nodes)]
    for index in range(1, nodes + 1):
        if index + 2 <= nodes and rng.random() < 0.75:
            last = min(nodes, index + 12) if rng.random() < 0.7 else nodes
            tree.append(test_node(rng.randrange(width), rng.randint(index + 2, last)))
        else:
            tree.append(rng.choice([names_node(rng.randrange(256)), names_node(rng.randrange(256)), NOTHING_NODE]))
    return tree


def chain(nodes):
    """Width 1: all tests but the last two nodes, so that word 0 passes nodes - 2 of them."""
    tests = [test_node(0, min(nodes, index + 2)) for index in range(1, nodes - 1)]
    return [header(1, nodes)] + tests + [names_node(255), NOTHING_NODE]


def flipped(rng, tree):
    """One to three bits of nodes are other ones."""
    tree = list(tree)
    for _ in range(rng.randint(1, 3)):
        tree[rng.randrange(1, len(tree))] ^= 1 << rng.randrange(32)
    return tree
