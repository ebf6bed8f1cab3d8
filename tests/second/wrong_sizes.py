"""Mistakes in sizing, each to be put in the place of measure.measure; a test must notice it.

Each stands on the right sizing, which is kept here.
"""

from functools import lru_cache

from second import measure, wrong_reach
from second.reader import Refusal
from second.selection import read_once
from second.tree import MOST_TREE_WORDS, Conflict, Names, conflict_word, nodes_of, nodes_once, refusal_by_leaves

RIGHT_MEASURE = measure.measure


# ---------------------------------------------------------------------------- other numbers

def with_tests(words, wrong):
    """The right number of nodes with another number of tests, made of the leaves in node order."""
    outcome = RIGHT_MEASURE(words)
    if isinstance(outcome, Refusal):
        return outcome
    nodes, _ = outcome
    return nodes, wrong(measure.leaves_of(nodes_once(tuple(words))))


def greatest(leaves):
    return max((measure.tests_before(leaf) for leaf in leaves), default=0)


def zero_sides_alone(words):
    """Mistake: a test has as many tests below it as its zero side."""
    return with_tests(words, lambda leaves: greatest(leaves[:1]))


def one_sides_alone(words):
    """Mistake: a test has as many tests below it as its one side."""
    return with_tests(words, lambda leaves: greatest(leaves[-1:]))


def leaf_counted(words):
    """Mistake: the nodes of the longest path, one more than its tests."""
    return with_tests(words, lambda leaves: greatest(leaves) + 1)


def nothing_left_out(words):
    """Mistake: a path to a leaf that names nothing isn't looked at."""
    return with_tests(words, lambda leaves: greatest(leaf for leaf in leaves if isinstance(leaf, Names)))


def bits_of_all_paths(words):
    """Mistake: all bits that are tested somewhere in the tree."""
    return with_tests(words, lambda leaves: len(frozenset().union(*(leaf.cell.fixed for leaf in leaves))))


def words_for_nodes(words):
    """Mistake: nodes + 1, as generating returns it."""
    outcome = RIGHT_MEASURE(words)
    return outcome if isinstance(outcome, Refusal) else (outcome[0] + 1, outcome[1])


# ---------------------------------------------------------------------------- other refusals

@lru_cache(maxsize=1)
def more_nodes(words):
    """The nodes of a good table's tree, also of one that has a test too many; None if it is larger than that."""
    return nodes_once(words) or nodes_of(read_once(words), MOST_TREE_WORDS + 1)


def refused_by(words, refusal_of):
    """Sizing with another function in the place of tree.refusal_of."""
    table = read_once(tuple(words))
    if isinstance(table, Refusal):
        return table
    nodes = more_nodes(tuple(words))
    return refusal_of(table, nodes, MOST_TREE_WORDS) or (len(nodes), greatest(measure.leaves_of(nodes)))


def fitting_if(words, fits):
    """Sizing with another rule for the nodes of a tree that fits."""
    return refused_by(words, lambda table, nodes, room: refusal_by_leaves(table, nodes) if nodes and fits(nodes) else Refusal(5))


def one_word_fewer(words):
    """Mistake: a limit of 16,383 words."""
    return fitting_if(words, lambda nodes: len(nodes) + 1 <= MOST_TREE_WORDS - 1)


def two_words_more(words):
    """Mistake: a limit of 16,386 words. One of 16,385 is no mistake: each test has two sides, so nodes + 1 is even."""
    return fitting_if(words, lambda nodes: len(nodes) + 1 <= MOST_TREE_WORDS + 2)


def conflicts_not_counted(words):
    """Mistake: conflict leaves don't count for the limit."""
    return fitting_if(words, lambda nodes: sum(not isinstance(node, Conflict) for node in nodes) + 1 <= MOST_TREE_WORDS)


def ambiguous_first(words):
    """Mistake: 6 comes before 5."""
    return fitting_if(words, lambda nodes: len(nodes) + 1 <= MOST_TREE_WORDS or conflict_word(nodes) is not None)


def word_left_out(words):
    """Mistake: 6 without its word."""
    outcome = RIGHT_MEASURE(words)
    return Refusal(6) if isinstance(outcome, Refusal) and outcome.number == 6 else outcome


def with_refusal(wrong):
    """Sizing with a mistake of wrong_reach.py."""
    def sizing(words):
        return refused_by(words, wrong)
    sizing.__doc__ = wrong.__doc__
    return sizing


WRONG = (zero_sides_alone, one_sides_alone, leaf_counted, nothing_left_out, bits_of_all_paths, words_for_nodes,
         one_word_fewer, two_words_more, conflicts_not_counted, ambiguous_first, word_left_out,
         *(with_refusal(wrong) for wrong in wrong_reach.WRONG))
