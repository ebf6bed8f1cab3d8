"""Mistakes with entries that no word selects. Each of WRONG is to be put in the place of tree.refusal_of, each of WRONG_BUFFERS in the
place of tree.generate; it stands on the right one, which is kept here, and a test must notice it.
"""

from second import tree
from second.reader import Refusal, Table
from second.selection import more_specific, read_once
from second.tree import named_entries, nodes_of, refusal_by_leaves, unnamed_entries

RIGHT_REFUSAL = tree.refusal_of
RIGHT_GENERATE = tree.generate


def is_19(outcome):
    return isinstance(outcome, Refusal) and outcome.number == 19


# ---------------------------------------------------------------------------- other entries

def with_unreached(table, nodes, room, wrong):
    """The right refusal, but of 19 the lowest that is left of the entries that no word selects; none is left: the table is taken."""
    refusal = RIGHT_REFUSAL(table, nodes, room)
    if not is_19(refusal):
        return refusal
    left = wrong(unnamed_entries(table, nodes))
    return Refusal(19, place=left[0]) if left else None


def let_through(table, nodes, room):
    """Mistake: every entry counts as reached, and the table is let through."""
    return with_unreached(table, nodes, room, lambda unreached: [])


def entries_named(table, numbers):
    """Which of these entries some word selects if there are no others; all of them if that takes too large a tree to tell."""
    nodes = nodes_of(Table(table.width, tuple(table.entries[number] for number in numbers)))
    return set(numbers) if nodes is None else {numbers[at] for at in named_entries(nodes)}


def claiming_is_enough(table, nodes, room):
    """Mistake: an entry that claims a word counts as reached, also if it is never selected."""
    return with_unreached(table, nodes, room, lambda unreached: [one for one in unreached if not entries_named(table, [one])])


def claiming_alone_judged(table, nodes, room):
    """Mistake: an entry whose own conditions exclude every word counts as reached."""
    return with_unreached(table, nodes, room, lambda unreached: [one for one in unreached if entries_named(table, [one])])


def covered_by_one(table, one):
    """Whether no word is left to an entry, or a single more specific one takes them all."""
    over = [other for other in range(len(table.entries)) if more_specific(table.entries[other], table.entries[one])]
    return not entries_named(table, [one]) or any(one not in entries_named(table, [one, other]) for other in over)


def one_cover_alone(table, nodes, room):
    """Mistake: an entry that several cover only together counts as reached."""
    return with_unreached(table, nodes, room, lambda unreached: [one for one in unreached if covered_by_one(table, one)])


def highest_for_lowest(table, nodes, room):
    """Mistake: the highest entry that no word selects."""
    return with_unreached(table, nodes, room, lambda unreached: unreached[::-1])


def first_not_judged(table, nodes, room):
    """Mistake: entry 0 counts as reached."""
    return with_unreached(table, nodes, room, lambda unreached: [one for one in unreached if one != 0])


def last_not_judged(table, nodes, room):
    """Mistake: the last entry counts as reached."""
    return with_unreached(table, nodes, room, lambda unreached: [one for one in unreached if one != len(table.entries) - 1])


# ---------------------------------------------------------------------------- another place, another order

def with_refusal(table, nodes, room, wrong):
    """Another refusal in the place of 19, made of the entry."""
    refusal = RIGHT_REFUSAL(table, nodes, room)
    return wrong(refusal.place) if is_19(refusal) else refusal


def count_for_place(table, nodes, room):
    """Mistake: the place is the number of entries."""
    return with_refusal(table, nodes, room, lambda entry: Refusal(19, place=len(table.entries)))


def label_for_place(table, nodes, room):
    """Mistake: the place is the entry's label."""
    return with_refusal(table, nodes, room, lambda entry: Refusal(19, place=table.entries[entry].label))


def entry_for_word(table, nodes, room):
    """Mistake: the entry stands where a word does."""
    return with_refusal(table, nodes, room, lambda entry: Refusal(19, word=entry))


def taken_for_ambiguous(table, nodes, room):
    """Mistake: 6 in the place of 19."""
    return with_refusal(table, nodes, room, lambda entry: Refusal(6))


def before_ambiguous(table, nodes, room):
    """Mistake: 19 comes before 6."""
    refusal = RIGHT_REFUSAL(table, nodes, room)
    unnamed = unnamed_entries(table, nodes) if refusal is not None and refusal.number == 6 else []
    return Refusal(19, place=unnamed[0]) if unnamed else refusal


def before_fit(table, nodes, room):
    """Mistake: 19 comes before 5."""
    by_leaves = None if nodes is None else refusal_by_leaves(table, nodes)
    return by_leaves if is_19(by_leaves) else RIGHT_REFUSAL(table, nodes, room)


def no_entries_refused(table, nodes, room):
    """Mistake: a table without entries is refused too."""
    refusal = RIGHT_REFUSAL(table, nodes, room)
    return Refusal(19) if refusal is None and not table.entries else refusal


WRONG = (let_through, claiming_is_enough, claiming_alone_judged, one_cover_alone, highest_for_lowest, first_not_judged, last_not_judged,
         count_for_place, label_for_place, entry_for_word, taken_for_ambiguous, before_ambiguous, before_fit, no_entries_refused)


# ---------------------------------------------------------------------------- in the place of tree.generate

def buffer_kept(words, buffer):
    """Mistake: 19 leaves the buffer as it was."""
    outcome, after = RIGHT_GENERATE(words, buffer)
    return outcome, list(buffer) if is_19(outcome) else after


def tree_left(words, buffer):
    """Mistake: 19 leaves the tree in the buffer."""
    outcome, after = RIGHT_GENERATE(words, buffer)
    if not is_19(outcome):
        return outcome, after
    made = tree.written(read_once(tuple(words)).width, tree.nodes_once(tuple(words)))
    return outcome, made + list(buffer[len(made):])


WRONG_BUFFERS = (buffer_kept, tree_left)
