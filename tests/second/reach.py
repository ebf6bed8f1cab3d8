"""Entries that nobody can reach, written from document 02's No. 8 by words: every word of the width is tried, so this is for narrow tables.
Quotations are sentences of No. 8. tree.py tells the same by the leaves, and nothing of it is used for that here.

At the end, what makes a plan with a tree of one that has such entries.
"""

from second.reader import Refusal
from second.selection import AMBIGUOUS, select
from second.tables import TablePlan
from second.tree import conflict_word, named_entries

MOST_WIDTH = 10     # 1,024 words


def selected_by(table):
    """What the words of the width select: entries' numbers, NOTHING, AMBIGUOUS."""
    return {select(table, word) for word in range(2 ** table.width)}


def unreached_in(count, selected):
    """"some entry is selected by no word of the width": which of so many entries, the lowest first."""
    return [number for number in range(count) if number not in selected]


def judged(count, selected):
    """What generating says of a table without fault if its tree has room: its Refusal (6 without the word), or None."""
    # "Errors: 19, with the lowest such entry as place, after 6"
    if AMBIGUOUS in selected:
        return Refusal(6)
    unreached = unreached_in(count, selected)
    return Refusal(19, place=unreached[0]) if unreached else None


def judged_by_words(table):
    return judged(len(table.entries), selected_by(table))


# ---------------------------------------------------------------------------- plans that have a tree

def reachable(plan, nodes):
    """The plan without the entries that no leaf of its tree names; itself if there is none, or if it is ambiguous. Such an entry decides
    nothing, so every word selects what it did, renumbered. (The tree may be another one.)"""
    if conflict_word(nodes) is not None:
        return plan
    named = named_entries(nodes)
    kept = [entry for number, entry in enumerate(plan.entries) if number in named]
    return plan if len(kept) == len(plan.entries) else TablePlan(plan.width, kept)
