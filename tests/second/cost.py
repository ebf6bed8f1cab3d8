"""The cycles of an entry, written from document 02's No. 3 alone. Quotations are sentences of it."""

from second.reader import Refusal
from second.selection import read_once


def cycles(words, entry):
    """A number or a Refusal. "A new call gives an entry's cycles, or after the table's faults 11 for no such entry.\""""
    table = read_once(tuple(words))
    if isinstance(table, Refusal):
        return table
    if entry >= len(table.entries):
        return Refusal(11)
    return table.entries[entry].cycles
