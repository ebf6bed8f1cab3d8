"""Twins of good tables, from their words alone: a table of kind 1 as one of kind 6 with cycles, a table of kind 6 as one of kind 1.

Nothing here uses the second implementation. Every call but the one that gives cycles must say the same of a table and its twin
(document 02's No. 3): "Selection, tree and fields do not depend on cycles, so two tables that differ in cycles only have equal trees."
"""

import random

from second.tables import PLAIN, WITH_CYCLES, some_cycles, with_bits


def kind_of(words):
    return words[0] >> 28


def spans(words):
    """The index of each entry's head, and the index after its last word, by the counts alone. Words that are not there count as 0."""
    def word_at(index):
        return words[index] if index < len(words) else 0

    head = 1
    for _ in range(words[0] >> 16 & 0xFFF):
        end = head + (4 if kind_of(words) == WITH_CYCLES else 3) + (word_at(head) >> 4 & 0xF)
        for _ in range(word_at(head) & 0xF):
            end += 3 + 3 * (word_at(end) & 0xF)
        yield head, end
        head = end


def heads_in(words):
    """The indices of the heads that are there, also in a table at fault: up to its first fault they are right."""
    return [head for head, _ in spans(words) if head < len(words)]


def cycles_of(words):
    """The cycles of each entry."""
    return [words[head + 3] if kind_of(words) == WITH_CYCLES else 0 for head in heads_in(words)]


def with_cycles(words, cycles):
    """A table of kind 1 as one of kind 6."""
    twin = [with_bits(words[0], 31, 28, WITH_CYCLES)]
    for (head, end), number in zip(spans(words), cycles, strict=True):
        twin += [*words[head:head + 3], number, *words[head + 3:end]]
    return twin


def without_cycles(words):
    """A table of kind 6 as one of kind 1."""
    twin = [with_bits(words[0], 31, 28, PLAIN)]
    for head, end in spans(words):
        twin += [*words[head:head + 3], *words[head + 4:end]]
    return twin


def twin_of(rng, words):
    if kind_of(words) == WITH_CYCLES:
        return without_cycles(words)
    return with_cycles(words, [some_cycles(rng) for _ in spans(words)])


class Twins:
    """The twin of a table, the same one each time that it is asked for."""

    def __init__(self, seed):
        self.rng = random.Random(seed)
        self.known = {}

    def of(self, words):
        key = tuple(words)
        if key not in self.known:
            self.known[key] = twin_of(self.rng, words)
        return self.known[key]
