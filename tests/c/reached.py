"""Tables without the entries that no word selects, so that there is a tree: for make_trees.py and make_sizes.py."""

from itertools import chain

from second.tables import with_bits
from second.tree import named_entries, nodes_once
from second.twins import spans


def reached(words):
    """A table that is refused with 19, without these entries. The words of the width select what they selected before."""
    named = named_entries(nodes_once(tuple(words)))
    kept = [words[head:end] for number, (head, end) in enumerate(spans(words)) if number in named]
    return [with_bits(words[0], 27, 16, len(kept)), *chain.from_iterable(kept)]
