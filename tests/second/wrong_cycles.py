"""Mistakes with cycles. Each of WRONG is to be put in the place of cost.cycles, and stands on the right call, which is kept here; a
test must notice it.
"""

from dataclasses import replace

from second import cost, selection
from second.reader import Field, Refusal, bits, form_of
from second.tables import MOST_CYCLES, WITH_CYCLES
from second.twins import heads_in, kind_of

RIGHT_CYCLES = cost.cycles
RIGHT_SPECIFIC = selection.more_specific
RIGHT_READ = selection.read_once


# ---------------------------------------------------------------------------- other numbers

def with_number(words, entry, wrong):
    """Another number where the right answer is one."""
    outcome = RIGHT_CYCLES(words, entry)
    return outcome if isinstance(outcome, Refusal) else wrong(outcome)


def first_for_all(words, entry):
    """Mistake: the first entry's cycles for every entry."""
    return with_number(words, entry, lambda number: RIGHT_CYCLES(words, 0))


def next_entry(words, entry):
    """Mistake: the next entry's cycles, but for the last entry."""
    following = RIGHT_CYCLES(words, entry + 1)
    return with_number(words, entry, lambda number: number if isinstance(following, Refusal) else following)


def word_after_value(words, entry):
    """Mistake: a table of kind 1 has cycles too."""
    return with_number(words, entry, lambda number: [*words, 0][heads_in(words)[entry] + 3])


def low_byte(words, entry):
    """Mistake: the cycles have eight bits."""
    return with_number(words, entry, lambda number: number % 256)


# ---------------------------------------------------------------------------- other refusals

def one_entry_more(words, entry):
    """Mistake: 11 isn't given for the number of entries itself."""
    outcome = RIGHT_CYCLES(words, entry)
    return 0 if outcome == Refusal(11) and entry == words[0] >> 16 & 0xFFF else outcome


def no_entry_first(words, entry):
    """Mistake: 11 comes before the table's fault."""
    return Refusal(11) if words and entry >= words[0] >> 16 & 0xFFF else RIGHT_CYCLES(words, entry)


def cycles_places(words):
    """The indices of the cycles words that are there, as far as the counts before them are right."""
    if not words or kind_of(words) != WITH_CYCLES:
        return []
    return [head + 3 for head in heads_in(words) if head + 3 < len(words)]


def mended(words, places):
    """The words with cycles at these places that are not too many."""
    words = list(words)
    for place in places:
        words[place] &= MOST_CYCLES
    return words


def seventeen_bits(words, entry):
    """Mistake: cycles up to 131,071 are taken."""
    places = cycles_places(words)
    outcome = RIGHT_CYCLES(mended(words, [place for place in places if words[place] >> 17 == 0]), entry)
    return outcome if isinstance(outcome, Refusal) or not places else words[places[entry]]


def place_of_missing(words, entry):
    """Mistake: where the table ends before the cycles, their own index and not the table's length; they differ if more is missing."""
    outcome = RIGHT_CYCLES(words, entry)
    if words and kind_of(words) == WITH_CYCLES and outcome == Refusal(2, len(words)):
        last = heads_in(words)[-1:]
        return Refusal(2, max([len(words), *(head + 3 for head in last)]))
    return outcome


def after_fields(words, entry):
    """Mistake: the cycles are judged after the fields and the cover."""
    outcome = RIGHT_CYCLES(words, entry)
    wrong = [place for place in cycles_places(words) if outcome == Refusal(2, place)]
    if not wrong:
        return outcome
    place = wrong[0]
    fields = words[place - 3] >> 4 & 0xF
    later = RIGHT_CYCLES(mended(words, wrong), entry)
    in_this_entry = isinstance(later, Refusal) and (later.place == place - 3 or place < later.place <= place + fields)
    return later if in_this_entry else outcome


def before_opcode(words, entry):
    """Mistake: the cycles are judged before the mask and the value."""
    outcome = RIGHT_CYCLES(words, entry)
    wrong = [place for place in cycles_places(words) if outcome == Refusal(3, place - 2) and words[place] > MOST_CYCLES]
    return Refusal(2, wrong[0]) if wrong else outcome


WRONG = (first_for_all, next_entry, word_after_value, low_byte, one_entry_more, no_entry_first, seventeen_bits, place_of_missing,
         after_fields, before_opcode)


# ---------------------------------------------------------------------------- in the place of functions of selection.py

def fewer_cycles_win(e, f):
    """Mistake: of two equal patterns that of fewer cycles is the more specific one."""
    return RIGHT_SPECIFIC(e, f) or e.opcode == f.opcode and e.cycles < f.cycles


def fields_at_cycles(words):
    """Mistake: the first field of an entry is the word after its value, also with cycles."""
    table = RIGHT_READ(words)
    if isinstance(table, Refusal):
        return table
    moved = [[Field(bits(word, 15, 8), bits(word, 7, 0), *form_of(word)) for word in words[head + 3:head + 3 + len(entry.fields)]]
             for head, entry in zip(heads_in(words), table.entries)]
    return replace(table, entries=tuple(replace(entry, fields=tuple(fields)) for entry, fields in zip(table.entries, moved)))


WRONG_SELECTION = {"more_specific": fewer_cycles_win, "read_once": fields_at_cycles}
