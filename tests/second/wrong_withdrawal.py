"""Mistakes in telling how far a withdrawal reaches. Each of WRONG is to be put in the place of withdrawal.changed, and stands on the right
call, which is kept here; a test must notice it.
"""

from second import reach, withdrawal
from second.reader import Refusal
from second.selection import AMBIGUOUS, NOTHING, has_high_bit, read_once, select
from second.withdrawal import answers_after, answers_before, without

RIGHT_CHANGED = withdrawal.changed


# ---------------------------------------------------------------------------- other counts

def with_number(words, entry, listed, wrong):
    """Another number where the right answer is one."""
    outcome = RIGHT_CHANGED(words, entry, listed)
    return outcome if isinstance(outcome, Refusal) else wrong(outcome)


def pairs(words, entry, listed):
    """What each word selects before and after the withdrawal, in the numbers before it."""
    table = read_once(tuple(words))
    return zip(answers_before(table, listed), answers_after(table, entry, listed), strict=True)


def counted_if(words, entry, listed, counts):
    """The words are counted by another rule."""
    return with_number(words, entry, listed, lambda _: sum(counts(old, new) for old, new in pairs(words, entry, listed)))


def others_counted(words, entry, listed):
    """Mistake: the words that keep their answer are counted."""
    return counted_if(words, entry, listed, lambda old, new: old == new)


def renumbering_counted(words, entry, listed):
    """Mistake: an entry that stands behind the withdrawn one counts as another, because its number is another."""
    return counted_if(words, entry, listed, lambda old, new: old != new or new not in (NOTHING, AMBIGUOUS) and new > entry)


def number_taken(words, entry, listed):
    """Mistake: the entry directly behind the withdrawn one counts as the same, because it has its number now."""
    return counted_if(words, entry, listed, lambda old, new: old != new and new != entry + 1)


def ambiguous_left_out(words, entry, listed):
    """Mistake: turning ambiguous isn't counted."""
    return counted_if(words, entry, listed, lambda old, new: old != new and new != AMBIGUOUS)


def nothing_left_out(words, entry, listed):
    """Mistake: turning to nothing isn't counted."""
    return counted_if(words, entry, listed, lambda old, new: old != new and new != NOTHING)


def another_left_out(words, entry, listed):
    """Mistake: turning to another entry isn't counted."""
    return counted_if(words, entry, listed, lambda old, new: old != new and new in (NOTHING, AMBIGUOUS))


def one_at_most(words, entry, listed):
    """Mistake: the counting ends at the first word that changes."""
    return with_number(words, entry, listed, lambda number: min(number, 1))


def low_byte(words, entry, listed):
    """Mistake: the count has eight bits."""
    return with_number(words, entry, listed, lambda number: number % 256)


def low_half(words, entry, listed):
    """Mistake: the count has sixteen bits."""
    return with_number(words, entry, listed, lambda number: number % 65536)


# ---------------------------------------------------------------------------- other lists

def duplicates_once(words, entry, listed):
    """Mistake: a word that is there twice is counted once."""
    return RIGHT_CHANGED(words, entry, list(dict.fromkeys(listed)))


def first_left_out(words, entry, listed):
    """Mistake: the first word isn't looked at."""
    return RIGHT_CHANGED(words, entry, listed[1:])


def last_left_out(words, entry, listed):
    """Mistake: the last word isn't looked at."""
    return RIGHT_CHANGED(words, entry, listed[:-1])


def last_unfit(words, entry, listed):
    """Mistake: the last unfit word decides."""
    return RIGHT_CHANGED(words, entry, listed[::-1])


def with_first(words, entry, listed, is_first):
    """Some words are judged before the others."""
    table = read_once(tuple(words))
    if isinstance(table, Refusal):
        return table
    return RIGHT_CHANGED(words, entry, sorted(listed, key=lambda word: not is_first(table, word)))


def high_first(words, entry, listed):
    """Mistake: 7 comes before 6, whatever the order of the words."""
    return with_first(words, entry, listed, has_high_bit)


def is_ambiguous(table, word):
    return not has_high_bit(table, word) and select(table, word) == AMBIGUOUS


def ambiguous_first(words, entry, listed):
    """Mistake: 6 comes before 7, whatever the order of the words."""
    return with_first(words, entry, listed, is_ambiguous)


# ---------------------------------------------------------------------------- other refusals

def let_through(words, entry, listed):
    """Mistake: no such entry is no cause, and nothing changes."""
    outcome = RIGHT_CHANGED(words, entry, listed)
    return 0 if outcome == Refusal(11) else outcome


def one_entry_more(words, entry, listed):
    """Mistake: 11 isn't given for the number of entries itself."""
    outcome = RIGHT_CHANGED(words, entry, listed)
    return 0 if outcome == Refusal(11) and entry == words[0] >> 16 & 0xFFF else outcome


def low_byte_of_entry(words, entry, listed):
    """Mistake: the entry's number has eight bits."""
    return RIGHT_CHANGED(words, entry % 256, listed)


def no_entry_first(words, entry, listed):
    """Mistake: 11 comes before the table's fault."""
    return Refusal(11) if words and entry >= words[0] >> 16 & 0xFFF else RIGHT_CHANGED(words, entry, listed)


def no_entry_last(words, entry, listed):
    """Mistake: 11 comes after the words."""
    outcome = RIGHT_CHANGED(words, entry, listed)
    if outcome != Refusal(11):
        return outcome
    before = answers_before(read_once(tuple(words)), listed)
    return before if isinstance(before, Refusal) else outcome


def refused_after(words, entry, listed):
    """Mistake: a word that turns ambiguous gives 6."""
    outcome = RIGHT_CHANGED(words, entry, listed)
    if isinstance(outcome, Refusal):
        return outcome
    turned = [word for word, (_, new) in zip(listed, pairs(words, entry, listed)) if new == AMBIGUOUS]
    return Refusal(6, word=turned[0]) if turned else outcome


def mended_taken(words, entry, listed):
    """Mistake: a word that was ambiguous, and isn't without the entry, counts as changed."""
    table = read_once(tuple(words))
    if isinstance(table, Refusal) or entry >= len(table.entries):
        return RIGHT_CHANGED(words, entry, listed)
    fewer = without(table, entry)
    left = [word for word in listed if not is_ambiguous(table, word) or is_ambiguous(fewer, word)]
    return with_number(words, entry, left, lambda number: number + len(listed) - len(left))


def unfit_word(words, entry, listed, wrong):
    """Another refusal in the place of 6 and 7, made of the right one and of the unfit word's index in the list."""
    outcome = RIGHT_CHANGED(words, entry, listed)
    if not isinstance(outcome, Refusal) or outcome.number not in (6, 7):
        return outcome
    table = read_once(tuple(words))
    return wrong(outcome, next(at for at, word in enumerate(listed) if has_high_bit(table, word) or is_ambiguous(table, word)))


def word_of_7(words, entry, listed):
    """Mistake: 7 has the word too."""
    return unfit_word(words, entry, listed, lambda refusal, at: Refusal(refusal.number, word=listed[at]))


def word_of_6_left_out(words, entry, listed):
    """Mistake: 6 without its word."""
    return unfit_word(words, entry, listed, lambda refusal, at: Refusal(refusal.number))


def index_for_place(words, entry, listed):
    """Mistake: the unfit word's index in the list stands where a place does."""
    return unfit_word(words, entry, listed, lambda refusal, at: Refusal(refusal.number, at, refusal.word))


# ---------------------------------------------------------------------------- the table judged as in generating, if it is narrow

def judged(words, entry, listed, judge):
    """A refusal of the whole table in the place of a number."""
    table = read_once(tuple(words))
    if isinstance(table, Refusal) or table.width > reach.MOST_WIDTH:
        return RIGHT_CHANGED(words, entry, listed)
    return with_number(words, entry, listed, lambda number: judge(table) or number)


def first_ambiguous(table):
    """6 with the lowest ambiguous word, or None."""
    return next((Refusal(6, word=word) for word in range(2 ** table.width) if is_ambiguous(table, word)), None)


def whole_table_unambiguous(words, entry, listed):
    """Mistake: 6 for an ambiguous word that is not in the list."""
    return judged(words, entry, listed, first_ambiguous)


def unreached(table):
    """19 with the lowest entry that no word selects, also in an ambiguous table; or None."""
    none = reach.unreached_in(len(table.entries), reach.selected_by(table))
    return Refusal(19, place=none[0]) if none else None


def reach_judged(words, entry, listed):
    """Mistake: 19 if no word selects some entry."""
    return judged(words, entry, listed, unreached)


WRONG_RULES = (others_counted, renumbering_counted, number_taken, ambiguous_left_out, nothing_left_out, another_left_out)
WRONG = (*WRONG_RULES, one_at_most, low_byte, low_half, duplicates_once, first_left_out, last_left_out, last_unfit, high_first,
         ambiguous_first, let_through, one_entry_more, low_byte_of_entry, no_entry_first, no_entry_last, refused_after, mended_taken,
         word_of_7, word_of_6_left_out, index_for_place, whole_table_unambiguous, reach_judged)
