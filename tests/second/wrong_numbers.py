"""Mistakes with operands that have a sign or a point. Each of WRONG is to be put in the place of a function of the second
implementation, and stands on the right one, which is kept here; a test must notice it.
"""

from decimal import ROUND_HALF_EVEN, Decimal

from second import numbers, reader, selection
from second.numbers import Kind
from second.reader import FIXED_POINT, MOST_FRACTION, Fault, Refusal, bits, form_of

RIGHT_SPARE = reader.spare_bit_set
RIGHT_FORM = reader.form_at_fault
RIGHT_FIELD = reader.read_field
RIGHT_JUDGED = numbers.judged
RIGHT_NUMBER = numbers.number_of
RIGHT_VALUE = numbers.value_of
RIGHT_TEXT_OF = numbers.text_of
RIGHT_SIGNED = numbers.signed
RIGHT_STORED = numbers.stored
RIGHT_TEXT = numbers.text
RIGHT_FIELD_VALUE = selection.field_value
RIGHT_SPECIFIC = selection.more_specific
RIGHT_ENCODE = selection.encode


# ---------------------------------------------------------------------------- forms, in a table and by themselves

def form_three_taken(word):
    """Mistake: form 3 is taken."""
    return form_of(word)[0] != 3 and RIGHT_FORM(word)


def form_two_refused(word):
    """Mistake: form 2 is over the last one."""
    return form_of(word)[0] == FIXED_POINT or RIGHT_FORM(word)


def wide_fraction_taken(word):
    """Mistake: fraction bits may be more than the field's width."""
    form, fraction = form_of(word)
    return form > FIXED_POINT or fraction > MOST_FRACTION


def fraction_17_taken(word):
    """Mistake: 17 fraction bits are taken."""
    form, fraction = form_of(word)
    return form > FIXED_POINT or fraction > 17 or fraction > bits(word, 7, 0)


def fraction_16_refused(word):
    """Mistake: 16 fraction bits are too many."""
    return form_of(word)[1] == MOST_FRACTION or RIGHT_FORM(word)


def all_after_point_refused(word):
    """Mistake: a bit must be left before the point."""
    return form_of(word)[1] >= bits(word, 7, 0) or RIGHT_FORM(word)


def spare_of_plain_alone(word):
    """Mistake: bits 23-16 are spare for form 0 alone."""
    form, fraction = form_of(word)
    return form == 0 and fraction != 0


# ---------------------------------------------------------------------------- in the place of reader.read_field

def with_number(reading, own, covered, wrong):
    """The right field, or its fault with another number, made of that number and the word."""
    place = reading.next
    try:
        return RIGHT_FIELD(reading, own, covered)
    except Fault as fault:
        if place == len(reading.words):
            raise
        raise Fault(wrong(fault.number, reading.words[place]), fault.place) from None


def spare_is_4_in_tables(reading, own, covered):
    """Mistake: a spare bit of a field is 4."""
    return with_number(reading, own, covered, lambda number, word: 4 if word >> 28 == 3 else number)


def spare_of_form_3_is_4_in_tables(reading, own, covered):
    """Mistake: a form over 2 is 4, whatever bits 23-16 are."""
    return with_number(reading, own, covered, lambda number, word: 4 if word >> 28 == 3 and form_of(word)[0] > 2 else number)


def form_is_2_in_tables(reading, own, covered):
    """Mistake: a form fault is 2."""
    return with_number(reading, own, covered, lambda number, word: 2 if number == 4 and RIGHT_FORM(word) else number)


WRONG_IN_TABLES = [(reader, "form_at_fault", wrong) for wrong in (form_three_taken, form_two_refused, wide_fraction_taken, fraction_17_taken,
                                                                  fraction_16_refused, all_after_point_refused)] \
    + [(reader, "spare_bit_set", spare_of_plain_alone)] \
    + [(reader, "read_field", wrong) for wrong in (spare_is_4_in_tables, spare_of_form_3_is_4_in_tables, form_is_2_in_tables)]


# ---------------------------------------------------------------------------- in the place of numbers.judged

def spare_is_4(word):
    """Mistake: a spare bit is 4."""
    return Refusal(4) if bits(word, 31, 28) == 3 and RIGHT_SPARE(word) else RIGHT_JUDGED(word)


def spare_of_form_3_is_4(word):
    """Mistake: a form over 2 is 4, whatever bits 23-16 are."""
    return Refusal(4) if bits(word, 31, 28) == 3 and form_of(word)[0] > 2 else RIGHT_JUDGED(word)


def form_is_2(word):
    """Mistake: a form fault is 2."""
    outcome = RIGHT_JUDGED(word)
    return Refusal(2) if outcome == Refusal(4) and RIGHT_FORM(word) else outcome


def width_is_2(word):
    """Mistake: a width outside 1-32 is 2."""
    return RIGHT_JUDGED(word) if 1 <= bits(word, 7, 0) <= 32 else Refusal(2)


def width_first(word):
    """Mistake: the width is judged before the kind and the spare bits."""
    return RIGHT_JUDGED(word) if 1 <= bits(word, 7, 0) <= 32 else Refusal(4)


def width_33_taken(word):
    """Mistake: 33 bits are taken."""
    return Kind(*form_of(word), 33) if bits(word, 7, 0) == 33 and isinstance(RIGHT_JUDGED(word - 1), Kind) else RIGHT_JUDGED(word)


def width_32_refused(word):
    """Mistake: 32 bits are too many."""
    return Refusal(4) if bits(word, 7, 0) == 32 and isinstance(RIGHT_JUDGED(word), Kind) else RIGHT_JUDGED(word)


def kind_not_looked_at(word):
    """Mistake: any kind is taken."""
    return RIGHT_JUDGED(word % 2 ** 28 + 3 * 2 ** 28)


def lowest_bit_judged(word):
    """Mistake: a field that ends above bit 31 is 4."""
    outcome = RIGHT_JUDGED(word)
    return Refusal(4) if isinstance(outcome, Kind) and bits(word, 15, 8) + outcome.width > 32 else outcome


def place_one(word):
    """Mistake: the place isn't 0."""
    outcome = RIGHT_JUDGED(word)
    return Refusal(outcome.number, 1) if isinstance(outcome, Refusal) else outcome


# ---------------------------------------------------------------------------- in the place of functions about numbers

def form_1_alone(form):
    """Mistake: fixed point has no sign."""
    return form == 1


def sign_missed(kind, value):
    """Mistake: the sign bit is a bit as others."""
    return value % 2 ** kind.width


def plain_wraps(kind, value):
    """Mistake: plain numbers of 32 bits end at 2^31 - 1."""
    return RIGHT_NUMBER(Kind(1, 0, 32) if kind.width == 32 else kind, value)


def ones_complement(kind, value):
    """Mistake: a number below zero is one too high."""
    number = RIGHT_NUMBER(kind, value)
    return number + (number < 0)


def sign_and_size(kind, value):
    """Mistake: the bits below the sign are how far the number is from zero."""
    return -(value % 2 ** (kind.width - 1)) if RIGHT_NUMBER(kind, value) < 0 else RIGHT_NUMBER(kind, value)


def high_bits_left_out(kind, value):
    """Mistake: bits of a value above the width are not looked at."""
    return True


def one_value_more(kind, value):
    """Mistake: the value 2^width is taken."""
    return value <= 2 ** kind.width


def least_refused(kind, number):
    """Mistake: the least number of a signed field is out of range."""
    return None if number == -2 ** (kind.width - 1) else RIGHT_VALUE(kind, number)


def one_past_taken(kind, number):
    """Mistake: the number after the greatest is taken."""
    return number % 2 ** kind.width if RIGHT_VALUE(kind, number - 1) is not None else None


def one_below_taken(kind, number):
    """Mistake: the number before the least is taken."""
    return number % 2 ** kind.width if RIGHT_VALUE(kind, number + 1) is not None else None


def negative_of_plain_taken(kind, number):
    """Mistake: a plain field takes numbers below zero."""
    return RIGHT_VALUE(Kind(1, 0, kind.width) if number < 0 else kind, number)


def bits_of_signed_taken(kind, number):
    """Mistake: a signed field takes 2^width - 1 for -1."""
    return number if 0 <= number < 2 ** kind.width else RIGHT_VALUE(kind, number)


def low_word_alone(kind, number):
    """Mistake: the number's high word isn't looked at."""
    low = number % 2 ** 32
    return RIGHT_VALUE(kind, low - 2 ** 32 if kind.form != 0 and low >= 2 ** 31 else low)


# ---------------------------------------------------------------------------- in the place of numbers.text_of

def sign_and_digits(number, fraction):
    return "-" if number < 0 else "", RIGHT_TEXT_OF(abs(number), fraction)


def point_alone(number, fraction):
    """Mistake: a point where there are no fraction bits."""
    return RIGHT_TEXT_OF(number, fraction) + ("." if fraction == 0 else "")


def minus_zero(number, fraction):
    """Mistake: a minus sign before zero."""
    return ("-" if number == 0 else "") + RIGHT_TEXT_OF(number, fraction)


def minus_lost(number, fraction):
    """Mistake: no minus sign where the digits before the point are 0."""
    text = RIGHT_TEXT_OF(number, fraction)
    return text[1:] if text.startswith("-0") else text


def plus_sign(number, fraction):
    """Mistake: a plus sign above zero."""
    return ("+" if number > 0 else "") + RIGHT_TEXT_OF(number, fraction)


def no_digit_before_point(number, fraction):
    """Mistake: no digit before the point where it is 0."""
    sign, digits = sign_and_digits(number, fraction)
    return sign + (digits[1:] if digits.startswith("0.") else digits)


def needless_zero(number, fraction):
    """Mistake: two digits before the point at least."""
    sign, digits = sign_and_digits(number, fraction)
    return sign + ("0" if digits[1:2] in ("", ".") else "") + digits


def zeros_cut(number, fraction):
    """Mistake: zeros at the end are left out."""
    text = RIGHT_TEXT_OF(number, fraction)
    return text.rstrip("0").rstrip(".") if fraction else text


def rounded(number, fraction):
    """Mistake: fifteen digits after the point at most."""
    text = RIGHT_TEXT_OF(number, fraction)
    return str(Decimal(text).quantize(Decimal("1e-15"), ROUND_HALF_EVEN)) + "0" if fraction == MOST_FRACTION else text


def lower_whole(number, fraction):
    """Mistake: the whole number below, and after the point what is above it."""
    whole, rest = divmod(number, 2 ** fraction)
    return str(whole) + RIGHT_TEXT_OF(rest, fraction)[1:]


def steps_for_digits(number, fraction):
    """Mistake: after the point stands the number of steps."""
    text = RIGHT_TEXT_OF(number, fraction)
    return text[:-fraction] + str(abs(number) % 2 ** fraction).rjust(fraction, "0") if fraction else text


def one_digit_fewer(number, fraction):
    """Mistake: the last digit is left out, if more than one stands after the point."""
    text = RIGHT_TEXT_OF(number, fraction)
    return text[:-1] if fraction > 1 else text


# ---------------------------------------------------------------------------- in the place of the calls

def range_of(word):
    """The kind that the word would have if its faults were none."""
    return Kind(form_of(word)[0], 0, max(1, bits(word, 7, 0)))


def signed_range_first(word, value):
    """Mistake: of a value to a number, 12 comes before 4."""
    outcome = RIGHT_SIGNED(word, value)
    return Refusal(12) if outcome == Refusal(4) and not numbers.fits(range_of(word), value) else outcome


def stored_range_first(word, number):
    """Mistake: of a number to a value, 12 comes before 4."""
    outcome = RIGHT_STORED(word, number)
    return Refusal(12) if outcome == Refusal(4) and RIGHT_VALUE(range_of(word), number) is None else outcome


def text_range_first(word, value, buffer):
    """Mistake: of a text, 12 comes before 4."""
    outcome, after = RIGHT_TEXT(word, value, buffer)
    return Refusal(12) if outcome == Refusal(4) and not numbers.fits(range_of(word), value) else outcome, after


def room_before(number, word, value, buffer):
    outcome, after = RIGHT_TEXT(word, value, buffer)
    return Refusal(18) if outcome == Refusal(number) and not buffer else outcome, after


def room_before_range(word, value, buffer):
    """Mistake: 18 comes before 12, where there is no room at all."""
    return room_before(12, word, value, buffer)


def room_before_form(word, value, buffer):
    """Mistake: 18 comes before 4, where there is no room at all."""
    return room_before(4, word, value, buffer)


def room_before_kind(word, value, buffer):
    """Mistake: 18 comes before 2, where there is no room at all."""
    return room_before(2, word, value, buffer)


def exact_room_refused(word, value, buffer):
    """Mistake: a byte must be left after the text."""
    outcome, after = RIGHT_TEXT(word, value, buffer)
    return (Refusal(18), buffer) if outcome == len(buffer) else (outcome, after)


def whole_text(word, value):
    """The text in a buffer that has room."""
    size, after = RIGHT_TEXT(word, value, bytes(64))
    return after[:size]


def cut_to_buffer(word, value, buffer):
    """Mistake: what has room of the text is written, and no refusal."""
    outcome, after = RIGHT_TEXT(word, value, buffer)
    return (len(buffer), whole_text(word, value)[:len(buffer)]) if outcome == Refusal(18) else (outcome, after)


def written_and_refused(word, value, buffer):
    """Mistake: what has room of the text is written, though it is refused."""
    outcome, after = RIGHT_TEXT(word, value, buffer)
    return outcome, whole_text(word, value)[:len(buffer)] if outcome == Refusal(18) else after


def cleared(word, value, buffer):
    """Mistake: a refusal clears the buffer."""
    outcome, after = RIGHT_TEXT(word, value, buffer)
    return outcome, bytes(len(buffer)) if isinstance(outcome, Refusal) else after


def byte_after_zeroed(word, value, buffer):
    """Mistake: a zero byte after the text."""
    outcome, after = RIGHT_TEXT(word, value, buffer)
    if isinstance(outcome, Refusal) or outcome == len(buffer):
        return outcome, after
    return outcome, after[:outcome] + b"\0" + after[outcome + 1:]


def at_the_end(word, value, buffer):
    """Mistake: the text stands at the buffer's end."""
    outcome, after = RIGHT_TEXT(word, value, buffer)
    return outcome, after if isinstance(outcome, Refusal) else buffer[:len(buffer) - outcome] + after[:outcome]


def length_of_buffer(word, value, buffer):
    """Mistake: the buffer's length is returned."""
    outcome, after = RIGHT_TEXT(word, value, buffer)
    return outcome if isinstance(outcome, Refusal) else len(buffer), after


# What stands in the place of read_field is of tables alone.
WRONG = [one for one in WRONG_IN_TABLES if one[1] != "read_field"] \
    + [(numbers, "judged", wrong) for wrong in (spare_is_4, spare_of_form_3_is_4, form_is_2, width_is_2, width_first, width_33_taken,
                                                width_32_refused, kind_not_looked_at, lowest_bit_judged, place_one)] \
    + [(numbers, "has_sign", form_1_alone)] \
    + [(numbers, "number_of", wrong) for wrong in (sign_missed, plain_wraps, ones_complement, sign_and_size)] \
    + [(numbers, "fits", wrong) for wrong in (high_bits_left_out, one_value_more)] \
    + [(numbers, "value_of", wrong) for wrong in (least_refused, one_past_taken, one_below_taken, negative_of_plain_taken,
                                                  bits_of_signed_taken, low_word_alone)] \
    + [(numbers, "text_of", wrong) for wrong in (point_alone, minus_zero, minus_lost, plus_sign, no_digit_before_point, needless_zero,
                                                 zeros_cut, rounded, lower_whole, steps_for_digits, one_digit_fewer)] \
    + [(numbers, "signed", signed_range_first), (numbers, "stored", stored_range_first)] \
    + [(numbers, "text", wrong) for wrong in (text_range_first, room_before_range, room_before_form, room_before_kind,
                                              exact_room_refused, cut_to_buffer, written_and_refused, cleared, byte_after_zeroed,
                                              at_the_end, length_of_buffer)]


# ---------------------------------------------------------------------------- in the place of functions of selection.py

def sign_extended(word, field):
    """Mistake: decoding gives a signed field's number in 32 bits."""
    kind = Kind(field.form, field.fraction, field.width)
    return RIGHT_NUMBER(kind, RIGHT_FIELD_VALUE(word, field)) % 2 ** 32


def without_sign_bits(value, field):
    """A signed field's number in 32 bits as its stored value; other values as they are."""
    signs = value >> (field.width - 1)
    return value % 2 ** field.width if field.form != 0 and signs == (2 ** 32 - 1) >> (field.width - 1) else value


def numbers_encoded(words, entry, values):
    """Mistake: encoding takes a signed field's number in 32 bits."""
    table = selection.read_once(tuple(words))
    if not isinstance(table, Refusal) and entry < len(table.entries) and len(values) == len(table.entries[entry].fields):
        values = [without_sign_bits(value, field) for value, field in zip(values, table.entries[entry].fields)]
    return RIGHT_ENCODE(words, entry, values)


def forms_win(e, f):
    """Mistake: of two equal patterns that with a form in its first field is the more specific one."""
    def has_form(entry):
        return bool(entry.fields) and entry.fields[0].form != 0
    return RIGHT_SPECIFIC(e, f) or e.opcode == f.opcode and has_form(e) and not has_form(f)


WRONG_SELECTION = {"field_value": sign_extended, "encode": numbers_encoded, "more_specific": forms_win}
