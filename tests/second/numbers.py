"""Operands with a sign or a point, written from document 02's No. 7 alone: a field's word by itself and a value of it.

A stored value is the sum of its bits' weights, of which a sign makes the highest negative. A text is the number of smallest steps
times 5^fraction, with the point put in: n / 2^f = n 5^f / 10^f. Quotations are sentences of No. 7.
"""

from dataclasses import dataclass

from second import reader
from second.reader import Refusal, bits


@dataclass(frozen=True)
class Kind:
    """What a field's word says of its values."""
    form: int
    fraction: int
    width: int


def judged(word):
    """A Kind, or the Refusal; "all with place 0, the lowest bit not judged"."""
    # "New calls take a field's word by itself: a wrong kind or spare bit gives 2,"
    if bits(word, 31, 28) != 3 or reader.spare_bit_set(word):
        return Refusal(2)
    # "then a width outside 1-32 or a form fault as above 4,"
    width = bits(word, 7, 0)
    if width not in range(1, 33) or reader.form_at_fault(word):
        return Refusal(4)
    form, fraction = reader.form_of(word)
    return Kind(form, fraction, width)


def has_sign(form):
    # "1 two's complement"; "Form 2 is two's complement too".
    return form in (1, 2)


def number_of(kind, value):
    """"a signed whole number (for form 2 the count of its smallest steps)\""""
    weights = [2 ** place for place in range(kind.width)]
    if has_sign(kind.form):
        weights[-1] = -weights[-1]
    return sum(weight for place, weight in enumerate(weights) if bits(value, place, place))


def fits(kind, value):
    """Whether a value is one of the field's."""
    return value < 2 ** kind.width


def value_of(kind, number):
    """The value of which it is the number, None if there is none. Values of numbers apart by 2^width would be the same."""
    value = number % 2 ** kind.width
    return value if number_of(kind, value) == number else None


def text_of(number, fraction):
    # "The text has a minus sign only below zero, no needless leading zero, at least one digit before the point, and after it exactly
    # as many digits as fraction bits, with no point where there are none."
    sign = "-" if number < 0 else ""
    digits = str(abs(number) * 5 ** fraction).rjust(fraction + 1, "0")
    if fraction == 0:
        return sign + digits
    return sign + digits[:-fraction] + "." + digits[-fraction:]


# ---------------------------------------------------------------------------- the calls

def signed(word, value):
    """A number or a Refusal. "They turn a stored value into a signed whole number .. and back"."""
    kind = judged(word)
    if isinstance(kind, Refusal):
        return kind
    # "then a value out of range 12"
    return number_of(kind, value) if fits(kind, value) else Refusal(12)


def stored(word, number):
    """A value or a Refusal. "a signed number in range comes back as itself\""""
    kind = judged(word)
    if isinstance(kind, Refusal):
        return kind
    value = value_of(kind, number)
    return Refusal(12) if value is None else value


def text(word, value, buffer):
    """The text's length or a Refusal, and the buffer after the call. They "write a stored value as exact decimal text to the start of a
    buffer, returning its length in bytes"; "bytes after the text are unchanged"."""
    kind = judged(word)
    if isinstance(kind, Refusal):
        return kind, buffer
    if not fits(kind, value):
        return Refusal(12), buffer
    data = text_of(number_of(kind, value), kind.fraction).encode("ascii")
    # "18, the text buffer is too short, checked after 2, 4 and 12, buffer unchanged."
    if len(buffer) < len(data):
        return Refusal(18), buffer
    return len(data), data + buffer[len(data):]
