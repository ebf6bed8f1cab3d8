"""From a readable list of instructions to the words of a pattern table (document 01, "The pattern table").

A pattern is written high bit first. 0 and 1 are opcode bits, a letter is a bit of a field, blanks are for the eye. Bits side by
side with the same letter are one field, so a field that the encoding splits comes out as two. Fields stand in the table from
the high bits down. In a condition - is a bit outside the mask, and bits left out at the low end are outside it too.

A colon after a pattern gives fields a form (document 02, No. 7): ": o signed, k point 12" says that the field of o is in two's
complement, and that k is too, with 12 bits after its point. A letter that is named so has one field in the pattern, since a field that
the encoding splits has no number of its own. All other fields are plain.

"= 3" at the end says that the instruction takes 3 cycles (document 02, No. 3). A set has cycles for all of its instructions or for
none: with them its table is of kind 6, without them of kind 1.
"""

import re
import struct
from dataclasses import dataclass

MOST_FIELDS = MOST_CONDITIONS = MOST_UNMATCHING = 8
MOST_ENTRIES = 256
MOST_WORDS = 16384
MOST_CYCLES = 65535
MOST_FRACTION = 16
PLAIN, SIGNED, POINT = 0, 1, 2      # the forms of a field


@dataclass(frozen=True)
class Unless:
    """An exclusion condition: the entry loses the words that match the first pattern, but for those that match another."""
    matching: str
    but_for: tuple = ()


@dataclass(frozen=True)
class Form:
    """The form of the field that a letter stands for."""
    letter: str
    form: int
    fraction: int = 0


@dataclass(frozen=True)
class Instruction:
    mnemonic: str
    pattern: str
    conditions: tuple = ()
    cycles: int = None
    forms: tuple = ()


@dataclass(frozen=True)
class InstructionSet:
    name: str
    width: int
    instructions: tuple

    @property
    def has_cycles(self):
        """Whether all instructions have cycles; else none may have them."""
        with_cycles = sum(instruction.cycles is not None for instruction in self.instructions)
        if with_cycles not in (0, len(self.instructions)):
            raise ValueError(f"{self.name} has cycles for {with_cycles} of {len(self.instructions)} instructions")
        return with_cycles > 0


def form_of(text):
    """What "o signed" or "k point 12" says."""
    if found := re.fullmatch(r"\s*([A-Za-z]) signed\s*", text):
        return Form(found[1], SIGNED)
    if found := re.fullmatch(r"\s*([A-Za-z]) point (\d+)\s*", text):
        return Form(found[1], POINT, int(found[2]))
    raise ValueError(f"{text!r} is no form")


def listed(text, *conditions):
    """One instruction a line: the mnemonic, at least two blanks, the pattern, with forms : and these, and with cycles = and their number;
    what follows # is a note."""
    instructions = []
    for line in text.splitlines():
        line = line.partition("#")[0].strip()
        if line:
            mnemonic, rest = re.split("  +", line, maxsplit=1)
            rest, equals, cycles = rest.partition("=")
            pattern, colon, forms = rest.partition(":")
            instructions.append(Instruction(mnemonic, pattern.replace(" ", ""), conditions, int(cycles) if equals else None,
                                            tuple(form_of(form) for form in forms.split(",")) if colon else ()))
    return instructions


def fields_of(pattern, width):
    """(lowest bit, width in bits) of each run of one letter."""
    return [(width - run.end(), run.end() - run.start()) for run in re.finditer(r"([A-Za-z])\1*", pattern)]


def mask_and_value(pattern, width):
    """The two words of a pattern that stands at the top of the word."""
    mask = sum(1 << width - 1 - place for place, bit in enumerate(pattern) if bit in "01")
    value = sum(1 << width - 1 - place for place, bit in enumerate(pattern) if bit == "1")
    return [mask, value]


def condition_words(condition, width):
    matching, *but_for = (text.replace(" ", "") for text in (condition.matching, *condition.but_for))
    words = [4 << 28 | limited(len(but_for), MOST_UNMATCHING), *mask_and_value(matching, width)]
    for pattern in but_for:
        words += [5 << 28, *mask_and_value(pattern, width)]
    return words


def limited(number, most):
    if not 0 <= number <= most:
        raise ValueError(f"{number}, and 0 to {most} are allowed")
    return number


def forms_of(instruction):
    """The Form of each field, in their order."""
    letters = re.findall(r"([A-Za-z])\1*", instruction.pattern)
    named = {form.letter: form for form in instruction.forms}
    if len(named) < len(instruction.forms) or any(letters.count(letter) != 1 for letter in named):
        raise ValueError(f"{instruction.mnemonic}: a form is for a letter that stands for one field, and is there once")
    return [named.get(letter, Form(letter, PLAIN)) for letter in letters]


def field_words(instruction, width):
    return [3 << 28 | form.form << 24 | limited(form.fraction, min(MOST_FRACTION, size)) << 16 | lowest << 8 | size
            for form, (lowest, size) in zip(forms_of(instruction), fields_of(instruction.pattern, width), strict=True)]


def entry_words(instruction, label, width):
    pattern = instruction.pattern
    fields = field_words(instruction, width)
    conditions = instruction.conditions
    words = [2 << 28 | label << 16 | len(pattern) << 8 | limited(len(fields), MOST_FIELDS) << 4
             | limited(len(conditions), MOST_CONDITIONS), *mask_and_value(pattern, width)]
    words += [] if instruction.cycles is None else [limited(instruction.cycles, MOST_CYCLES)]
    words += fields
    for condition in conditions:
        words += condition_words(condition, width)
    return words


def labels_of(instructions):
    """Encodings of one mnemonic share its label: labels are numbered from 0 as mnemonics first appear."""
    numbers = {}
    return [numbers.setdefault(instruction.mnemonic, len(numbers)) for instruction in instructions]


def table_words(one):
    """The words of an instruction set's table."""
    kind = 6 if one.has_cycles else 1
    words = [kind << 28 | limited(len(one.instructions), MOST_ENTRIES) << 16 | one.width]
    for instruction, label in zip(one.instructions, labels_of(one.instructions)):
        words += entry_words(instruction, label, one.width)
    limited(len(words), MOST_WORDS)
    return words


def table_bytes(one):
    """The words, low byte first, as mktree takes them."""
    words = table_words(one)
    return struct.pack(f"<{len(words)}I", *words)
