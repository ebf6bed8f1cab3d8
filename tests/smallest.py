"""The smallest input for each refusal, read out of docs/TABLES.md, so that the page and this test can't drift apart.

An example is a command with a comment such as "# 2: wrong kind, field": the cause's number in document 01, and the fault. Each is run through the
program, and held against three things: the line in the page, the second implementation, and what the table of causes says is
returned and left in every lent buffer. A table with one of 1 to 4 is given to every other call that takes a table too. One with 19 is
given to the others as well, which do not refuse it so. What is lent for reading only is not shown by probe, and not tested here. At the
end all commands of the pages are run in a shell (doc_commands.py).

Usage: smallest.py [path of probe [path of mktree]]. Exits with status 1 at the first difference.
"""

import re
import shlex
import sys
from collections import Counter
from dataclasses import dataclass

import doc_commands
import mktree
import probe
from second.lines import line_of, mktree_text
from second.reader import read
from second.tree import nodes_of, written

PAGE = "TABLES.md"

# Document 01, "Causes, numbers, places": what each row lists in words, and the calls that give it; of cycles, operands and entries that no
# word selects document 02's No. 3, No. 7 and No. 8. A comment in the page is a number and one of these.
FAULTS = {
    1: ["empty", "too long", "too long, reading", "first word, kind", "first word, spare bit", "first word, 257 entries", "first word, width 0",
        "first word, width 33", "bytes that are not whole words"],
    2: ["wrong kind, entry", "wrong kind, field", "wrong kind, condition", "wrong kind, unmatching pattern", "spare bit, field",
        "spare bit, field whose form is 4 too", "wrong kind, a field's word by itself", "spare bit, a field's word by itself", "spare bit, condition",
        "spare bit, unmatching pattern", "count, 9 fields", "count, 9 conditions", "count, 9 unmatching patterns", "entry length, 0",
        "entry length, over the width", "table ends early", "words left over", "cycles over 65,535", "table ends before the cycles"],
    3: ["mask outside own bits, above the width", "mask outside own bits, below a short entry", "mask outside own bits, condition",
        "mask outside own bits, unmatching pattern", "value outside its mask", "value outside its mask, condition",
        "value outside its mask, unmatching pattern"],
    4: ["width 0", "outside own bits", "outside own bits, below a short entry", "overlapping the mask", "overlapping an earlier field",
        "form over 2", "fraction bits over the width", "fraction bits over 16", "width 0, a field's word by itself", "width 33, a field's word by itself",
        "form over 2, a field's word by itself", "fraction bits over 16, a field's word by itself", "own bits not covered",
        "own bits not covered, with a field"],
    5: ["tree does not fit", "over 16,384", "over 16,384, sizing"],
    6: ["generating, by mktree", "generating", "sizing", "lookup", "decode", "withdrawal"],
    7: ["lookup", "decode", "withdrawal", "walk", "walk for C"],
    8: ["length 0", "kind", "spare bit", "width 0", "width 33", "no nodes", "more nodes than words after it", "length 0, for C",
        "length not a multiple of four, for C"],
    9: ["kind, below 8", "kind, above 10", "spare bit, test", "spare bit, entry", "spare bit, nothing", "tested bit at the width",
        "one side below own + 2", "one side above the number of nodes", "kind, for C"],
    10: ["7 words", "no words"],
    11: ["no such entry", "too few values", "too many values", "no such entry, cycles", "no such entry, withdrawal"],
    12: ["value does not fit", "value does not fit, the second", "stored value out of range", "number out of range, above", "number out of range, below",
         "number out of range, plain and below zero", "stored value out of range, text"],
    13: ["selects another entry", "selects nothing", "ambiguous"],
    14: ["header", "widths", "damaged node", "one side not where the zero side ends", "a node not used", "a bit twice", "named entry, still open",
         "nothing, but an entry is live", "listing", "step"],
    15: ["width not 32", "a length not 16 or 32", "width not 32, step"],
    16: ["odd", "odd, step", "over 2,097,152 bytes"],
    17: ["no room at all", "earlier items"],
    18: ["no bytes", "one byte too few"],
    19: ["covered by one entry", "covered by several together", "excluded by its own conditions", "the lowest of two", "generating", "sizing"],
}

# What is returned with the number: a place, a word, or neither.
PLACES = {1, 2, 3, 4, 9, 12, 17, 19}
WORDS = {6, 13}

# Requests by number; the numbers that a call's own order allows ("generating 5, 6; lookup 7, 6; .."; 19 "after 6").
FAULTY_TABLE = [1, 2, 3, 4]
ALLOWED = {1: FAULTY_TABLE, 2: FAULTY_TABLE + [7, 6], 3: FAULTY_TABLE + [5, 6, 19], 4: [8, 7, 9], 5: FAULTY_TABLE + [10, 7, 6],
           6: FAULTY_TABLE + [11, 12, 13], 7: FAULTY_TABLE + [14], 8: FAULTY_TABLE + [15, 16, 14], 9: FAULTY_TABLE + [15, 16, 14, 17],
           10: [8, 7, 9], 12: FAULTY_TABLE + [5, 6, 19], 13: FAULTY_TABLE + [11], 14: [2, 4, 12], 15: [2, 4, 12], 16: [2, 4, 12, 18],
           22: FAULTY_TABLE + [11, 7, 6]}
GENERATE, FOR_C, DECODE, LIST, TEXT = 3, 4, 5, 9, 16
UNREACHED = 19
MOST_TREE_WORDS = 16384

MARKS = [0x5EED0000 + at for at in range(40)]
BYTE_MARKS = bytes(range(0xC0, 0xF0))


def stop(command, text):
    sys.exit(f"docs/{PAGE}:{command.line}: {command.text}  # {command.comment}\n{text}")


# ---------------------------------------------------------------------------- the page

def expanded(text, variables):
    """A command's text with its variable and $(yes W | head -n N) put in."""
    text = re.sub(r"\$\(yes (\w+) \| head -n (\d+)\)", lambda m: " ".join([m[1]] * int(m[2])), text)
    return re.sub(r"\$(\w+)", lambda m: variables[m[1]], text)      # None is a TypeError


def hexadecimal(text):
    return [int(word, 16) for word in text.split()]


def input_of(command, variables):
    """The program that a command runs and the bytes that it gives to it."""
    found = re.fullmatch(r"words ?(.*) \| (mktree|probe)", command.text)
    if found:
        return found[2], probe.pack(hexadecimal(expanded(found[1], variables)))
    found = re.fullmatch(r"request (.*) \| probe", command.text)
    if found:
        number, *parts = shlex.split(expanded(found[1], variables))
        laid = [word for part in parts for word in probe.part_of(hexadecimal(part))]
        return "probe", probe.pack([int(number, 16), len(parts), *laid])
    found = re.fullmatch(r"printf (\w+) \| mktree", command.text)
    if found:
        return "mktree", found[1].encode()
    if command.text == "target/large":
        return "C", b""
    return stop(command, "an example of a form that this test does not know")


def examples():
    """(command, cause, fault, program, input) for every command of the page that has a comment."""
    variables = {}
    for command in doc_commands.commands(PAGE):
        assigned = re.fullmatch(r'(\w+)="([^"]*)"', command.text)
        if assigned:
            # the step-by-step part builds its table from variables, and no example uses it
            variables[assigned[1]] = assigned[2] if "$" not in assigned[2] else None
        if command.comment:
            cause, _, fault = command.comment.partition(": ")
            if not cause.isdigit():
                stop(command, "its comment does not begin with the number of a cause")
            yield command, int(cause), fault, *input_of(command, variables)


# ---------------------------------------------------------------------------- requests taken apart

def question_of(data):
    """A request as a question of probe.py."""
    number, count, *rest = probe.words_of(data)
    parts = []
    for _ in range(count):
        length, *rest = rest
        parts.append(probe.pack(rest)[:length])
        rest = rest[(length + 3) // 4:]
    if rest:
        raise ValueError("more than one request")
    return probe.question_of(number, parts)


# ---------------------------------------------------------------------------- what is returned and left

def refusal_in(request, line):
    """Number, place and word in a line of probe."""
    parts = line.partition("|")[0].split()
    if request == FOR_C:
        bits = int(parts[4], 16)
        if bits & 0xFF00FFFFFFFF:       # bits 47-40 and 31-0
            raise ValueError("bits are set that a refusal leaves zero")
        return bits >> 32 & 0xFF, bits >> 48, 0
    if len(parts) != 4:
        raise ValueError("a refusal has no result")
    return int(parts[1]), int(parts[2]), int(parts[3], 16)


def check_returned(cause, number, place, word):
    if number != cause:
        raise ValueError(f"number {number}, and not {cause}")
    if place and (cause not in PLACES or cause == 1):
        raise ValueError(f"place {place} where none is listed")
    if word and cause not in WORDS:
        raise ValueError(f"word {word:08x} where none is listed")


def words_left(line):
    return [int(word, 16) for word in line.partition("|")[2].split()]


def check_left(request, question, cause, line):
    """"Left unchanged", for a buffer that the call may write to; 17 is in check_earlier. 1 if there is a buffer, else 0."""
    if request not in (GENERATE, DECODE, LIST, TEXT) or cause == 17:
        return 0
    before = question[-1]
    if request == TEXT:
        if probe.bytes_left(line) != before:
            raise ValueError("the bytes are changed")
        return 1
    cleared = cause in (5, 19) or cause == 6 and request == GENERATE
    if words_left(line) != ([0] * len(before) if cleared else before):
        raise ValueError("the buffer is not as it is to be")
    return 1


def check_line(request, question, cause, line):
    """A refusal's line by document 01 alone."""
    if cause not in ALLOWED[request]:
        raise ValueError(f"request {request} has no number {cause}")
    check_returned(cause, *refusal_in(request, line))
    return check_left(request, question, cause, line)


# ---------------------------------------------------------------------------- the examples

@dataclass
class Case:
    """A question that an example leads to."""
    command: doc_commands.Command
    cause: int
    question: tuple
    line: str = None            # what the page shows
    refusal: tuple = None       # number, place and word that mktree printed for the same table
    room: bool = False          # a listing that was refused with 17, now with room for every item
    taken: bool = False         # of a table that is refused with 19: a call that does not judge that


def buffers_of(question):
    """The question as it stands, and with other words lent."""
    marks = {"generate": MARKS, "decode": MARKS, "list": MARKS, "text": BYTE_MARKS}.get(question[0])
    return [question] + ([(*question[:-1], marks[:len(question[-1])])] if marks else [])


def probe_cases(command, cause, data):
    question = question_of(data)
    cases = [Case(command, cause, one) for one in buffers_of(question)]
    cases[0].line = "\n".join(command.printed)
    if cause == 17:
        # directly after it: the same listing with a word for each halfword
        cases = [*cases[:1], Case(command, cause, (*question[:-1], MARKS[:len(question[3]) // 2]), room=True)]
    return cases


def table_questions(words):
    """Every call that takes a table, with other faults beside the table's, which come later."""
    return [("read", words), ("lookup", words, 0xFFFFFFFF), ("generate", words, MARKS[:3]), ("decode", words, 0xFFFFFFFF, MARKS[:7]),
            ("encode", words, 999, [7]), ("check", words, []), ("step", words, [], b"\x00", 9), ("list", words, [], b"\x00", MARKS[:2]),
            ("measure", words), ("cycles", words, 999), ("changed", words, 999, [0xFFFFFFFF])]


def other_questions(words):
    """The calls that do not judge whether an entry is selected by some word."""
    tree = written(words[0] & 0xFF, nodes_of(read(words)))
    asked = [("read", words), ("check", words, tree), ("step", words, tree, b"", 0), ("list", words, tree, b"", MARKS[:2])]
    for word in (0, 1):
        asked += [("lookup", words, word), ("decode", words, word, MARKS[:8])]
    for entry in range(words[0] >> 16 & 0xFFF):
        asked += [("cycles", words, entry), ("encode", words, entry, []), ("encode", words, entry, [1]), ("changed", words, entry, [0, 1])]
    return asked


def mktree_cases(path, command, cause, data):
    seen = mktree.text_of(path, data)
    if seen != "".join(line + "\n" for line in command.printed):
        raise ValueError(f"mktree prints {seen}")
    mktree.stop_at_difference(f"cause {cause}", data, mktree_text(data), seen)
    found = re.fullmatch(r"refused (\d+) (\d+) ([0-9a-f]{8})\n", seen)
    if not found:
        raise ValueError("mktree does not refuse it")
    refusal = int(found[1]), int(found[2]), int(found[3], 16)
    check_returned(cause, *refusal)
    if len(data) % 4 != 0:
        return []
    words = probe.words_of(data)
    # mktree's buffer is as long as a tree may be, so sizing refuses what it does
    of_the_tree = [("generate", words, [0xFFFFFFFF] * MOST_TREE_WORDS), ("measure", words)]
    questions = table_questions(words) if cause in FAULTY_TABLE else of_the_tree
    cases = [Case(command, cause, question, refusal=refusal) for question in questions]
    if cause == UNREACHED:
        cases += [Case(command, cause, question, taken=True) for question in other_questions(words)]
    return cases


def check_c(command, cause):
    """The page's program in C: number, place and the lent word; doc_commands.py runs it."""
    number, place, left = command.printed[0].split()
    check_returned(cause, int(number), int(place), 0)
    if left != "ffffffff":
        raise ValueError("the lent word is changed")


def check_earlier(line, whole):
    """17: the buffer holds the earlier items, and the place is the address of the first left out."""
    before, items = words_left(line), words_left(whole)
    if before != items[:len(before)]:
        raise ValueError("the buffer does not hold the earlier items")
    if refusal_in(LIST, line)[1] != items[len(before)] & 0xFFFFF:
        raise ValueError(f"the first item left out is {items[len(before)]:08x}")


def check_case(case, line):
    """1 if a lent buffer was looked at, else 0."""
    request = probe.request_of(case.question)[0]
    if case.taken:
        probe.stop_at_difference("a table refused with 19", case.question, line_of(case.question), line)
        if int(line.split(" ")[1]) == UNREACHED:
            raise ValueError(f"request {request} judges whether an entry is selected: {line}")
        return 0
    if case.line is not None and line != case.line:
        raise ValueError(f"probe prints {line}")
    if case.refusal is None or case.cause in FAULTY_TABLE:
        # a tree over 16,384 words was made once by the second implementation, for mktree
        probe.stop_at_difference(f"cause {case.cause}", case.question, line_of(case.question), line)
    if case.refusal is not None and refusal_in(request, line) != case.refusal:
        raise ValueError(f"mktree and request {request} differ: {line[:60]}")
    return check_line(request, case.question, case.cause, line)


def check_cases(path, cases):
    """Asks probe once; gives back how many lent buffers were looked at."""
    buffers, before = 0, None
    for case, line in zip(cases, probe.ask(path, [case.question for case in cases]), strict=True):
        try:
            if case.room:
                check_earlier(before, line)
                buffers += 1
            else:
                buffers += check_case(case, line)
        except ValueError as reason:
            stop(case.command, reason)
        before = line
    return buffers


def cases_of(path, command, cause, program, data):
    try:
        if program == "mktree":
            return mktree_cases(path, command, cause, data)
        if program == "probe":
            return probe_cases(command, cause, data)
        check_c(command, cause)
        return []
    except ValueError as reason:
        return stop(command, reason)


def check_complete(seen):
    """Every cause and every fault has its example, and there is none that nobody listed."""
    for cause in FAULTS:
        if not any(number == cause for number, _ in seen):
            sys.exit(f"docs/{PAGE} has no example for number {cause}")
        for fault in FAULTS[cause]:
            if seen[cause, fault] != 1:
                sys.exit(f"docs/{PAGE} has {seen[cause, fault]} examples for number {cause}: {fault}")
    for cause, fault in seen:
        if fault not in FAULTS.get(cause, []):
            sys.exit(f"docs/{PAGE} has an example that is not listed, number {cause}: {fault}")


def main():
    probe_path, mktree_path = probe.path_from_arguments(), mktree.path_from_arguments(2)
    seen, cases = Counter(), []
    for command, cause, fault, program, data in examples():
        cases += cases_of(mktree_path, command, cause, program, data)
        seen[cause, fault] += 1
    check_complete(seen)
    buffers = check_cases(probe_path, cases)
    each = Counter(cause for cause, _ in seen)
    print("smallest good: " + ", ".join(f"{each[cause]} of {cause}" for cause in sorted(each))
          + f"; {len(cases)} requests, {buffers} lent buffers")
    print(doc_commands.check(probe_path, mktree_path))


main()
