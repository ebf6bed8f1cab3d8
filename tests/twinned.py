"""Asks probe again about twins (second/twins.py): but for cycles it must print the same line, every word of a lent buffer too.
compare_cycles.py shows that a line that depends on cycles is noticed."""

import mktree
import probe
from second.lines import line_of, mktree_text
from second.tables import MOST_WORDS

FAULTS = ("1", "2", "3", "4")
# The calls that take a table, but for the one that gives cycles.
CALLS = ("read", "lookup", "generate", "decode", "encode", "check", "step", "list", "measure", "changed")
SECOND_EACH = 20    # every so many-th line is the second implementation's too; 0: none


def twin_questions(twins, asked):
    """The same about twins. Left out are tables at fault, whose words don't say what is what, and those whose twin would be too long."""
    for name, question, line in asked:
        if question[0] in CALLS and line.split(" ", 2)[1] not in FAULTS:
            words = twins.of(question[1])
            if len(words) <= MOST_WORDS:
                yield f"{name}, the twin", (question[0], words, *question[2:]), line


def compare(path, twins, asked, tally, second_each=SECOND_EACH, ask=probe.ask):
    """asked: (name, question, probe's line)"""
    again = list(twin_questions(twins, asked))
    for number, ((name, question, line), seen) in enumerate(zip(again, ask(path, [one[1] for one in again]), strict=True)):
        probe.stop_at_difference(name, question, line, seen)
        if second_each and number % second_each == 0:
            probe.stop_at_difference(f"{name}, by the second", question, line_of(question), seen)
            tally["twins by the second"] += 1
        tally["twins"] += 1


def compare_text(path, twins, name, data, text, tally, second=False):
    """The same for mktree. text: what it prints for this input"""
    if text.split(" ")[0] == "refused" and text.split(" ")[1] in FAULTS:
        return
    words = twins.of(probe.words_of(data))
    if len(words) > MOST_WORDS:
        return
    twin = probe.pack(words)
    mktree.stop_at_difference(f"{name}, the twin", twin, text, mktree.text_of(path, twin))
    if second:
        mktree.stop_at_difference(f"{name}, the twin, by the second", twin, mktree_text(twin), text)
        tally["twins by the second"] += 1
    tally["twins"] += 1
