"""Which tables sizing refuses because no word selects some entry (19), for the tests of calls that take such tables all the same."""

import probe
from second.lines import line_of


def refused_with_19(path, tables, tally):
    """Sizes each table (its words) through probe; the ones that are refused so, as a set of tuples."""
    questions = [("measure", words) for words in tables]
    refused = set()
    for question, seen in zip(questions, probe.ask(path, questions), strict=True):
        probe.stop_at_difference("size", question, line_of(question), seen)
        number = seen.split(" ")[1]
        tally[f"sized {number}"] += 1
        if number == "19":
            refused.add(tuple(question[1]))
    return refused
