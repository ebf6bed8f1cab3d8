"""The line of docs/probe.md that the second implementation gives for a question."""

from second import cost, measure, numbers, selection, tree, walk, withdrawal
from second.checker import check
from second.image import END, list_items, step
from second.reader import Refusal, read
from second.tree import MOST_TREE_WORDS


def refusal_text(outcome):
    """Number, place and word; zeros when there is no refusal."""
    if isinstance(outcome, Refusal):
        return f"{outcome.number} {outcome.place} {outcome.word:08x}"
    return "0 0 00000000"


def result_text(outcome, text):
    """The result after a space; a refusal leaves it out."""
    return "" if isinstance(outcome, Refusal) else " " + text


def read_line(words):
    outcome = read(words)
    if isinstance(outcome, Refusal):
        return "1 " + refusal_text(outcome)
    return f"1 {refusal_text(outcome)} {outcome.width} {len(outcome.entries)}"


def lookup_line(words, word):
    outcome = selection.lookup(words, word)
    return "2 " + refusal_text(outcome) + result_text(outcome, str(outcome))


def buffer_text(after):
    """The buffer's words after the call; an empty buffer is the bar alone."""
    return " ".join(["|", *(f"{item:08x}" for item in after)])


def generate_line(words, buffer):
    outcome, after = tree.generate(words, buffer)
    return "3 " + refusal_text(outcome) + result_text(outcome, str(outcome)) + " " + buffer_text(after)


def walk_bytes_line(tree_bytes, word):
    return f"4 0 0 00000000 {walk.walk_bytes(tree_bytes, word):016x}"


def mask_line(tree_bytes, word):
    return f"11 0 0 00000000 {walk.mask_bytes(tree_bytes, word):08x}"


def walk_line(tree, word):
    outcome = walk.walk(tree, word)
    if isinstance(outcome, Refusal):
        return "10 " + refusal_text(outcome)
    return f"10 {refusal_text(outcome)} {outcome.names} {outcome.count} {outcome.mask:08x}"


def decode_line(words, word, buffer):
    outcome, after = selection.decode(words, word, buffer)
    return "5 " + refusal_text(outcome) + result_text(outcome, str(outcome)) + " " + buffer_text(after)


def encode_line(words, entry, values):
    outcome = selection.encode(words, entry, values)
    if isinstance(outcome, Refusal):
        return "6 " + refusal_text(outcome)
    return f"6 {refusal_text(outcome)} {outcome:08x}"


def check_line(words, tree):
    outcome = check(words, tree)
    return "7 " + refusal_text(outcome) + result_text(outcome, str(outcome))


def step_line(words, tree, image, address):
    outcome = step(words, tree, image, address)
    if isinstance(outcome, Refusal):
        return "8 " + refusal_text(outcome)
    if outcome == END:
        return f"8 {refusal_text(outcome)} {END}"
    item, next_address, mask = outcome
    return f"8 {refusal_text(outcome)} {item:08x} {next_address} {mask:08x}"


def list_line(words, tree, image, buffer):
    outcome, after = list_items(words, tree, image, buffer)
    return "9 " + refusal_text(outcome) + result_text(outcome, str(outcome)) + " " + buffer_text(after)


def size_line(outcome):
    if isinstance(outcome, Refusal):
        return "12 " + refusal_text(outcome)
    nodes, tests = outcome
    return f"12 {refusal_text(outcome)} {nodes} {tests}"


def measure_line(words):
    return size_line(measure.measure(words))


def cost_line(outcome):
    return "13 " + refusal_text(outcome) + result_text(outcome, str(outcome))


def cycles_line(words, entry):
    return cost_line(cost.cycles(words, entry))


def signed_line(field, value):
    outcome = numbers.signed(field, value)
    return "14 " + refusal_text(outcome) + result_text(outcome, str(outcome))


def stored_line(field, number):
    outcome = numbers.stored(field, number)
    if isinstance(outcome, Refusal):
        return "15 " + refusal_text(outcome)
    return f"15 {refusal_text(outcome)} {outcome:08x}"


def bytes_text(after):
    """The same of a buffer of bytes."""
    return " ".join(["|", *(f"{item:02x}" for item in after)])


def text_line(field, value, buffer):
    outcome, after = numbers.text(field, value, buffer)
    return "16 " + refusal_text(outcome) + result_text(outcome, str(outcome)) + " " + bytes_text(after)


def count_line(outcome):
    return "22 " + refusal_text(outcome) + result_text(outcome, str(outcome))


def changed_line(words, entry, listed):
    return count_line(withdrawal.changed(words, entry, listed))


def line_of(question):
    """A question is ("read", table), ("lookup", table, word), ("generate", table, buffer), ("walk bytes", bytes, word),
    ("decode", table, word, buffer), ("encode", table, entry, values), ("check", table, tree), ("step", table, tree, image,
    address), ("list", table, tree, image, buffer), ("walk", tree, word), ("mask", bytes, word), ("measure", table),
    ("cycles", table, entry), ("signed", field, value), ("stored", field, number), ("text", field, value, buffer) or
    ("changed", table, entry, words)."""
    name, *parts = question
    makers = {"read": read_line, "lookup": lookup_line, "generate": generate_line, "walk bytes": walk_bytes_line,
              "decode": decode_line, "encode": encode_line, "check": check_line, "step": step_line, "list": list_line,
              "walk": walk_line, "mask": mask_line, "measure": measure_line, "cycles": cycles_line,
              "signed": signed_line, "stored": stored_line, "text": text_line, "changed": changed_line}
    return makers[name](*parts)


def mktree_text(data):
    """What mktree prints for these bytes on its standard input."""
    # "Input over 65,536 bytes or not a multiple of four is number 1."
    if len(data) > 65536 or len(data) % 4 != 0:
        outcome = Refusal(1)
    else:
        # "words low byte first"; "Its tree buffer is 16,384 words."
        words = [int.from_bytes(data[start:start + 4], "little") for start in range(0, len(data), 4)]
        outcome, after = tree.generate(words, [0] * MOST_TREE_WORDS)
    # "A refusal prints one line: `refused`, number and place in decimal, and the word in eight such digits".
    if isinstance(outcome, Refusal):
        return f"refused {refusal_text(outcome)}\n"
    # "It prints each tree word: index, space, eight lower-case hexadecimal digits."
    return "".join(f"{index} {word:08x}\n" for index, word in enumerate(after[:outcome]))
