"""Compares requests 8 and 9 of probe (a step of the lister, a whole listing) with the second implementation, line for line;
then each step's mask with probe's own walk of the word there, a part of the steps and listings with those of the tables' twins, and
probe's own steps through an image with its own listing, all without the second one. The tables are sized too: steps and listings take
those that are refused with 19 as they do others. (compare_halves.py has more of the last halfword of an image.)

Usage: compare_image.py [path of probe]. Exits with status 1 at the first difference.
"""

import random
from collections import Counter
from dataclasses import dataclass

import masks
import probe
import sizing
import twinned
from second import checktrees, examples, images, tables, trees
from second.lines import line_of
from second.reader import read
from second.tree import conflict_word, nodes_of, written
from second.twins import Twins, kind_of

SEED = 8
TABLES = 300
IMAGES_EACH = 6
USUAL_NODES = 150
MARK = 0x5EED0000
STEPS_FOLLOWED = 40     # images that are stepped through
TWIN_EACH = 3           # every so many-th step or listing is asked of a twin too


@dataclass
class Ready:
    """A table with a tree that is to be accepted."""
    plan: tables.TablePlan
    words: list
    tree: list


# ---------------------------------------------------------------------------- tables and trees

def ready(rng, plan):
    """The plan with its tree, or another tree of it, and sometimes words lent after it; None if it is too large. Its fields get forms."""
    plan = tables.with_forms(rng, plan)
    words = tables.lay_out(plan).words
    nodes = nodes_of(read(words), USUAL_NODES)
    if nodes is None or conflict_word(nodes) is not None:
        return None
    tree = written(plan.width, nodes)
    if rng.random() < 0.2:
        shape = checktrees.other_shape(rng, read(words), USUAL_NODES)
        tree = tree if shape is None else checktrees.written(plan.width, shape)
    lent = [rng.getrandbits(32) for _ in range(rng.choice([0, 0, 1, 5]))]
    return Ready(plan, words, tree + lent)


def some_plan(rng):
    lengths = rng.choice([(16, 32), (16, 32), (16, 32), (16,), (32,)])
    return images.image_plan(rng, rng.randint(1, 9), rng.choice([0, 0.4, 0.8]), lengths)


def ready_tables(rng, make, count):
    found = []
    while len(found) < count:
        one = ready(rng, make(rng))
        if one is not None:
            found.append(one)
    return found


def other_width_plan(rng):
    return tables.nested_plan(rng, rng.choice([1, 8, 16, 16, 31, 31, rng.randint(1, 31)]))


def wrong_tree(rng, tree):
    """A tree that is most likely not accepted, and some that are of no use at all."""
    nodes = tree[0] & 0xFFFF
    _, altered = rng.choice(list(trees.altered_nodes(rng, tree, rng.randint(1, nodes))))
    return rng.choice([altered, altered, altered, tree[:nodes], trees.flipped(rng, tree), []])


# ---------------------------------------------------------------------------- questions

def marks(length):
    return [MARK + at for at in range(length)]


def items_in(question):
    """How many items a listing has, by the second implementation; None if it is refused."""
    name, words, tree, image, _ = question
    parts = line_of((name, words, tree, image, [0] * (len(image) // 2))).split(" |")[0].split(" ")
    return int(parts[4]) if parts[1] == "0" else None


def listings(rng, words, tree, image):
    """Buffers that hold the items exactly, one fewer, none, some of them, and more; marks stand after them."""
    items = items_in(("list", words, tree, image, []))
    if items is None:
        lengths = [("refused", rng.choice([0, 1, 3, len(image)]))]
    else:
        lengths = [("exact", items), ("empty", 0), ("longer", items + rng.randint(1, 6))]
        if items > 0:
            lengths += [("one short", items - 1), ("some", rng.randrange(items))]
    for what, length in lengths:
        yield f"list, {what}", ("list", words, tree, image, marks(length))


def addresses(rng, image):
    """Inside, at the end, past it, and some that are inside if only their low bits are looked at."""
    count = len(image) // 2
    inside = [0, max(count - 1, 0), max(count - 2, 0), *(rng.randrange(count + 1) for _ in range(3))]
    far = [0x10000, 0x100000 + count // 2, 0x7FFFFFFF, 0x80000000, 0x80000000 + count // 2, rng.getrandbits(32)]
    return {*inside, count, count + 1, 0xFFFFFFFF, *rng.sample(far, 2)}


def steps(rng, words, tree, image):
    for address in sorted(addresses(rng, image)):
        yield "step", ("step", words, tree, image, address)


def questions_on(rng, words, tree, image):
    yield from listings(rng, words, tree, image)
    yield from steps(rng, words, tree, image)


# ---------------------------------------------------------------------------- images

def usual_images(rng, good):
    for one in good:
        for _ in range(IMAGES_EACH):
            yield "usual", one.words, one.tree, images.some_image(rng, one.plan)
        yield "empty", one.words, one.tree, b""
        yield "odd", one.words, one.tree, images.odd_image(rng, one.plan)
        yield "wrong tree", one.words, wrong_tree(rng, one.tree), images.some_image(rng, one.plan)


def refused_images(rng, good):
    """15, 16 and 14 in this order, after 1 to 4: each alone, and with those that come after it."""
    others = ready_tables(rng, images.wrong_length_plan, 60) + ready_tables(rng, other_width_plan, 60)
    for one in others:
        right = images.image_of([rng.getrandbits(16) for _ in range(4)])
        yield "15", one.words, one.tree, right
        yield "15 before 16", one.words, one.tree, right[:-1]
        yield "15 before 16 and 14", one.words, wrong_tree(rng, one.tree), rng.choice([right, right[:-1]])
    for one in rng.sample(good, 60):
        yield "16 before 14", one.words, wrong_tree(rng, one.tree), images.odd_image(rng, one.plan)
        damaged = tables.some_damaged(rng, one.plan)
        yield "refused table", damaged, rng.choice([one.tree, []]), images.some_image(rng, one.plan) + rng.choice([b"", b"\1"])


def letter_images(rng):
    """256 entries: every entry number in bits 27-20. No entries: nothing anywhere."""
    for plan in (images.letters_plan(), tables.TablePlan(32, [])):
        words = tables.lay_out(plan).words
        tree = written(32, nodes_of(read(words)))
        # Enough of them that each letter begins an instruction in one.
        for _ in range(8):
            letters = [number << 8 | rng.getrandbits(8) for number in range(256)]
            rng.shuffle(letters)
            yield "letters", words, tree, images.image_of(letters)


def small_images(rng):
    good = ready_tables(rng, some_plan, TABLES)
    for source in (usual_images(rng, good), refused_images(rng, good), letter_images(rng)):
        for name, words, tree, image in source:
            yield name, questions_on(rng, words, tree, image)


def hand_written():
    for name, question, _ in examples.IMAGE_EXAMPLES:
        yield "by hand", [(question[0], question)]


def long_images(rng):
    """Addresses of more than sixteen bits, as many as an input of probe holds (1,048,576 bytes with the buffer)."""
    for lengths in ((16,), (32,), (16, 32)):
        one = ready_tables(rng, lambda rng: images.image_plan(rng, 6, 0.4, lengths), 1)[0]
        # 170,000 halfwords leave room for as many items.
        image = images.long_image(rng, one.plan, 170000)
        items = items_in(("list", one.words, one.tree, image, []))
        asked = [("list, long", ("list", one.words, one.tree, image, marks(length)))
                 for length in (items, items - 1, items + 7, 70000)]
        image = images.long_image(rng, one.plan, 520000)
        for address in (65535, 65536, 131071, 262143, 262144, 519998, 519999, 520000, 524288 + 5):
            asked.append(("step, long", ("step", one.words, one.tree, image, address)))
        yield "long", asked


# ---------------------------------------------------------------------------- comparing and counting

KINDS = {"c": "kind 12", "d": "kind 13", "e": "kind 14"}


def count_step(tally, parts):
    if parts[4] == "end":
        tally["step, end"] += 1
    else:
        tally["step, " + KINDS[parts[4][0]]] += 1


def count_list(tally, question, seen):
    buffer, items = question[4], int(seen.split(" ")[4])
    after = seen.partition("| ")[2].split()
    tally.update("list, " + KINDS[item[0]] for item in after[:items])
    tally.update(f"list, entry {item[1:3]}" for item in after[:items] if item[0] == "c")
    tally["list, items"] += items
    tally["list, words left unchanged"] += len(buffer) - items
    tally["list, buffer full" if items == len(buffer) else "list, buffer longer"] += 1


def count(tally, name, what, question, seen, refused):
    parts = seen.split(" |")[0].split(" ")
    number = parts[1]
    if tuple(question[1]) in refused:
        tally[f"of a table refused with 19, {question[0]} {number}"] += 1
    tally[f"{question[0]} {number}"] += 1
    tally[f"{name}: {number}"] += 1
    tally[f"{what}: {number}"] += 1
    if number in ("2", "3", "4"):
        tally[f"kind {kind_of(question[1])}, faulty"] += 1
    if number == "17":
        tally["17 beyond sixteen bits"] += int(parts[2]) > 65535
    if number == "0" and question[0] == "step":
        count_step(tally, parts)
    if number == "0" and question[0] == "list":
        count_list(tally, question, seen)


def compare_by_hand(path):
    """Literal lines, which don't rest on the second implementation."""
    by_hand = examples.IMAGE_EXAMPLES + examples.STEP_MASK_EXAMPLES
    lines = probe.ask(path, [question for _, question, _ in by_hand])
    for (name, question, expected), seen in zip(by_hand, lines, strict=True):
        probe.stop_at_difference(name, question, expected, seen)


def compare(path, rng, tally):
    twins = Twins(SEED)
    for source in (hand_written(), small_images(rng), long_images(rng)):
        cases, stepped = [], []
        for name, questions in source:
            tally["images"] += 1
            cases += [(name, what, question) for what, question in questions]
        usual = {tuple(question[1]): None for name, _, question in cases if name == "usual"}
        refused = sizing.refused_with_19(path, [list(words) for words in usual], tally)
        lines = probe.ask(path, [case[2] for case in cases])
        for (name, what, question), seen in zip(cases, lines, strict=True):
            probe.stop_at_difference(f"{name}, {what}", question, line_of(question), seen)
            count(tally, name, what, question, seen, refused)
            if seen.startswith("8 0 ") and not seen.endswith(" end"):
                stepped.append((question, seen))
        compare_masks(path, stepped, tally)
        asked = [(f"{name}, {what}", question, seen) for (name, what, question), seen in zip(cases, lines)]
        twinned.compare(path, twins, asked[::TWIN_EACH], tally)


def word_at(image, address):
    """The halfword there above the next one; zero if that is missing: "The mask handed on for such an item is that of the word with zeros
    below" (document 02's No. 6)."""
    upper, lower = (int.from_bytes(image[2 * at:2 * at + 2], "little") for at in (address, address + 1))
    return upper << 16 | lower


def compare_masks(path, stepped, tally):
    """The mask that a step hands on is that of the walk of the word at its address, whatever the item's kind: both by probe."""
    walks = [("walk", tree, word_at(image, address)) for (_, _, tree, image, address), _ in stepped]
    for (question, seen), walk, line in zip(stepped, walks, probe.ask(path, walks), strict=True):
        tests, mask = masks.tests_and_mask(line)
        probe.stop_at_difference("the mask of a step", question, f"{seen[:-8]}{mask:08x}", seen)
        masks.check_ones("a step's walk", walk, tests, mask)
        kind = KINDS[seen.split(" ")[4][0]]
        tally[f"mask, {kind}"] += 1
        tally[f"mask, {kind}, the lower half tested"] += mask & 0xFFFF != 0


def follow_steps(path, rng, tally):
    """Steps from address 0 to the end give the items of the listing: both by probe."""
    for one in ready_tables(rng, some_plan, STEPS_FOLLOWED):
        image = images.some_image(rng, one.plan)
        halves = len(image) // 2
        asked = [("step", one.words, one.tree, image, address) for address in range(halves + 1)]
        lines = probe.ask(path, asked + [("list", one.words, one.tree, image, marks(halves))])
        address, items = 0, []
        while not lines[address].endswith(" end"):
            *_, item, following, _ = lines[address].split(" ")
            items.append(item)
            if not address < int(following) <= halves:
                probe.stop_at_difference("a step leaves the image", asked[address], "an address further on", lines[address])
            address = int(following)
        after = items + [f"{word:08x}" for word in marks(halves)[len(items):]]
        expected = f"9 0 0 00000000 {len(items)} " + " ".join(["|", *after])
        probe.stop_at_difference("steps against the listing", ("list", *asked[0][1:4], marks(halves)), expected, lines[-1])
        tally["steps followed"] += len(items)


LEAST = {
    "images": 2500, "step 0": 12000, "list 0": 3500,
    "step 14": 1500, "step 15": 2000, "step 16": 2000, "list 14": 200, "list 15": 250, "list 16": 250, "list 17": 4000,
    "refused table: 1": 30, "refused table: 2": 100, "refused table: 3": 10, "refused table: 4": 40,
    "step, end": 8000, "step, kind 12": 2500, "step, kind 13": 1000, "step, kind 14": 550,
    "list, kind 12": 200000, "list, kind 13": 50000, "list, kind 14": 900, "list, words left unchanged": 5000,
    "list, exact: 0": 1500, "list, longer: 0": 1500, "list, empty: 0": 300, "list, empty: 17": 1200,
    "list, one short: 17": 1200, "list, some: 17": 1200, "list, long: 0": 6, "list, long: 17": 6, "step, long: 0": 27,
    "17 beyond sixteen bits": 6, "letters: 0": 80, **{f"list, entry {number:02x}": 2 for number in range(256)},
    "15: 15": 800, "15 before 16: 15": 800, "15 before 16 and 14: 15": 800, "16 before 14: 16": 400,
    "wrong tree: 14": 2000, "odd: 16": 2000, "empty: 0": 2000, "steps followed": 200,
    "mask, kind 12": 2500, "mask, kind 13": 1000, "mask, kind 14": 550, "mask, kind 12, the lower half tested": 300,
    "mask, kind 13, the lower half tested": 100, "mask, kind 14, the lower half tested": 300,
    "kind 1, faulty": 100, "kind 6, faulty": 100, "twins": 9000, "twins by the second": 400,
    "sized 0": 150, "sized 19": 60, "of a table refused with 19, step 0": 3000, "of a table refused with 19, step 14": 400,
    "of a table refused with 19, step 16": 500, "of a table refused with 19, list 0": 900, "of a table refused with 19, list 14": 50,
    "of a table refused with 19, list 16": 60, "of a table refused with 19, list 17": 1000,
}


def main():
    path = probe.path_from_arguments()
    rng = random.Random(SEED)
    tally = Counter()
    compare_by_hand(path)
    compare(path, rng, tally)
    follow_steps(path, rng, tally)
    probe.require_enough(tally, LEAST)
    numbers = ("0", "1", "2", "3", "4", "14", "15", "16", "17")
    steps_said = ", ".join(f"{one}: {tally[f'step {one}']}" for one in numbers[:-1])
    lists_said = ", ".join(f"{one}: {tally[f'list {one}']}" for one in numbers)
    items = ", ".join(f"{one}: {tally[f'list, {one}']}" for one in KINDS.values())
    walked = ", ".join(f"{one}: {tally[f'mask, {one}']}" for one in KINDS.values())
    print(f"compare_image good: {tally['images']} images; tables sized: {tally['sized 0']}, 19: {tally['sized 19']}, with "
          f"{tally['of a table refused with 19, list 0']} listings; steps by number {steps_said}; listings by number {lists_said}; "
          f"items listed, {items}; {tally['steps followed']} steps followed; masks walked, {walked}; {tally['twins']} questions to twins")


if __name__ == "__main__":
    main()
