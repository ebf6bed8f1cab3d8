"""Turns what mktree prints (standard input) into a tree file: the words, low byte first.

Usage: mktree < table | python3 tree_file.py FILE. The file is there afterwards only if the input is a whole tree; after a refusal, an empty or a cut
input, or a header that does not count the words, the reason goes to standard error, there is no such file, and the status is 1.
"""

import os
import re
import sys

HEADER = 7


class NotATree(Exception):
    """Why there is no file."""


def words_of(text):
    """The tree's words, in order."""
    if text.startswith("refused"):
        raise NotATree(text.rstrip("\n"))
    if not text.endswith("\n"):
        raise NotATree("the input is empty, or its last line is cut")
    words = []
    for index, line in enumerate(text[:-1].split("\n")):
        found = re.fullmatch(f"{index} ([0-9a-f]{{8}})", line)
        if found is None:
            raise NotATree(f"line {index + 1} is no word of a tree: {line!r}")
        words.append(int(found[1], 16))
    return words


def checked(words):
    """The same words, if the header counts them."""
    if words[0] >> 28 != HEADER or words[0] & 0xFFFF != len(words) - 1:
        raise NotATree(f"the header {words[0]:08x} does not count the {len(words)} words")
    return words


def write_whole(name, data):
    """Under another name first: nobody finds half a file."""
    with open(name + ".part", "wb") as file:
        file.write(data)
    os.replace(name + ".part", name)


def main():
    if len(sys.argv) != 2:
        sys.exit(__doc__)
    name = sys.argv[1]
    if os.path.lexists(name):
        os.remove(name)     # a tree of an earlier run must not be taken for this one
    try:
        words = checked(words_of(sys.stdin.read()))
    except NotATree as reason:
        sys.exit(f"tree_file: {reason}")
    write_whole(name, b"".join(word.to_bytes(4, "little") for word in words))


if __name__ == "__main__":
    main()
