"""Records what GNU objdump calls a few thousand words of a set: of every entry of its table in data/, their one-bit neighbours, random ones.

Usage: record.py NAME.. (avr, riscv, a32), with Debian's binutils-avr, binutils-riscv64-linux-gnu and binutils-arm-none-eabi. It writes
NAME.names beside itself: lines of `BYTES NAME: words`, the words in hexadecimal, `-` where objdump has no name. A name in brackets is not data/'s, and
not judged (names.py): mostly words that select nothing there. At any other difference nothing is written, and the status is 1.
"""

import random
import struct
import subprocess
import sys
import tempfile
from collections import defaultdict
from pathlib import Path

HERE = Path(__file__).resolve().parent
sys.path.insert(0, str(HERE.parent))

import compare_data
from binutils import names
from second.selection import select

SEED = 18
MADE = 1400             # words made of the entries, and as many neighbours
RANDOM = 400
ON_A_LINE = 12
TOOLS = {"avr": "avr-objdump", "riscv": "riscv64-linux-gnu-objdump", "a32": "arm-none-eabi-objdump"}


def output_of(*command):
    return subprocess.run([str(part) for part in command], stdout=subprocess.PIPE, check=True).stdout.decode()


def some_words(rng, one):
    instructions = one.set.instructions
    made = [compare_data.made_word(rng, instruction, 32) for instruction in instructions for _ in range(-(-MADE // len(instructions)))]
    words = made + [word ^ 1 << rng.randrange(32) for word in made] + [rng.getrandbits(32) for _ in range(RANDOM)]
    if one.name == "riscv":
        # Others are not words of 32 bits there.
        words = [word for word in words if word & 3 == 3 and word & 28 != 28]
    return sorted(set(words))


# Each gives (bytes, name, operands) for each word.

def avr_names(words, file):
    # Two NOPs after each word: if it is one of 16 bits, its lower half may be an instruction of 32.
    file.write_bytes(b"".join(struct.pack("<HHHH", word >> 16, word & 0xFFFF, 0, 0) for word in words))
    text = output_of(TOOLS["avr"], "-D", "-z", "-b", "binary", "-m", "avr:107", file)
    return [(len(data) // 2, name, operands) for offset, data, name, operands in names.disassembled(text) if offset % 8 == 0]


def riscv_names(words, file):
    source = file.with_suffix(".s")
    source.write_text("".join(f".insn 4, 0x{word:08x}\n" for word in words))
    output_of("riscv64-linux-gnu-as", f"-march={names.RISCV_ARCHITECTURE}", source, "-o", file)
    text = output_of(TOOLS["riscv"], "-d", "-z", "-M", "no-aliases", file)
    return [(len(data) // 2, name, operands) for _, data, name, operands in names.disassembled(text)]


def a32_names(words, file):
    file.write_bytes(struct.pack(f"<{len(words)}I", *words))
    text = output_of(TOOLS["a32"], "-D", "-z", "-b", "binary", "-m", "arm", file)
    return [(len(data) // 2, name, operands) for _, data, name, operands in names.disassembled(text)]


NAMES = {"avr": avr_names, "riscv": riscv_names, "a32": a32_names}


def recorded_name(one, word, name, operands):
    """In brackets where it is another than the table's and is not judged."""
    name, ours = names.recorded(one.name, name, operands), one.mnemonic(select(one.table, word))
    if names.agrees(one.name, word, ours, name):
        return name
    if not names.not_judged(one.name, word, ours):
        sys.exit(f"{one.name} {word:08x}: the table has {ours}, objdump {name}")
    return f"({name})"


def record(name):
    one = compare_data.ready(name, compare_data.make.SETS[name])
    words = some_words(random.Random(SEED), one)
    with tempfile.TemporaryDirectory() as folder:
        seen = NAMES[name](words, Path(folder) / "words")
    groups = defaultdict(list)
    for word, (size, *rest) in zip(words, seen, strict=True):
        groups[f"{size} {recorded_name(one, word, *rest)}"].append(f"{word:08x}")
    version = output_of(TOOLS[name], "--version").splitlines()[0]
    lines = [f"# {len(words)} words as {TOOLS[name]} names them: {version}", f"# made by: python3 tests/binutils/record.py {name}"]
    for group, its in sorted(groups.items()):
        lines += [f"{group}: {' '.join(its[at:at + ON_A_LINE])}" for at in range(0, len(its), ON_A_LINE)]
    (HERE / f"{name}.names").write_text("\n".join(lines) + "\n")
    print(f"{name}: {len(words)} words, {len(groups)} names")


def main():
    if not sys.argv[1:] or any(name not in TOOLS for name in sys.argv[1:]):
        sys.exit(__doc__)
    for name in sys.argv[1:]:
        record(name)


if __name__ == "__main__":
    main()
