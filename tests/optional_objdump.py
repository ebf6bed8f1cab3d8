"""Compares the tables in data/ with the disassemblers of GNU binutils, as binutils/names.py reads their names. Not part of the gate, which
has recorded names instead (compare_binutils.py).

AVR: whole images, listed by probe; address, length and name of every item: every halfword, and the code of avr-libc. RISC-V and A32: words.

Usage: optional_objdump.py [path of probe]. Exits with status 1 at the first difference, and with status 2 if something was not compared because
a tool is not installed.
"""

import random
import shutil
import struct
import subprocess
import sys
import tempfile
from collections import Counter
from pathlib import Path

import compare_data
import probe
from binutils.names import (COPROCESSOR, NOTHING, RISCV_ARCHITECTURE, a32_agrees, avr_name, disassembled, other_coprocessor,
                            riscv_agrees)
from second.tree import nodes_once, written

SEED = 10
AVR_HALVES = 60000
AVR_LIBRARIES = [Path(f"/usr/lib/avr/lib/{core}/libc.a") for core in ("avr4", "avr5", "avr6")]
AVR_PIECE = 100000


class NotInstalled(Exception):
    """What is missing."""


def require_tools(*names):
    for name in names:
        if shutil.which(name) is None:
            raise NotInstalled(name)


def output_of(*command):
    return subprocess.run(command, stdout=subprocess.PIPE, check=True).stdout.decode()


def stop(text):
    print(f"difference: {text}")
    sys.exit(1)


# ---------------------------------------------------------------------------- AVR

def avr_image(rng, one):
    """Every halfword once, then instructions and random halfwords; NOPs at the end, so that nothing is cut off."""
    halves = list(range(65536))
    rng.shuffle(halves)
    while len(halves) < 65536 + AVR_HALVES:
        instruction = rng.choice(one.set.instructions)
        word = compare_data.made_word(rng, instruction, 32)
        halves += [word >> 16, word & 0xFFFF][:len(instruction.pattern) // 16]
    return struct.pack(f"<{len(halves) + 2}H", *halves, 0, 0)


def listed(path, one, image):
    """(byte offset, length in bytes, name) of each item that probe lists."""
    tree = written(32, nodes_once(tuple(one.words)))
    line = probe.ask(path, [("list", one.words, tree, image, [0] * (len(image) // 2))])[0]
    for item in [int(item, 16) for item in line.partition("| ")[2].split()][:int(line.split(" ")[4])]:
        entry = item >> 20 & 0xFF if item >> 28 == 12 else None
        pattern, name = ("0" * 16, NOTHING) if entry is None else (one.set.instructions[entry].pattern, one.mnemonic(entry))
        yield 2 * (item & 0xFFFFF), len(pattern) // 8, name


def same_items(path, folder, one, image):
    """The names of an image's items, which are avr-objdump's in address, length and name."""
    file = folder / "avr.bin"
    file.write_bytes(image)
    # -z: runs of zeros (NOP) are printed too. avr:107 is the largest core.
    text = output_of("avr-objdump", "-D", "-z", "-b", "binary", "-m", "avr:107", str(file))
    seen = [(offset, len(data) // 2, avr_name(name, operands)) for offset, data, name, operands in disassembled(text)]
    expected = list(listed(path, one, image))
    for ours, theirs in zip(expected, seen):
        if ours != theirs:
            stop(f"AVR: the table has {ours}, avr-objdump {theirs}")
    if len(expected) != len(seen):
        stop(f"AVR: {len(expected)} items, avr-objdump {len(seen)}")
    return Counter(name for _, _, name in seen)


def compare_avr(path, rng, folder, one):
    names = same_items(path, folder, one, avr_image(rng, one))
    probe.require_enough(names, {instruction.mnemonic: 1 for instruction in one.set.instructions} | {NOTHING: 1000})
    return f"avr: {names.total()} items"


def library_code(library, folder):
    """The code of each object of a library, one after the other; NOPs after each, so that nothing is cut off."""
    subprocess.run(["avr-ar", "x", str(library)], cwd=folder, check=True)
    code = b""
    for file in sorted(folder.glob("*.o")):
        output_of("avr-objcopy", "-O", "binary", "-j", ".text*", str(file), str(folder / "code"))
        code += (folder / "code").read_bytes() + b"\0\0\0\0"
        file.unlink()
    return code


def compare_avr_libc(path, _, folder, one):
    """Whole code of avr-libc, of an old core and of a large one, in pieces that probe's input holds."""
    names = Counter()
    for library in AVR_LIBRARIES:
        if not library.is_file():
            raise NotInstalled(f"avr-libc ({library})")
        code = library_code(library, folder)
        for start in range(0, len(code), AVR_PIECE):
            names += same_items(path, folder, one, code[start:start + AVR_PIECE] + b"\0\0\0\0")
    probe.require_enough(names, {"RET": 100, "LDI": 100, "CALL": 50})
    return f"avr-libc: {names.total()} items, {names[NOTHING]} of nothing"


# ---------------------------------------------------------------------------- RISC-V

def riscv_words(rng, one):
    # The assembler takes words whose low bits say "32 bits" only; the table selects nothing else either.
    return [word for word in compare_data.some_words(rng, one, Counter()) if word & 3 == 3 and word & 28 != 28]


def compare_riscv(path, rng, folder, one):
    words = riscv_words(rng, one)
    source, made = folder / "riscv.s", folder / "riscv.o"
    source.write_text("".join(f".insn 4, 0x{word:08x}\n" for word in words))
    output_of("riscv64-linux-gnu-as", f"-march={RISCV_ARCHITECTURE}", str(source), "-o", str(made))
    text = output_of("riscv64-linux-gnu-objdump", "-d", "-z", "-M", "no-aliases", str(made))
    tally = Counter()
    lines = compare_data.lookups(path, one.words, words)
    for word, line, (_, _, theirs, _) in zip(words, lines, disassembled(text), strict=True):
        ours = name_in(one, line)
        if not riscv_agrees(word, ours, theirs):
            stop(f"RISC-V {word:08x}: the table has {ours}, objdump {theirs}")
        tally[ours] += 1
    probe.require_enough(tally, {instruction.mnemonic: 5 for instruction in one.set.instructions} | {NOTHING: 300})
    return f"riscv: {len(words)} words"


def name_in(one, line):
    answer = line.split(" ")[4]
    return one.mnemonic(NOTHING if answer == NOTHING else int(answer))


# ---------------------------------------------------------------------------- A32

def a32_words(rng, one):
    """The usual words, and enough for coprocessor 14."""
    instructions = [instruction for instruction in one.set.instructions if instruction.mnemonic in COPROCESSOR]
    return compare_data.some_words(rng, one, Counter()) + [
        compare_data.made_word(rng, instruction, 32) & ~0xF00 | 0xE00 for instruction in instructions for _ in range(50)]


def compare_a32(path, rng, folder, one):
    words = a32_words(rng, one)
    file = folder / "a32.bin"
    file.write_bytes(struct.pack(f"<{len(words)}I", *words))
    text = output_of("arm-none-eabi-objdump", "-D", "-z", "-b", "binary", "-m", "arm", str(file))
    tally = Counter()
    lines = compare_data.lookups(path, one.words, words)
    for word, line, (_, data, theirs, _) in zip(words, lines, disassembled(text), strict=True):
        ours = name_in(one, line)
        if int(data, 16) != word:
            stop(f"A32: objdump has {data} where the image has {word:08x}")
        if ours == NOTHING or other_coprocessor(word, ours):
            continue
        if not a32_agrees(ours, theirs):
            stop(f"A32 {word:08x}: the table has {ours}, objdump {theirs}")
        tally[ours] += 1
        tally["all"] += 1
    probe.require_enough(tally, {instruction.mnemonic: 1 for instruction in one.set.instructions} | {"all": 10000})
    return f"a32: {tally['all']} words"


# ---------------------------------------------------------------------------- all of it

COMPARISONS = (("avr", compare_avr, ("avr-objdump",)),
               ("avr", compare_avr_libc, ("avr-objdump", "avr-ar", "avr-objcopy")),
               ("riscv", compare_riscv, ("riscv64-linux-gnu-as", "riscv64-linux-gnu-objdump")),
               ("a32", compare_a32, ("arm-none-eabi-objdump",)))


def main():
    path = probe.path_from_arguments()
    done, missing = [], []
    with tempfile.TemporaryDirectory() as folder:
        for name, compare, needed in COMPARISONS:
            one = compare_data.ready(name, compare_data.make.SETS[name])
            try:
                require_tools(*needed)
                done.append(compare(path, random.Random(SEED), Path(folder), one))
            except NotInstalled as what:
                missing.append(f"{name} ({what} is not installed)")
    if done:
        print(f"optional_objdump: compared {', '.join(done)}")
    if missing:
        print(f"optional_objdump: NOT COMPARED: {', '.join(missing)}")
        sys.exit(2)
    print(f"optional_objdump good: {len(done)} of {len(COMPARISONS)} comparisons")


if __name__ == "__main__":
    main()
