"""Makes the tables in this folder from the lists of instructions beside it.

Usage: make.py            writes avr.table, riscv.table, a32.table and buoy.table, and prints what is in them
       make.py list NAME  prints each entry of a set: number, label, mnemonic, pattern, number of conditions, cycles if the set has them,
                          and the fields that have a form
"""

import sys
from pathlib import Path

import a32
import avr
import buoy
import riscv
from patterns import POINT, labels_of, table_bytes, table_words

FOLDER = Path(__file__).resolve().parent
SETS = {one.SET.name: one.SET for one in (avr, riscv, a32, buoy)}


def write_tables():
    for name, one in SETS.items():
        (FOLDER / f"{name}.table").write_bytes(table_bytes(one))
        print(f"{name}: {len(one.instructions)} entries, {len(table_words(one))} words{', with cycles' if one.has_cycles else ''}")


def form_text(form):
    return f" {form.letter} point {form.fraction}" if form.form == POINT else f" {form.letter} signed"


def print_entries(one):
    for number, (instruction, label) in enumerate(zip(one.instructions, labels_of(one.instructions))):
        cycles = f" {instruction.cycles:5}" if one.has_cycles else ""
        forms = "".join(map(form_text, instruction.forms))
        print(f"{number:3} {label:3}  {instruction.mnemonic:20} {instruction.pattern:{one.width}} {len(instruction.conditions)}"
              f"{cycles}{forms}")


def main():
    if sys.argv[1:] == []:
        write_tables()
    elif len(sys.argv) == 3 and sys.argv[1] == "list" and sys.argv[2] in SETS:
        print_entries(SETS[sys.argv[2]])
    else:
        sys.exit(__doc__)


if __name__ == "__main__":
    main()
