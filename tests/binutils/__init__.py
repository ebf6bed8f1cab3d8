"""What GNU objdump calls words of the instruction sets in data/: how its names are read (names.py), and, recorded once, its names for a few
thousand words of each set (avr.names, riscv.names, a32.names; record.py makes them again). ../compare_binutils.py compares them in the gate,
without the tools; ../optional_objdump.py compares far more words, with the tools.
"""
