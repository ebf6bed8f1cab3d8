"""A32 in the order of the encoding tables of ARM DDI 0406C, chapter A5, one function a section. A word whose "should be" bits are wrong has
no name.
"""

from decoders import part

OPERATIONS = ["AND", "EOR", "SUB", "RSB", "ADD", "ADC", "SBC", "RSC", "TST", "TEQ", "CMP", "CMN", "ORR", "MOV", "BIC", "MVN"]
MULTIPLIES = ["MUL", "MLA", None, None, "UMULL", "UMLAL", "SMULL", "SMLAL"]
EXCLUSIVE = ["STREX", "LDREX", "STREXD", "LDREXD", "STREXB", "LDREXB", "STREXH", "LDREXH"]
SATURATING = ["QADD", "QSUB", "QDADD", "QDSUB"]
HINTS = {0: "NOP", 1: "YIELD", 2: "WFE", 3: "WFI", 4: "SEV"}
PARALLEL_KINDS = {1: "S", 2: "Q", 3: "SH", 5: "U", 6: "UQ", 7: "UH"}
PARALLEL_OPERATIONS = {0: "ADD16", 1: "ASX", 2: "SAX", 3: "SUB16", 4: "ADD8", 7: "SUB8"}
EXTENSIONS = {0: "SXTAB16", 2: "SXTAB", 3: "SXTAH", 4: "UXTAB16", 6: "UXTAB", 7: "UXTAH"}
REVERSALS = {(3, 1): "REV", (3, 5): "REV16", (7, 1): "RBIT", (7, 5): "REVSH"}
BLOCKS = [["DA", ""], ["DB", "IB"]]


def bit(word, place):
    return part(word, place, place)


def nibbles(word, *places):
    """The registers and other parts of four bits at these places."""
    return tuple(part(word, place + 3, place) for place in places)


def when(right, name):
    return name if right else None


def shifted_operation(word):
    """A5.2.1 to A5.2.3, data processing: an operation of bits 24-21, and MOV, MVN, the comparisons have one register less."""
    name = OPERATIONS[part(word, 24, 21)]
    if name in ("TST", "TEQ", "CMP", "CMN"):
        return when(nibbles(word, 12) == (0,), name)
    if name in ("MOV", "MVN"):
        return when(nibbles(word, 16) == (0,), name)
    return name


def is_miscellaneous(word):
    """op is 10xx0: a comparison that would set no flags."""
    return part(word, 24, 23) == 2 and bit(word, 20) == 0


def registers(word):
    """Table A5-2 with op = 0."""
    high, low = bit(word, 7), bit(word, 4)
    if high and low:
        return multiplies(word) if part(word, 6, 5) == 0 else extra(word)
    if is_miscellaneous(word):
        return halfword_multiply(word) if high else miscellaneous(word)
    return shifted_operation(word)


def immediates(word):
    """Table A5-2 with op = 1."""
    op = part(word, 24, 20)
    if op == 0x10:
        return "MOVW"
    if op == 0x14:
        return "MOVT"
    if is_miscellaneous(word):
        return msr_and_hints(word)
    # ADD and SUB that set no flags, of the PC: A5.2.3 has them as ADR.
    if op in (0x04, 0x08) and nibbles(word, 16) == (15,):
        return "ADR"
    return shifted_operation(word)


def msr_and_hints(word):
    """A5.2.11."""
    if nibbles(word, 12) != (15,):
        return None
    if nibbles(word, 16) != (0,):
        return "MSR"
    if bit(word, 22) or nibbles(word, 8) != (0,):
        return None
    return "DBG" if nibbles(word, 4) == (15,) else HINTS.get(part(word, 7, 0), "HINT")


def multiplies(word):
    """Bits 7-4 are 1001: A5.2.5 multiplies, A5.2.10 synchronization."""
    if bit(word, 24):
        return synchronization(word)
    op = part(word, 23, 21)
    if op in (2, 3):
        return when(bit(word, 20) == 0, "UMAAL" if op == 2 else "MLS")
    name = MULTIPLIES[op]
    return when(nibbles(word, 12) == (0,), name) if name == "MUL" else name


def synchronization(word):
    op = part(word, 23, 20)
    if op in (0, 4):
        return when(nibbles(word, 8) == (0,), "SWP")
    if op < 8 or nibbles(word, 8) != (15,):
        return None
    name = EXCLUSIVE[op - 8]
    return when(name.startswith("ST") or nibbles(word, 0) == (15,), name)


def extra(word):
    """A5.2.8 and A5.2.9. Bit 22 is the immediate form; the register form has four zeros."""
    if bit(word, 22) == 0 and nibbles(word, 8) != (0,):
        return None
    load, op2 = bit(word, 20), part(word, 6, 5)
    unprivileged = bit(word, 24) == 0 and bit(word, 21) == 1
    if op2 == 1:
        return ("LDRH" if load else "STRH") + ("T" if unprivileged else "")
    if load:
        return ("LDRSB" if op2 == 2 else "LDRSH") + ("T" if unprivileged else "")
    return when(not unprivileged, "LDRD" if op2 == 2 else "STRD")


def miscellaneous(word):
    """A5.2.12, by op2 (bits 6-4) and op (bits 22-21)."""
    op, op2 = part(word, 22, 21), part(word, 6, 4)
    rn, rd, third, last = nibbles(word, 16, 12, 8, 0)
    if op2 == 0:
        # Bit 9 would be the banked registers of the Virtualization Extensions, which data/ leaves out.
        if op in (0, 2):
            return when(rn == 15 and third == 0 and last == 0, "MRS")
        return when(rn != 0 and rd == 15 and third == 0, "MSR")
    if op2 in (1, 2, 3) and op == 1:
        return when((rn, rd, third) == (15, 15, 15), {1: "BX", 2: "BXJ", 3: "BLX"}[op2])
    if op2 == 1 and op == 3:
        return when((rn, third) == (15, 15), "CLZ")
    if op2 == 5:
        return when(third == 0, SATURATING[op])
    if op2 == 6 and op == 3:
        return when((rn, rd, third, last) == (0, 0, 0, 14), "ERET")
    return software(word, op) if op2 == 7 else None


def software(word, op):
    """BKPT and HVC are for cond = 1110 only."""
    if op == 3:
        return when(nibbles(word, 16, 12, 8) == (0, 0, 0), "SMC")
    return when(nibbles(word, 28) == (14,), [None, "BKPT", "HVC"][op])


def halfword_multiply(word):
    """A5.2.7."""
    op1, (middle,) = part(word, 22, 21), nibbles(word, 12)
    if op1 == 1:
        return when(middle == 0, "SMULWy") if bit(word, 5) else "SMLAWy"
    if op1 == 3:
        return when(middle == 0, "SMULxy")
    return "SMLALxy" if op1 == 2 else "SMLAxy"


def load_store(word):
    """A5.3."""
    name = ("LDR" if bit(word, 20) else "STR") + ("B" if bit(word, 22) else "")
    return name + ("T" if bit(word, 24) == 0 and bit(word, 21) == 1 else "")


def media(word):
    """A5.4: op1 is bits 24-20, op2 is bits 7-5."""
    op1, op2 = part(word, 24, 20), part(word, 7, 5)
    if op1 < 8:
        return parallel(word, op1, op2)
    if op1 < 16:
        return packing(word, op1 - 8, op2)
    if op1 < 24:
        return signed_multiply(word, op1 - 16, op2)
    if op1 == 24:
        return when(op2 == 0, "USAD8" if nibbles(word, 12) == (15,) else "USADA8")
    if op1 == 31 and op2 == 7:
        return when(nibbles(word, 28) == (14,), "UDF")
    return bit_field(word, op1, op2 & 3)


def bit_field(word, op1, low):
    if op1 in (28, 29):
        return when(low == 0, "BFC" if nibbles(word, 0) == (15,) else "BFI")
    return when(op1 > 25 and low == 2, "SBFX" if op1 < 28 else "UBFX")


def parallel(word, op1, op2):
    """A5.4.1 and A5.4.2."""
    right = nibbles(word, 8) == (15,) and op1 in PARALLEL_KINDS and op2 in PARALLEL_OPERATIONS
    return right and PARALLEL_KINDS[op1] + PARALLEL_OPERATIONS[op2] or None


def packing(word, op1, op2):
    """A5.4.3."""
    rn, third = nibbles(word, 16, 8)
    if op2 % 2 == 0:
        return {0: "PKH", 2: "SSAT", 3: "SSAT", 6: "USAT", 7: "USAT"}.get(op1)
    if op2 == 3 and op1 in EXTENSIONS:
        name = EXTENSIONS[op1]
        return when(third & 3 == 0, name[:3] + name[4:] if rn == 15 else name)
    if third != 15:
        return None
    if (op1, op2) == (0, 5):
        return "SEL"
    if op2 == 1 and op1 in (2, 6):
        return "SSAT16" if op1 == 2 else "USAT16"
    return REVERSALS.get((op1, op2)) if rn == 15 else None


def signed_multiply(word, op1, op2):
    """A5.4.4."""
    no_addend = nibbles(word, 12) == (15,)
    if op1 == 0 and op2 < 4:
        return (["SMLAD", "SMLSD"], ["SMUAD", "SMUSD"])[no_addend][op2 // 2]
    if op1 in (1, 3):
        return when(op2 == 0 and no_addend, "SDIV" if op1 == 1 else "UDIV")
    if op1 == 4 and op2 < 4:
        return ["SMLALD", "SMLSLD"][op2 // 2]
    if op1 == 5 and op2 < 2:
        return "SMMUL" if no_addend else "SMMLA"
    return when(op1 == 5 and op2 > 5, "SMMLS")


def block(word):
    """A5.5 with op < 100000."""
    load = bit(word, 20)
    if bit(word, 22):
        if load and bit(word, 15):
            return "LDM return"
        return when(bit(word, 21) == 0, "LDM user" if load else "STM user")
    stack = bit(word, 21) == 1 and nibbles(word, 16) == (13,)
    name = ("LDM" if load else "STM") + BLOCKS[bit(word, 24)][bit(word, 23)]
    return {"LDM": "POP", "STMDB": "PUSH"}.get(name, name) if stack else name


def coprocessor(word):
    """A5.6 for a coprocessor that is not 101x."""
    op1 = part(word, 25, 20)
    if op1 >= 48:
        return "SVC"
    if part(word, 11, 9) == 5:
        return None
    load = bit(word, 20)
    if op1 >= 32:
        if bit(word, 4) == 0:
            return "CDP"
        return "MRC" if load else "MCR"
    if op1 in (0, 1):
        return None
    if op1 in (4, 5):
        return "MRRC" if load else "MCRR"
    return "LDC" if load else "STC"


def unconditional(word):
    """A5.7."""
    op1 = part(word, 27, 20)
    if part(op1, 7, 5) == 5:
        return "BLX"
    if part(op1, 7, 5) == 4:
        return rfe_and_srs(word)
    return hints_and_memory(word, op1)


def rfe_and_srs(word):
    save, load = bit(word, 22), bit(word, 20)
    if save and not load:
        return when(part(word, 19, 5) == 0b1101_0000_0101_000, "SRS")
    return when(load and not save and part(word, 15, 0) == 0x0A00, "RFE")


def hints_and_memory(word, op1):
    """A5.7.1."""
    rn, rt = nibbles(word, 16, 12)
    if op1 == 0x10:
        if bit(word, 16):
            return when(part(word, 19, 10) == 0b0001_0000_00 and part(word, 8, 0) == 0, "SETEND")
        return when(part(word, 15, 9) == 0 and bit(word, 5) == 0, "CPS")
    if op1 == 0x57:
        return barriers(word)
    # Bits 27-25: 010 immediate, 011 register with bit 4 zero; the kind is what is left without U.
    if part(op1, 7, 5) not in (2, 3) or (bit(word, 25) and bit(word, 4)):
        return None
    kind = bit(word, 24), part(word, 22, 20)
    if kind == (0, 1):
        return "MEMORY HINT"    # unallocated, whatever its other bits
    if rt != 15:
        return None
    if kind == (1, 1):
        return when(bit(word, 25) or rn != 15, "PLDW")
    return {(1, 5): "PLD", (0, 5): "PLI"}.get(kind)


def barriers(word):
    if part(word, 19, 8) != 0xFF0:
        return None
    op2, last = nibbles(word, 4, 0)
    if op2 == 1:
        return when(last == 15, "CLREX")
    return {4: "DSB", 5: "DMB", 6: "ISB"}.get(op2)


def name_of(word):
    """A5.1: cond, op1 (bits 27-25) and op (bit 4)."""
    if nibbles(word, 28) == (15,):
        return unconditional(word)
    op1 = part(word, 27, 25)
    if op1 in (0, 1):
        return immediates(word) if op1 else registers(word)
    if op1 in (2, 3):
        return media(word) if op1 == 3 and bit(word, 4) else load_store(word)
    if op1 == 4:
        return block(word)
    if op1 == 5:
        return "BL" if bit(word, 24) else "B"
    return coprocessor(word)
