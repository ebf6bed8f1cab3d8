"""How the names that GNU objdump prints are read: which name of data/ each stands for.

AVR and RISC-V: the name of each word, or nothing, with the few exceptions of riscv_stricter. A32: the name of each word for which the table
has one; the other way round isn't judged, because objdump names words whose "should be" bits are wrong, and instructions that data/ leaves
out.
"""

import re

NOTHING = "nothing"


def disassembled(text):
    """(byte offset, bytes or word in hexadecimal, name, operands) of each instruction that objdump prints."""
    for line in text.splitlines():
        parts = line.split("\t")
        if len(parts) >= 3 and re.fullmatch(r" *[0-9a-f]+:", parts[0]):
            operands = parts[3] if len(parts) > 3 else ""
            yield int(parts[0].strip(" :"), 16), parts[1].replace(" ", ""), parts[2].strip(), operands.strip()


# ---------------------------------------------------------------------------- AVR

AVR_SET_BRANCHES = "brcs breq brmi brvs brlt brhs brts brie".split()
AVR_CLEAR_BRANCHES = "brcc brne brpl brvc brge brhc brtc brid".split()
AVR_ALIASES = {**{name: "BRBS" for name in AVR_SET_BRANCHES}, **{name: "BRBC" for name in AVR_CLEAR_BRANCHES},
               **{f"se{flag}": "BSET" for flag in "cznvshti"}, **{f"cl{flag}": "BCLR" for flag in "cznvshti"}}

AVR_BY_POINTER = ("ld", "ldd", "st", "std", "lpm", "elpm", "spm")


def avr_pointer(name, operands):
    """Loads and stores by their pointer: `ld r1, Y` is LDD with displacement 0."""
    pointer = re.search(r"-?[XYZ]\+?", operands)
    if pointer is None:
        return name.upper()
    pointer = pointer.group()
    if name in ("ldd", "std") or (name in ("ld", "st") and pointer in ("Y", "Z")):
        return name[:2].upper() + "D " + pointer[0]
    return f"{name.upper()} {pointer}"


def avr_name(name, operands):
    if name == ".word":
        return NOTHING
    if name in AVR_ALIASES:
        return AVR_ALIASES[name]
    return avr_pointer(name, operands) if name in AVR_BY_POINTER else name.upper()


# ---------------------------------------------------------------------------- RISC-V

RISCV_ARCHITECTURE = "rv64imafd_zicsr_zifencei_zihintpause_zfh_zba_zbb_zbc_zbs_zbkb_zbkx_zicbom_zicbop_zicboz"
# Exact conversions: binutils 2.40 knows them with rounding mode 0 only, the manual gives them the field as well.
RISCV_EXACT = ("FCVT.D.W", "FCVT.D.WU", "FCVT.S.H", "FCVT.D.S", "FCVT.D.H")


def riscv_stricter(word, name):
    """Where binutils 2.40 knows less than the manual: FENCE and FENCE.I with fields that are to be ignored, a rounding mode of an
    exact conversion, Zicond (since 2.41)."""
    if name == "FENCE":
        return word & 0xF00F8F80 != 0
    if name == "FENCE.I":
        return word & 0xFFFF8F80 != 0
    return name.startswith("CZERO.") or (name in RISCV_EXACT and word & 0x7000 != 0)


# Instructions that data/ leaves out: of older drafts of the privileged manual, and of the debug specification.
RISCV_LEFT_OUT = ("uret", "hret", "sfence.vm", "dret")


def riscv_name(name):
    if name.startswith(".") or name in RISCV_LEFT_OUT:
        return NOTHING
    return re.sub(r"\.(aq|rl|aqrl)$", "", name).upper()


def riscv_agrees(word, ours, theirs):
    """Where it is stricter it may know nothing; another name it may not have."""
    return riscv_name(theirs) == ours or (riscv_stricter(word, ours) and riscv_name(theirs) == NOTHING)


# ---------------------------------------------------------------------------- A32

CONDITIONS = "(eq|ne|cs|cc|mi|pl|vs|vc|hi|ls|ge|lt|gt|le)?"
MODES = "(ia|da|db|ib)?"
SETS_FLAGS = "AND EOR SUB RSB ADD ADC SBC RSC ORR BIC MVN MUL MLA UMULL UMLAL SMULL SMLAL".split()
EXCHANGES = "SMLAD SMUAD SMLSD SMUSD SMLALD SMLSLD".split()
ROUNDS = "SMMLA SMMUL SMMLS".split()
# What objdump calls them; v8 has names for some DSB and hints, and a list of one register is an LDM or STM to it.
A32_NAMES = {
    "ADR": "(add|sub)", "MOV": "(mov|lsl|lsr|asr|ror|rrx)s?", "DSB": "(dsb|ssbb|pssbb|dfb)", "POP": "(pop|ldmfd)",
    "PUSH": "(push|stmfd)", "SMLAxy": "smla[bt][bt]", "SMLALxy": "smlal[bt][bt]", "SMULxy": "smul[bt][bt]",
    "SMLAWy": "smlaw[bt]", "SMULWy": "smulw[bt]", "PKH": "pkh(bt|tb)", "SWP": "swpb?", "CPS": "cps(ie|id)?",
    "RFE": "rfe" + MODES, "SRS": "srs" + MODES, "STM": "stm(ia)?", "LDM": "ldm(ia|fd)?", "STM user": "stm" + MODES,
    "LDM user": "ldm" + MODES, "LDM return": "ldm" + MODES, "STC": "stcl?", "LDC": "ldcl?", "HINT": "(nop|sevl|esb|csdb)",
    "MEMORY HINT": "(pldw)?",   # where bits 15-12 are not 1111 it knows none
    **{name: name.lower() + "s?" for name in SETS_FLAGS}, **{name: name.lower() + "x?" for name in EXCHANGES},
    **{name: name.lower() + "r?" for name in ROUNDS}}
COPROCESSOR = "STC LDC MCRR MRRC CDP MCR MRC".split()


def other_coprocessor(word, name):
    """Other coprocessors than 14 have names of their own in objdump (FPA, Maverick, iWMMXt, M-profile)."""
    return name in COPROCESSOR and word >> 8 & 15 != 14


def a32_agrees(ours, theirs):
    return re.fullmatch(A32_NAMES.get(ours, ours.lower()) + CONDITIONS, theirs) is not None


# ---------------------------------------------------------------------------- all sets

UNKNOWN = "-"       # where objdump prints no name


def recorded(name_of_set, name, operands):
    """What is recorded of a line of objdump: the name, and of AVR's loads and stores the pointer."""
    if name_of_set == "avr" and name in AVR_BY_POINTER:
        pointer = re.search(r"-?[XYZ]\+?", operands)
        return name if pointer is None else f"{name} {pointer.group()}"
    return name or UNKNOWN


def agrees(name_of_set, word, ours, theirs):
    """Whether a recorded name stands for the table's."""
    if name_of_set == "avr":
        return avr_name(*(theirs.split(" ") + [""])[:2]) == ours
    if name_of_set == "riscv":
        return riscv_agrees(word, ours, theirs)
    return theirs == UNKNOWN if ours == NOTHING else a32_agrees(ours, theirs.replace(UNKNOWN, ""))


def not_judged(name_of_set, word, ours):
    """Where objdump's name may be any other: A32's words that the table does not name, and its other coprocessors."""
    return name_of_set == "a32" and (ours == NOTHING or other_coprocessor(word, ours))
