"""AVR by the usual decision tree: the first halfword's high nibble, then what it leaves open.

The AVR Instruction Set Manual has no decode table of its own; this is the order in which simulators decode it. The second
halfword never decides anything.
"""

from decoders import part

TWO_REGISTERS = {1: ["CPC", "SBC", "ADD"], 2: ["CPSE", "CP", "SUB", "ADC"], 3: ["AND", "EOR", "OR", "MOV"]}
IMMEDIATE = {3: "CPI", 4: "SBCI", 5: "SUBI", 6: "ORI", 7: "ANDI", 12: "RJMP", 13: "RCALL", 14: "LDI"}
LOAD = {0: "LDS", 1: "LD Z+", 2: "LD -Z", 4: "LPM Z", 5: "LPM Z+", 6: "ELPM Z", 7: "ELPM Z+", 9: "LD Y+", 10: "LD -Y",
        12: "LD X", 13: "LD X+", 14: "LD -X", 15: "POP"}
STORE = {0: "STS", 1: "ST Z+", 2: "ST -Z", 4: "XCH", 5: "LAS", 6: "LAC", 7: "LAT", 9: "ST Y+", 10: "ST -Y",
         12: "ST X", 13: "ST X+", 14: "ST -X", 15: "PUSH"}
ONE_REGISTER = {0: "COM", 1: "NEG", 2: "SWAP", 3: "INC", 5: "ASR", 6: "LSR", 7: "ROR", 10: "DEC",
                12: "JMP", 13: "JMP", 14: "CALL", 15: "CALL"}
NO_OPERAND = {0x9508: "RET", 0x9518: "RETI", 0x9588: "SLEEP", 0x9598: "BREAK", 0x95A8: "WDR", 0x95C8: "LPM", 0x95D8: "ELPM",
              0x95E8: "SPM", 0x95F8: "SPM Z+", 0x9409: "IJMP", 0x9419: "EIJMP", 0x9509: "ICALL", 0x9519: "EICALL"}
PORT_BIT = ["CBI", "SBIC", "SBI", "SBIS"]
LAST = ["BRBS", "BRBS", "BRBC", "BRBC", "BLD", "BST", "SBRC", "SBRS"]


def nibble_0(half):
    second = part(half, 11, 8)
    if second >= 4:
        return TWO_REGISTERS[1][second // 4 - 1]
    if second == 3:
        return [["MULSU", "FMUL"], ["FMULS", "FMULSU"]][part(half, 7, 7)][part(half, 3, 3)]
    if second == 0:
        return "NOP" if half == 0 else None
    return ["MOVW", "MULS"][second - 1]


def bits_of_status(half):
    if half < 0x9500:
        return "BCLR" if part(half, 7, 7) else "BSET"
    return NO_OPERAND.get(half)


def nibble_9(half):
    second, low = part(half, 11, 8), part(half, 3, 0)
    if second < 2:
        return LOAD.get(low)
    if second < 4:
        return STORE.get(low)
    if second < 6:
        if low == 8:
            return bits_of_status(half)
        if low == 9:
            return NO_OPERAND.get(half)
        if low == 11:
            return "DES" if second == 4 else None
        return ONE_REGISTER.get(low)
    if second < 8:
        return ["ADIW", "SBIW"][second - 6]
    return PORT_BIT[second - 8] if second < 12 else "MUL"


def with_displacement(half):
    return ("STD " if part(half, 9, 9) else "LDD ") + ("Y" if part(half, 3, 3) else "Z")


def nibble_15(half):
    kind = part(half, 11, 9)
    # Bit instructions have a zero above the bit's number.
    return LAST[kind] if kind < 4 or part(half, 3, 3) == 0 else None


def name_of(word):
    half = part(word, 31, 16)
    nibble = part(half, 15, 12)
    if nibble == 0:
        return nibble_0(half)
    if nibble in (1, 2):
        return TWO_REGISTERS[nibble + 1][part(half, 11, 10)]
    if nibble in IMMEDIATE:
        return IMMEDIATE[nibble]
    if nibble in (8, 10):
        return with_displacement(half)
    if nibble == 9:
        return nibble_9(half)
    if nibble == 11:
        return "OUT" if part(half, 11, 11) else "IN"
    return nibble_15(half)
