"""RV64 by opcode, funct3 and funct7, in the way of the manual's instruction listings (hexadecimal opcodes, decimal functs)."""

from decoders import part

BRANCH = {0: "BEQ", 1: "BNE", 4: "BLT", 5: "BGE", 6: "BLTU", 7: "BGEU"}
LOAD = {0: "LB", 1: "LH", 2: "LW", 3: "LD", 4: "LBU", 5: "LHU", 6: "LWU"}
STORE = {0: "SB", 1: "SH", 2: "SW", 3: "SD"}
LOAD_FP = {1: "FLH", 2: "FLW", 3: "FLD"}
STORE_FP = {1: "FSH", 2: "FSW", 3: "FSD"}
OP_IMM = {0: "ADDI", 2: "SLTI", 3: "SLTIU", 4: "XORI", 7: "ANDI"}
PREFETCH = {0: "PREFETCH.I", 1: "PREFETCH.R", 3: "PREFETCH.W"}
# funct3: {funct6: name}, and of one operand {funct12: name}
SHIFT_IMM = {1: {0x00: "SLLI", 0x0A: "BSETI", 0x12: "BCLRI", 0x1A: "BINVI"},
             5: {0x00: "SRLI", 0x10: "SRAI", 0x12: "BEXTI", 0x18: "RORI"}}
UNARY = {1: {0x600: "CLZ", 0x601: "CTZ", 0x602: "CPOP", 0x604: "SEXT.B", 0x605: "SEXT.H"},
         5: {0x287: "ORC.B", 0x687: "BREV8", 0x6B8: "REV8"}}
OP = {0x00: ["ADD", "SLL", "SLT", "SLTU", "XOR", "SRL", "OR", "AND"],
      0x01: ["MUL", "MULH", "MULHSU", "MULHU", "DIV", "DIVU", "REM", "REMU"],
      0x04: [None, None, None, None, "PACK", None, None, "PACKH"],
      0x05: [None, "CLMUL", "CLMULR", "CLMULH", "MIN", "MINU", "MAX", "MAXU"],
      0x07: [None, None, None, None, None, "CZERO.EQZ", None, "CZERO.NEZ"],
      0x10: [None, None, "SH1ADD", None, "SH2ADD", None, "SH3ADD", None],
      0x14: [None, "BSET", "XPERM4", None, "XPERM8", None, None, None],
      0x20: ["SUB", None, None, None, "XNOR", "SRA", "ORN", "ANDN"],
      0x24: [None, "BCLR", None, None, None, "BEXT", None, None],
      0x30: [None, "ROL", None, None, None, "ROR", None, None],
      0x34: [None, "BINV", None, None, None, None, None, None]}
OP_32 = {0x00: ["ADDW", "SLLW", None, None, None, "SRLW", None, None],
         0x01: ["MULW", None, None, None, "DIVW", "DIVUW", "REMW", "REMUW"],
         0x04: ["ADD.UW", None, None, None, "PACKW", None, None, None],
         0x10: [None, None, "SH1ADD.UW", None, "SH2ADD.UW", None, "SH3ADD.UW", None],
         0x20: ["SUBW", None, None, None, None, "SRAW", None, None],
         0x30: [None, "ROLW", None, None, None, "RORW", None, None]}
OP_IMM_32 = {(1, 0x00): "SLLIW", (5, 0x00): "SRLIW", (5, 0x20): "SRAIW", (5, 0x30): "RORIW"}
UNARY_32 = {0x600: "CLZW", 0x601: "CTZW", 0x602: "CPOPW"}
AMO = {0: "AMOADD", 1: "AMOSWAP", 2: "LR", 3: "SC", 4: "AMOXOR", 8: "AMOOR", 12: "AMOAND", 16: "AMOMIN", 20: "AMOMAX",
       24: "AMOMINU", 28: "AMOMAXU"}
CSR = {1: "CSRRW", 2: "CSRRS", 3: "CSRRC", 5: "CSRRWI", 6: "CSRRSI", 7: "CSRRCI"}
WHOLE_SYSTEM = {0x00000073: "ECALL", 0x00100073: "EBREAK", 0x10200073: "SRET", 0x30200073: "MRET", 0x10500073: "WFI"}
WHOLE_FENCE = {0x8330000F: "FENCE.TSO", 0x0100000F: "PAUSE"}
CBO = {0: "CBO.INVAL", 1: "CBO.CLEAN", 2: "CBO.FLUSH", 4: "CBO.ZERO"}
FORMATS = ["S", "D", "H", None]
FUSED = {0x43: "FMADD", 0x47: "FMSUB", 0x4B: "FNMSUB", 0x4F: "FNMADD"}
ARITHMETIC = {0: "FADD", 1: "FSUB", 2: "FMUL", 3: "FDIV"}
BY_ROUNDING = {4: ["FSGNJ", "FSGNJN", "FSGNJX"], 5: ["FMIN", "FMAX"], 20: ["FLE", "FLT", "FEQ"]}
INTEGERS = ["W", "WU", "L", "LU"]


def funct3(word):
    return part(word, 14, 12)


def rd(word):
    return part(word, 11, 7)


def rs2(word):
    return part(word, 24, 20)


def indexed(names, index):
    return names[index] if index < len(names) else None


def op_imm(word):
    function = funct3(word)
    if function in SHIFT_IMM:
        return UNARY[function].get(part(word, 31, 20)) or SHIFT_IMM[function].get(part(word, 31, 26))
    if function == 6:
        # A hint in ORI's space: rd is x0.
        return PREFETCH.get(rs2(word), "ORI") if rd(word) == 0 else "ORI"
    return OP_IMM[function]


def op_imm_32(word):
    function = funct3(word)
    if function == 0:
        return "ADDIW"
    if function == 1 and part(word, 31, 26) == 2:
        return "SLLI.UW"
    if function == 1 and part(word, 31, 20) in UNARY_32:
        return UNARY_32[part(word, 31, 20)]
    return OP_IMM_32.get((function, part(word, 31, 25)))


def op(word):
    return OP.get(part(word, 31, 25), [None] * 8)[funct3(word)]


def op_32(word):
    name = OP_32.get(part(word, 31, 25), [None] * 8)[funct3(word)]
    return "ZEXT.H" if name == "PACKW" and rs2(word) == 0 else name


def misc_mem(word):
    function = funct3(word)
    if function == 0:
        return WHOLE_FENCE.get(word, "FENCE")
    if function == 1:
        return "FENCE.I"
    return CBO.get(part(word, 31, 20)) if function == 2 and rd(word) == 0 else None


def system(word):
    if funct3(word) != 0:
        return CSR.get(funct3(word))
    if part(word, 31, 25) == 9 and rd(word) == 0:
        return "SFENCE.VMA"
    return WHOLE_SYSTEM.get(word)


def amo(word):
    name, size = AMO.get(part(word, 31, 27)), {2: ".W", 3: ".D"}.get(funct3(word))
    if name is None or size is None or (name == "LR" and rs2(word) != 0):
        return None
    return name + size


def converted(word, target):
    """FCVT between formats: rs2 is the format that it comes from."""
    source = FORMATS[rs2(word)] if rs2(word) < 3 else None
    return f"FCVT.{target}.{source}" if source not in (None, target) else None


def moved_or_classed(word, kind, letter):
    """funct5 28 and 30; in FMV the S format is called W."""
    if rs2(word) != 0:
        return None
    bits = "W" if letter == "S" else letter
    if kind == 30:
        return f"FMV.{bits}.X" if funct3(word) == 0 else None
    return indexed([f"FMV.X.{bits}", f"FCLASS.{letter}"], funct3(word))


def op_fp(word):
    kind, letter = part(word, 31, 27), FORMATS[part(word, 26, 25)]
    if letter is None:
        return None
    if kind in ARITHMETIC:
        return f"{ARITHMETIC[kind]}.{letter}"
    if kind in BY_ROUNDING:
        name = indexed(BY_ROUNDING[kind], funct3(word))
        return name and f"{name}.{letter}"
    if kind == 11:
        return f"FSQRT.{letter}" if rs2(word) == 0 else None
    if kind == 8:
        return converted(word, letter)
    if kind in (24, 26):
        integer = indexed(INTEGERS, rs2(word))
        return integer and (f"FCVT.{integer}.{letter}" if kind == 24 else f"FCVT.{letter}.{integer}")
    return moved_or_classed(word, kind, letter) if kind in (28, 30) else None


def fused(word):
    letter = FORMATS[part(word, 26, 25)]
    return letter and f"{FUSED[part(word, 6, 0)]}.{letter}"


def jalr(word):
    return "JALR" if funct3(word) == 0 else None


def by_funct3(names):
    return lambda word: names.get(funct3(word))


OPCODES = {0x03: by_funct3(LOAD), 0x07: by_funct3(LOAD_FP), 0x0F: misc_mem, 0x13: op_imm, 0x17: lambda word: "AUIPC",
           0x1B: op_imm_32, 0x23: by_funct3(STORE), 0x27: by_funct3(STORE_FP), 0x2F: amo, 0x33: op,
           0x37: lambda word: "LUI", 0x3B: op_32,
           0x43: fused, 0x47: fused, 0x4B: fused, 0x4F: fused, 0x53: op_fp, 0x63: by_funct3(BRANCH), 0x67: jalr,
           0x6F: lambda word: "JAL", 0x73: system}


def name_of(word):
    decode = OPCODES.get(part(word, 6, 0))
    return decode and decode(word)
