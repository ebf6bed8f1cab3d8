"""RISC-V RV64: I, M, A, F, D, Zicsr, Zifencei, Zfh, Zba, Zbb, Zbc, Zbs, Zbkb, Zbkx, Zicond, Zicbom, Zicbop, Zicboz, and four
privileged instructions. All are 32 bits wide; the C extension is left out.

Facts (from knowledge of it: README.md): The RISC-V Instruction Set Manual, Volume I (unprivileged): the chapter "RV32/64G Instruction Set Listings", and for
the later extensions the encodings in their own chapters (Zfh; "B" with Zba, Zbb, Zbc, Zbs; scalar cryptography with Zbkb,
Zbkx; Zicond; CMO with Zicbom, Zicbop, Zicboz). SRET, MRET, WFI and SFENCE.VMA are from Volume II (privileged), the listing
of its instructions.

Letters: d rd, s rs1, t rs2, u rs3, i immediate or offset, h shift amount, m rounding mode, a aq and rl, c CSR, f p n of
FENCE. The encodings are those of RV64 (shift amounts of six bits; REV8 and ZEXT.H as RV64 has them).

Signed are the immediates and offsets that the encoding has in one piece: the 12 bits of loads, JALR and ADDI .. ANDI, ADDIW (SLTIU's are
sign-extended too, before it compares without a sign), the 20 bits of LUI and AUIPC, which count steps of 4096, and the 7 bits of
PREFETCH, which count steps of 32. Those of branches, JAL and stores are in pieces or out of order, so they are plain, piece by piece.
Shift amounts, CSRs and CSRRWI's number have no sign.

Special cases that the most-specific rule resolves: FENCE.TSO and PAUSE in FENCE, ZEXT.H in PACKW, PREFETCH.I, .R and .W in
ORI. A reserved rounding mode (5, 6) is a matter of the field m: the manual lists each instruction once, for every m.
Assemblers' names for special cases are left out: NOP, LI, MV, NOT, NEG, SEXT.W, ZEXT.W, RET, J, JR, BEQZ, CSRR, FMV.S,
FABS.S, FNEG.S ..
"""

from patterns import InstructionSet, listed

BASE = listed("""
    LUI         iiiiiiiiiiiiiiiiiiii ddddd 0110111 : i signed
    AUIPC       iiiiiiiiiiiiiiiiiiii ddddd 0010111 : i signed
    JAL         iiiiiiiiiiiiiiiiiiii ddddd 1101111
    JALR        iiiiiiiiiiii sssss 000 ddddd 1100111 : i signed
    BEQ         iiiiiii ttttt sssss 000 iiiii 1100011
    BNE         iiiiiii ttttt sssss 001 iiiii 1100011
    BLT         iiiiiii ttttt sssss 100 iiiii 1100011
    BGE         iiiiiii ttttt sssss 101 iiiii 1100011
    BLTU        iiiiiii ttttt sssss 110 iiiii 1100011
    BGEU        iiiiiii ttttt sssss 111 iiiii 1100011
    LB          iiiiiiiiiiii sssss 000 ddddd 0000011 : i signed
    LH          iiiiiiiiiiii sssss 001 ddddd 0000011 : i signed
    LW          iiiiiiiiiiii sssss 010 ddddd 0000011 : i signed
    LD          iiiiiiiiiiii sssss 011 ddddd 0000011 : i signed
    LBU         iiiiiiiiiiii sssss 100 ddddd 0000011 : i signed
    LHU         iiiiiiiiiiii sssss 101 ddddd 0000011 : i signed
    LWU         iiiiiiiiiiii sssss 110 ddddd 0000011 : i signed
    SB          iiiiiii ttttt sssss 000 iiiii 0100011
    SH          iiiiiii ttttt sssss 001 iiiii 0100011
    SW          iiiiiii ttttt sssss 010 iiiii 0100011
    SD          iiiiiii ttttt sssss 011 iiiii 0100011
    ADDI        iiiiiiiiiiii sssss 000 ddddd 0010011 : i signed
    SLTI        iiiiiiiiiiii sssss 010 ddddd 0010011 : i signed
    SLTIU       iiiiiiiiiiii sssss 011 ddddd 0010011 : i signed
    XORI        iiiiiiiiiiii sssss 100 ddddd 0010011 : i signed
    ORI         iiiiiiiiiiii sssss 110 ddddd 0010011 : i signed
    ANDI        iiiiiiiiiiii sssss 111 ddddd 0010011 : i signed
    SLLI        000000 hhhhhh sssss 001 ddddd 0010011
    SRLI        000000 hhhhhh sssss 101 ddddd 0010011
    SRAI        010000 hhhhhh sssss 101 ddddd 0010011
    ADD         0000000 ttttt sssss 000 ddddd 0110011
    SUB         0100000 ttttt sssss 000 ddddd 0110011
    SLL         0000000 ttttt sssss 001 ddddd 0110011
    SLT         0000000 ttttt sssss 010 ddddd 0110011
    SLTU        0000000 ttttt sssss 011 ddddd 0110011
    XOR         0000000 ttttt sssss 100 ddddd 0110011
    SRL         0000000 ttttt sssss 101 ddddd 0110011
    SRA         0100000 ttttt sssss 101 ddddd 0110011
    OR          0000000 ttttt sssss 110 ddddd 0110011
    AND         0000000 ttttt sssss 111 ddddd 0110011
    ADDIW       iiiiiiiiiiii sssss 000 ddddd 0011011 : i signed
    SLLIW       0000000 hhhhh sssss 001 ddddd 0011011
    SRLIW       0000000 hhhhh sssss 101 ddddd 0011011
    SRAIW       0100000 hhhhh sssss 101 ddddd 0011011
    ADDW        0000000 ttttt sssss 000 ddddd 0111011
    SUBW        0100000 ttttt sssss 000 ddddd 0111011
    SLLW        0000000 ttttt sssss 001 ddddd 0111011
    SRLW        0000000 ttttt sssss 101 ddddd 0111011
    SRAW        0100000 ttttt sssss 101 ddddd 0111011
    FENCE       ffff pppp nnnn sssss 000 ddddd 0001111   # every fm, rs1 and rd: a base implementation ignores them
    FENCE.TSO   1000 0011 0011 00000 000 00000 0001111
    PAUSE       0000 0001 0000 00000 000 00000 0001111   # Zihintpause
    FENCE.I     iiiiiiiiiiii sssss 001 ddddd 0001111     # Zifencei; a base implementation ignores the fields
    ECALL       000000000000 00000 000 00000 1110011
    EBREAK      000000000001 00000 000 00000 1110011
    CSRRW       cccccccccccc sssss 001 ddddd 1110011     # Zicsr
    CSRRS       cccccccccccc sssss 010 ddddd 1110011
    CSRRC       cccccccccccc sssss 011 ddddd 1110011
    CSRRWI      cccccccccccc iiiii 101 ddddd 1110011
    CSRRSI      cccccccccccc iiiii 110 ddddd 1110011
    CSRRCI      cccccccccccc iiiii 111 ddddd 1110011
""")

PRIVILEGED = listed("""
    SRET        0001000 00010 00000 000 00000 1110011
    MRET        0011000 00010 00000 000 00000 1110011
    WFI         0001000 00101 00000 000 00000 1110011
    SFENCE.VMA  0001001 ttttt sssss 000 00000 1110011
""")

MULTIPLY = listed("""
    MUL         0000001 ttttt sssss 000 ddddd 0110011
    MULH        0000001 ttttt sssss 001 ddddd 0110011
    MULHSU      0000001 ttttt sssss 010 ddddd 0110011
    MULHU       0000001 ttttt sssss 011 ddddd 0110011
    DIV         0000001 ttttt sssss 100 ddddd 0110011
    DIVU        0000001 ttttt sssss 101 ddddd 0110011
    REM         0000001 ttttt sssss 110 ddddd 0110011
    REMU        0000001 ttttt sssss 111 ddddd 0110011
    MULW        0000001 ttttt sssss 000 ddddd 0111011
    DIVW        0000001 ttttt sssss 100 ddddd 0111011
    DIVUW       0000001 ttttt sssss 101 ddddd 0111011
    REMW        0000001 ttttt sssss 110 ddddd 0111011
    REMUW       0000001 ttttt sssss 111 ddddd 0111011
""")

# Each also with 011 for 010 and .D for .W.
ATOMIC_WORD = """
    LR.W        00010 aa 00000 sssss 010 ddddd 0101111
    SC.W        00011 aa ttttt sssss 010 ddddd 0101111
    AMOSWAP.W   00001 aa ttttt sssss 010 ddddd 0101111
    AMOADD.W    00000 aa ttttt sssss 010 ddddd 0101111
    AMOXOR.W    00100 aa ttttt sssss 010 ddddd 0101111
    AMOAND.W    01100 aa ttttt sssss 010 ddddd 0101111
    AMOOR.W     01000 aa ttttt sssss 010 ddddd 0101111
    AMOMIN.W    10000 aa ttttt sssss 010 ddddd 0101111
    AMOMAX.W    10100 aa ttttt sssss 010 ddddd 0101111
    AMOMINU.W   11000 aa ttttt sssss 010 ddddd 0101111
    AMOMAXU.W   11100 aa ttttt sssss 010 ddddd 0101111
"""

# Each with three formats: @ stands for S, D or H in a name, @@ for its two bits in a pattern.
FLOATING = """
    FMADD.@     uuuuu @@ ttttt sssss mmm ddddd 1000011
    FMSUB.@     uuuuu @@ ttttt sssss mmm ddddd 1000111
    FNMSUB.@    uuuuu @@ ttttt sssss mmm ddddd 1001011
    FNMADD.@    uuuuu @@ ttttt sssss mmm ddddd 1001111
    FADD.@      00000 @@ ttttt sssss mmm ddddd 1010011
    FSUB.@      00001 @@ ttttt sssss mmm ddddd 1010011
    FMUL.@      00010 @@ ttttt sssss mmm ddddd 1010011
    FDIV.@      00011 @@ ttttt sssss mmm ddddd 1010011
    FSQRT.@     01011 @@ 00000 sssss mmm ddddd 1010011
    FSGNJ.@     00100 @@ ttttt sssss 000 ddddd 1010011
    FSGNJN.@    00100 @@ ttttt sssss 001 ddddd 1010011
    FSGNJX.@    00100 @@ ttttt sssss 010 ddddd 1010011
    FMIN.@      00101 @@ ttttt sssss 000 ddddd 1010011
    FMAX.@      00101 @@ ttttt sssss 001 ddddd 1010011
    FLE.@       10100 @@ ttttt sssss 000 ddddd 1010011
    FLT.@       10100 @@ ttttt sssss 001 ddddd 1010011
    FEQ.@       10100 @@ ttttt sssss 010 ddddd 1010011
    FCLASS.@    11100 @@ 00000 sssss 001 ddddd 1010011
    FCVT.W.@    11000 @@ 00000 sssss mmm ddddd 1010011
    FCVT.WU.@   11000 @@ 00001 sssss mmm ddddd 1010011
    FCVT.L.@    11000 @@ 00010 sssss mmm ddddd 1010011
    FCVT.LU.@   11000 @@ 00011 sssss mmm ddddd 1010011
    FCVT.@.W    11010 @@ 00000 sssss mmm ddddd 1010011
    FCVT.@.WU   11010 @@ 00001 sssss mmm ddddd 1010011
    FCVT.@.L    11010 @@ 00010 sssss mmm ddddd 1010011
    FCVT.@.LU   11010 @@ 00011 sssss mmm ddddd 1010011
"""

FLOATING_OTHER = listed("""
    FLH         iiiiiiiiiiii sssss 001 ddddd 0000111 : i signed
    FLW         iiiiiiiiiiii sssss 010 ddddd 0000111 : i signed
    FLD         iiiiiiiiiiii sssss 011 ddddd 0000111 : i signed
    FSH         iiiiiii ttttt sssss 001 iiiii 0100111
    FSW         iiiiiii ttttt sssss 010 iiiii 0100111
    FSD         iiiiiii ttttt sssss 011 iiiii 0100111
    FCVT.S.D    0100000 00001 sssss mmm ddddd 1010011
    FCVT.S.H    0100000 00010 sssss mmm ddddd 1010011
    FCVT.D.S    0100001 00000 sssss mmm ddddd 1010011
    FCVT.D.H    0100001 00010 sssss mmm ddddd 1010011
    FCVT.H.S    0100010 00000 sssss mmm ddddd 1010011
    FCVT.H.D    0100010 00001 sssss mmm ddddd 1010011
    FMV.X.W     1110000 00000 sssss 000 ddddd 1010011
    FMV.X.D     1110001 00000 sssss 000 ddddd 1010011
    FMV.X.H     1110010 00000 sssss 000 ddddd 1010011
    FMV.W.X     1111000 00000 sssss 000 ddddd 1010011
    FMV.D.X     1111001 00000 sssss 000 ddddd 1010011
    FMV.H.X     1111010 00000 sssss 000 ddddd 1010011
""")

BITS = listed("""
    ADD.UW      0000100 ttttt sssss 000 ddddd 0111011   # Zba
    SH1ADD      0010000 ttttt sssss 010 ddddd 0110011
    SH2ADD      0010000 ttttt sssss 100 ddddd 0110011
    SH3ADD      0010000 ttttt sssss 110 ddddd 0110011
    SH1ADD.UW   0010000 ttttt sssss 010 ddddd 0111011
    SH2ADD.UW   0010000 ttttt sssss 100 ddddd 0111011
    SH3ADD.UW   0010000 ttttt sssss 110 ddddd 0111011
    SLLI.UW     000010 hhhhhh sssss 001 ddddd 0011011
    ANDN        0100000 ttttt sssss 111 ddddd 0110011   # Zbb
    ORN         0100000 ttttt sssss 110 ddddd 0110011
    XNOR        0100000 ttttt sssss 100 ddddd 0110011
    CLZ         0110000 00000 sssss 001 ddddd 0010011
    CTZ         0110000 00001 sssss 001 ddddd 0010011
    CPOP        0110000 00010 sssss 001 ddddd 0010011
    SEXT.B      0110000 00100 sssss 001 ddddd 0010011
    SEXT.H      0110000 00101 sssss 001 ddddd 0010011
    CLZW        0110000 00000 sssss 001 ddddd 0011011
    CTZW        0110000 00001 sssss 001 ddddd 0011011
    CPOPW       0110000 00010 sssss 001 ddddd 0011011
    MIN         0000101 ttttt sssss 100 ddddd 0110011
    MINU        0000101 ttttt sssss 101 ddddd 0110011
    MAX         0000101 ttttt sssss 110 ddddd 0110011
    MAXU        0000101 ttttt sssss 111 ddddd 0110011
    ZEXT.H      0000100 00000 sssss 100 ddddd 0111011
    ROL         0110000 ttttt sssss 001 ddddd 0110011
    ROR         0110000 ttttt sssss 101 ddddd 0110011
    RORI        011000 hhhhhh sssss 101 ddddd 0010011
    ROLW        0110000 ttttt sssss 001 ddddd 0111011
    RORW        0110000 ttttt sssss 101 ddddd 0111011
    RORIW       0110000 hhhhh sssss 101 ddddd 0011011
    ORC.B       001010000111 sssss 101 ddddd 0010011
    REV8        011010111000 sssss 101 ddddd 0010011
    CLMUL       0000101 ttttt sssss 001 ddddd 0110011   # Zbc
    CLMULR      0000101 ttttt sssss 010 ddddd 0110011
    CLMULH      0000101 ttttt sssss 011 ddddd 0110011
    BCLR        0100100 ttttt sssss 001 ddddd 0110011   # Zbs
    BEXT        0100100 ttttt sssss 101 ddddd 0110011
    BINV        0110100 ttttt sssss 001 ddddd 0110011
    BSET        0010100 ttttt sssss 001 ddddd 0110011
    BCLRI       010010 hhhhhh sssss 001 ddddd 0010011
    BEXTI       010010 hhhhhh sssss 101 ddddd 0010011
    BINVI       011010 hhhhhh sssss 001 ddddd 0010011
    BSETI       001010 hhhhhh sssss 001 ddddd 0010011
    PACK        0000100 ttttt sssss 100 ddddd 0110011   # Zbkb
    PACKH       0000100 ttttt sssss 111 ddddd 0110011
    PACKW       0000100 ttttt sssss 100 ddddd 0111011
    BREV8       011010000111 sssss 101 ddddd 0010011
    XPERM4      0010100 ttttt sssss 010 ddddd 0110011   # Zbkx
    XPERM8      0010100 ttttt sssss 100 ddddd 0110011
    CZERO.EQZ   0000111 ttttt sssss 101 ddddd 0110011   # Zicond
    CZERO.NEZ   0000111 ttttt sssss 111 ddddd 0110011
""")

CACHE = listed("""
    CBO.INVAL   000000000000 sssss 010 00000 0001111    # Zicbom
    CBO.CLEAN   000000000001 sssss 010 00000 0001111
    CBO.FLUSH   000000000010 sssss 010 00000 0001111
    CBO.ZERO    000000000100 sssss 010 00000 0001111    # Zicboz
    PREFETCH.I  iiiiiii 00000 sssss 110 00000 0010011 : i signed   # Zicbop
    PREFETCH.R  iiiiiii 00001 sssss 110 00000 0010011 : i signed
    PREFETCH.W  iiiiiii 00011 sssss 110 00000 0010011 : i signed
""")


def atomic():
    return listed(ATOMIC_WORD) + listed(ATOMIC_WORD.replace(".W ", ".D ").replace(" 010 ", " 011 "))


def floating():
    return [one for letter, bits in (("S", "00"), ("D", "01"), ("H", "10"))
            for one in listed(FLOATING.replace("@@", bits).replace("@", letter))]


SET = InstructionSet("riscv", 32, tuple(BASE + PRIVILEGED + MULTIPLY + atomic() + floating() + FLOATING_OTHER + BITS + CACHE))
