"""A32, the 32-bit ARM instructions of ARMv7-A without Advanced SIMD, VFP and the second coprocessor
instructions (CDP2 to STC2).

Facts (from knowledge of it: README.md): ARM Architecture Reference Manual, ARMv7-A and ARMv7-R edition (ARM DDI 0406C), chapter A5 "ARM Instruction Set
Encoding" (its tables) and the encodings A1 in chapters A8 and B9. Data processing is laid out as in the earlier manual (ARM
DDI 0100I, A3.4 and A5.1): one pattern for an operation, with bit 25 (I) and the shifter operand as fields.

What the manual says by exclusion is an exclusion condition here: cond = 1111 is another space (NEVER); data processing with
I = 0 and bits 7 and 4 set is multiplies and extra loads and stores (EXTRA); loads and stores with bits 25 and 4 set are
media instructions (MEDIA_SPACE); coprocessors 10 and 11 are VFP and Advanced SIMD (VECTOR); and a few more below. What it says by
"SEE" is left to the most-specific rule: ADR in ADD and SUB, LDRT .. in LDR .., LDRHT .. in LDRH .., POP in LDM, PUSH in
STMDB, SXTB .. in SXTAB .., BFC in BFI, USAD8 in USADA8, SMUAD in SMLAD, SMUSD in SMLSD, SMMUL in SMMLA; and NOP .. in HINT. HINT and
MEMORY HINT are the hints that the manual leaves unallocated: they do nothing there, and are not UNDEFINED.

A bit in brackets in the manual ("should be") is an opcode bit: other words are UNPREDICTABLE there and select nothing here.
What depends on a register's number only (odd Rt of LDRD, Rd = 15 with S: SUBS PC, LR) is left to the fields. Aliases are
left out: LSL, LSR, ASR, ROR, RRX (MOV), the literal forms (Rn = 15), PUSH and POP of one register (STR, LDR). One entry has
both SWP and SWPB.

Letters: c cond, S sets flags, n d t m a registers Rn Rd Rt Rm Ra, o shifter operand or offset, i immediate, P U W
addressing, r list.

The 24 bits of B, BL and BLX count words from the instruction after the next, in two's complement. No other field has a sign: an offset
is added or subtracted by U.
"""

from patterns import InstructionSet, Unless, listed

NEVER = Unless("1111")
EXTRA = Unless("---- --0- ---- ---- ---- ---- 1--1")
MEDIA_SPACE = Unless("---- --1- ---- ---- ---- ---- ---1")
NO_MASK = Unless("---- ---- ---- 0000")                     # MSR of no part: hints if immediate, else UNPREDICTABLE
POST_WRITEBACK = Unless("---- ---0 --1-")                   # P = 0, W = 1: LDRD and STRD have no unprivileged form
VECTOR = Unless("---- ---- ---- ---- ---- 101-")
NO_ADDRESSING = Unless("---- ---0 0-0-")                    # P = U = W = 0: MCRR and MRRC, or UNDEFINED
LITERAL = Unless("---- ---- ---- 1111")                     # Rn = 15

DATA_PROCESSING = listed("""
    AND         cccc 00I0 000S nnnn dddd oooo oooo oooo
    EOR         cccc 00I0 001S nnnn dddd oooo oooo oooo
    SUB         cccc 00I0 010S nnnn dddd oooo oooo oooo
    RSB         cccc 00I0 011S nnnn dddd oooo oooo oooo
    ADD         cccc 00I0 100S nnnn dddd oooo oooo oooo
    ADC         cccc 00I0 101S nnnn dddd oooo oooo oooo
    SBC         cccc 00I0 110S nnnn dddd oooo oooo oooo
    RSC         cccc 00I0 111S nnnn dddd oooo oooo oooo
    TST         cccc 00I1 0001 nnnn 0000 oooo oooo oooo
    TEQ         cccc 00I1 0011 nnnn 0000 oooo oooo oooo
    CMP         cccc 00I1 0101 nnnn 0000 oooo oooo oooo
    CMN         cccc 00I1 0111 nnnn 0000 oooo oooo oooo
    ORR         cccc 00I1 100S nnnn dddd oooo oooo oooo
    MOV         cccc 00I1 101S 0000 dddd oooo oooo oooo
    BIC         cccc 00I1 110S nnnn dddd oooo oooo oooo
    MVN         cccc 00I1 111S 0000 dddd oooo oooo oooo
""", NEVER, EXTRA)

IMMEDIATE = listed("""
    ADR         cccc 0010 1000 1111 dddd iiii iiii iiii   # after this instruction: ADD of PC
    ADR         cccc 0010 0100 1111 dddd iiii iiii iiii   # before it: SUB of PC
    MOVW        cccc 0011 0000 iiii dddd iiii iiii iiii
    MOVT        cccc 0011 0100 iiii dddd iiii iiii iiii
    NOP         cccc 0011 0010 0000 1111 0000 0000 0000
    YIELD       cccc 0011 0010 0000 1111 0000 0000 0001
    WFE         cccc 0011 0010 0000 1111 0000 0000 0010
    WFI         cccc 0011 0010 0000 1111 0000 0000 0011
    SEV         cccc 0011 0010 0000 1111 0000 0000 0100
    DBG         cccc 0011 0010 0000 1111 0000 1111 oooo
""", NEVER)

STATUS = listed("""
    MSR         cccc 0011 0R10 kkkk 1111 iiii iiii iiii
    MSR         cccc 0001 0R10 kkkk 1111 0000 0000 nnnn
""", NEVER, NO_MASK)

MISCELLANEOUS = listed("""
    MRS         cccc 0001 0R00 1111 dddd 0000 0000 0000
    BX          cccc 0001 0010 1111 1111 1111 0001 mmmm
    BXJ         cccc 0001 0010 1111 1111 1111 0010 mmmm
    BLX         cccc 0001 0010 1111 1111 1111 0011 mmmm
    CLZ         cccc 0001 0110 1111 dddd 1111 0001 mmmm
    QADD        cccc 0001 0000 nnnn dddd 0000 0101 mmmm
    QSUB        cccc 0001 0010 nnnn dddd 0000 0101 mmmm
    QDADD       cccc 0001 0100 nnnn dddd 0000 0101 mmmm
    QDSUB       cccc 0001 0110 nnnn dddd 0000 0101 mmmm
    ERET        cccc 0001 0110 0000 0000 0000 0110 1110
    SMC         cccc 0001 0110 0000 0000 0000 0111 iiii
    SMLAxy      cccc 0001 0000 dddd aaaa mmmm 1MN0 nnnn
    SMLAWy      cccc 0001 0010 dddd aaaa mmmm 1M00 nnnn
    SMULWy      cccc 0001 0010 dddd 0000 mmmm 1M10 nnnn
    SMLALxy     cccc 0001 0100 dddd aaaa mmmm 1MN0 nnnn
    SMULxy      cccc 0001 0110 dddd 0000 mmmm 1MN0 nnnn
""", NEVER)

# Another condition than AL (1110) is UNPREDICTABLE for these.
ALWAYS = listed("""
    BKPT        1110 0001 0010 iiii iiii iiii 0111 iiii
    HVC         1110 0001 0100 iiii iiii iiii 0111 iiii
    UDF         1110 0111 1111 iiii iiii iiii 1111 iiii
""")

MULTIPLY = listed("""
    MUL         cccc 0000 000S dddd 0000 mmmm 1001 nnnn
    MLA         cccc 0000 001S dddd aaaa mmmm 1001 nnnn
    UMAAL       cccc 0000 0100 dddd aaaa mmmm 1001 nnnn
    MLS         cccc 0000 0110 dddd aaaa mmmm 1001 nnnn
    UMULL       cccc 0000 100S dddd aaaa mmmm 1001 nnnn
    UMLAL       cccc 0000 101S dddd aaaa mmmm 1001 nnnn
    SMULL       cccc 0000 110S dddd aaaa mmmm 1001 nnnn
    SMLAL       cccc 0000 111S dddd aaaa mmmm 1001 nnnn
""", NEVER)

SYNCHRONIZATION = listed("""
    SWP         cccc 0001 0B00 nnnn tttt 0000 1001 mmmm
    STREX       cccc 0001 1000 nnnn dddd 1111 1001 tttt
    LDREX       cccc 0001 1001 nnnn tttt 1111 1001 1111
    STREXD      cccc 0001 1010 nnnn dddd 1111 1001 tttt
    LDREXD      cccc 0001 1011 nnnn tttt 1111 1001 1111
    STREXB      cccc 0001 1100 nnnn dddd 1111 1001 tttt
    LDREXB      cccc 0001 1101 nnnn tttt 1111 1001 1111
    STREXH      cccc 0001 1110 nnnn dddd 1111 1001 tttt
    LDREXH      cccc 0001 1111 nnnn tttt 1111 1001 1111
""", NEVER)

# The register form first, then the immediate form.
EXTRA_LOADS_AND_STORES = listed("""
    STRH        cccc 000P U0W0 nnnn tttt 0000 1011 mmmm
    STRH        cccc 000P U1W0 nnnn tttt iiii 1011 iiii
    LDRH        cccc 000P U0W1 nnnn tttt 0000 1011 mmmm
    LDRH        cccc 000P U1W1 nnnn tttt iiii 1011 iiii
    LDRSB       cccc 000P U0W1 nnnn tttt 0000 1101 mmmm
    LDRSB       cccc 000P U1W1 nnnn tttt iiii 1101 iiii
    LDRSH       cccc 000P U0W1 nnnn tttt 0000 1111 mmmm
    LDRSH       cccc 000P U1W1 nnnn tttt iiii 1111 iiii
    STRHT       cccc 0000 U010 nnnn tttt 0000 1011 mmmm
    STRHT       cccc 0000 U110 nnnn tttt iiii 1011 iiii
    LDRHT       cccc 0000 U011 nnnn tttt 0000 1011 mmmm
    LDRHT       cccc 0000 U111 nnnn tttt iiii 1011 iiii
    LDRSBT      cccc 0000 U011 nnnn tttt 0000 1101 mmmm
    LDRSBT      cccc 0000 U111 nnnn tttt iiii 1101 iiii
    LDRSHT      cccc 0000 U011 nnnn tttt 0000 1111 mmmm
    LDRSHT      cccc 0000 U111 nnnn tttt iiii 1111 iiii
""", NEVER)

DOUBLE = listed("""
    LDRD        cccc 000P U0W0 nnnn tttt 0000 1101 mmmm
    LDRD        cccc 000P U1W0 nnnn tttt iiii 1101 iiii
    STRD        cccc 000P U0W0 nnnn tttt 0000 1111 mmmm
    STRD        cccc 000P U1W0 nnnn tttt iiii 1111 iiii
""", NEVER, POST_WRITEBACK)

LOADS_AND_STORES = listed("""
    STR         cccc 01RP U0W0 nnnn tttt oooo oooo oooo
    LDR         cccc 01RP U0W1 nnnn tttt oooo oooo oooo
    STRB        cccc 01RP U1W0 nnnn tttt oooo oooo oooo
    LDRB        cccc 01RP U1W1 nnnn tttt oooo oooo oooo
    STRT        cccc 01R0 U010 nnnn tttt oooo oooo oooo
    LDRT        cccc 01R0 U011 nnnn tttt oooo oooo oooo
    STRBT       cccc 01R0 U110 nnnn tttt oooo oooo oooo
    LDRBT       cccc 01R0 U111 nnnn tttt oooo oooo oooo
""", NEVER, MEDIA_SPACE)

# The parallel additions and subtractions: three bits for how the result is kept, three for the operation.
PARALLEL_KINDS = (("S", "001"), ("Q", "010"), ("SH", "011"), ("U", "101"), ("UQ", "110"), ("UH", "111"))
PARALLEL_OPERATIONS = (("ADD16", "000"), ("ASX", "001"), ("SAX", "010"), ("SUB16", "011"), ("ADD8", "100"), ("SUB8", "111"))

MEDIA = listed("""
    PKH         cccc 0110 1000 nnnn dddd iiii iT01 mmmm
    SEL         cccc 0110 1000 nnnn dddd 1111 1011 mmmm
    SSAT        cccc 0110 101s ssss dddd iiii ih01 nnnn
    USAT        cccc 0110 111s ssss dddd iiii ih01 nnnn
    SSAT16      cccc 0110 1010 ssss dddd 1111 0011 nnnn
    USAT16      cccc 0110 1110 ssss dddd 1111 0011 nnnn
    SXTAB16     cccc 0110 1000 nnnn dddd rr00 0111 mmmm
    SXTB16      cccc 0110 1000 1111 dddd rr00 0111 mmmm
    SXTAB       cccc 0110 1010 nnnn dddd rr00 0111 mmmm
    SXTB        cccc 0110 1010 1111 dddd rr00 0111 mmmm
    SXTAH       cccc 0110 1011 nnnn dddd rr00 0111 mmmm
    SXTH        cccc 0110 1011 1111 dddd rr00 0111 mmmm
    UXTAB16     cccc 0110 1100 nnnn dddd rr00 0111 mmmm
    UXTB16      cccc 0110 1100 1111 dddd rr00 0111 mmmm
    UXTAB       cccc 0110 1110 nnnn dddd rr00 0111 mmmm
    UXTB        cccc 0110 1110 1111 dddd rr00 0111 mmmm
    UXTAH       cccc 0110 1111 nnnn dddd rr00 0111 mmmm
    UXTH        cccc 0110 1111 1111 dddd rr00 0111 mmmm
    REV         cccc 0110 1011 1111 dddd 1111 0011 mmmm
    REV16       cccc 0110 1011 1111 dddd 1111 1011 mmmm
    RBIT        cccc 0110 1111 1111 dddd 1111 0011 mmmm
    REVSH       cccc 0110 1111 1111 dddd 1111 1011 mmmm
    SMLAD       cccc 0111 0000 dddd aaaa mmmm 00M1 nnnn
    SMUAD       cccc 0111 0000 dddd 1111 mmmm 00M1 nnnn
    SMLSD       cccc 0111 0000 dddd aaaa mmmm 01M1 nnnn
    SMUSD       cccc 0111 0000 dddd 1111 mmmm 01M1 nnnn
    SDIV        cccc 0111 0001 dddd 1111 mmmm 0001 nnnn
    UDIV        cccc 0111 0011 dddd 1111 mmmm 0001 nnnn
    SMLALD      cccc 0111 0100 dddd aaaa mmmm 00M1 nnnn
    SMLSLD      cccc 0111 0100 dddd aaaa mmmm 01M1 nnnn
    SMMLA       cccc 0111 0101 dddd aaaa mmmm 00R1 nnnn
    SMMUL       cccc 0111 0101 dddd 1111 mmmm 00R1 nnnn
    SMMLS       cccc 0111 0101 dddd aaaa mmmm 11R1 nnnn
    USADA8      cccc 0111 1000 dddd aaaa mmmm 0001 nnnn
    USAD8       cccc 0111 1000 dddd 1111 mmmm 0001 nnnn
    SBFX        cccc 0111 101w wwww dddd llll l101 nnnn
    UBFX        cccc 0111 111w wwww dddd llll l101 nnnn
    BFI         cccc 0111 110w wwww dddd llll l001 nnnn
    BFC         cccc 0111 110w wwww dddd llll l001 1111
""", NEVER)

BLOCK_AND_BRANCH = listed("""
    STMDA       cccc 1000 00W0 nnnn rrrr rrrr rrrr rrrr
    LDMDA       cccc 1000 00W1 nnnn rrrr rrrr rrrr rrrr
    STM         cccc 1000 10W0 nnnn rrrr rrrr rrrr rrrr
    LDM         cccc 1000 10W1 nnnn rrrr rrrr rrrr rrrr
    STMDB       cccc 1001 00W0 nnnn rrrr rrrr rrrr rrrr
    LDMDB       cccc 1001 00W1 nnnn rrrr rrrr rrrr rrrr
    STMIB       cccc 1001 10W0 nnnn rrrr rrrr rrrr rrrr
    LDMIB       cccc 1001 10W1 nnnn rrrr rrrr rrrr rrrr
    POP         cccc 1000 1011 1101 rrrr rrrr rrrr rrrr
    PUSH        cccc 1001 0010 1101 rrrr rrrr rrrr rrrr
    STM user    cccc 100P U100 nnnn rrrr rrrr rrrr rrrr
    LDM user    cccc 100P U101 nnnn 0rrr rrrr rrrr rrrr
    LDM return  cccc 100P U1W1 nnnn 1rrr rrrr rrrr rrrr
    B           cccc 1010 iiii iiii iiii iiii iiii iiii : i signed
    BL          cccc 1011 iiii iiii iiii iiii iiii iiii : i signed
    SVC         cccc 1111 iiii iiii iiii iiii iiii iiii
""", NEVER)

# a: P, U, D and W. p: the coprocessor.
COPROCESSOR_MEMORY = listed("""
    STC         cccc 110a aaa0 nnnn dddd pppp iiii iiii
    LDC         cccc 110a aaa1 nnnn dddd pppp iiii iiii
""", NEVER, VECTOR, NO_ADDRESSING)

COPROCESSOR = listed("""
    MCRR        cccc 1100 0100 tttt dddd pppp oooo mmmm
    MRRC        cccc 1100 0101 tttt dddd pppp oooo mmmm
    CDP         cccc 1110 oooo nnnn dddd pppp qqq0 mmmm
    MCR         cccc 1110 ooo0 nnnn tttt pppp qqq1 mmmm
    MRC         cccc 1110 ooo1 nnnn tttt pppp qqq1 mmmm
""", NEVER, VECTOR)

UNCONDITIONAL = listed("""
    BLX         1111 101H iiii iiii iiii iiii iiii iiii : i signed
    CPS         1111 0001 0000 iiM0 0000 000A IF0m mmmm
    SETEND      1111 0001 0000 0001 0000 00E0 0000 0000
    PLI         1111 0100 U101 nnnn 1111 iiii iiii iiii
    PLI         1111 0110 U101 nnnn 1111 iiii itt0 mmmm
    PLD         1111 0101 U101 nnnn 1111 iiii iiii iiii
    PLD         1111 0111 U101 nnnn 1111 iiii itt0 mmmm
    CLREX       1111 0101 0111 1111 1111 0000 0001 1111
    DSB         1111 0101 0111 1111 1111 0000 0100 oooo
    DMB         1111 0101 0111 1111 1111 0000 0101 oooo
    ISB         1111 0101 0111 1111 1111 0000 0110 oooo
    RFE         1111 100P U0W1 nnnn 0000 1010 0000 0000
    SRS         1111 100P U1W0 1101 0000 0101 000m mmmm
""")

# Rn = 15 is UNPREDICTABLE for PLDW of an immediate: only PLD has a literal form.
WRITE_PRELOAD = listed("PLDW        1111 0101 U001 nnnn 1111 iiii iiii iiii", LITERAL) \
    + listed("PLDW        1111 0111 U001 nnnn 1111 iiii itt0 mmmm")


HINTS = listed("HINT        cccc 0011 0010 0000 1111 0000 hhhh hhhh", NEVER) + listed("""
    MEMORY HINT  1111 0100 U001 hhhh hhhh hhhh hhhh hhhh
    MEMORY HINT  1111 0110 U001 hhhh hhhh hhhh hhh0 hhhh
""")


def parallel():
    """SADD16 to UHSUB8."""
    lines = [f"{kind}{operation}  cccc 0110 0{first} nnnn dddd 1111 {second}1 mmmm"
             for kind, first in PARALLEL_KINDS for operation, second in PARALLEL_OPERATIONS]
    return listed("\n".join(lines), NEVER)


SET = InstructionSet("a32", 32, tuple(
    DATA_PROCESSING + IMMEDIATE + STATUS + MISCELLANEOUS + ALWAYS + MULTIPLY + SYNCHRONIZATION
    + EXTRA_LOADS_AND_STORES + DOUBLE + LOADS_AND_STORES + parallel() + MEDIA + BLOCK_AND_BRANCH
    + COPROCESSOR_MEMORY + COPROCESSOR + UNCONDITIONAL + WRITE_PRELOAD + HINTS))
