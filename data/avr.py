"""AVR, the 8-bit core with all its optional instructions: 16-bit instructions, and LDS, STS, JMP, CALL of 32 bits.

Facts (from knowledge of it: README.md): AVR Instruction Set Manual (Microchip DS40002198, formerly Atmel 0856), the "16-bit Opcode" or "32-bit Opcode" box in
the description of each instruction. The set is that of AVRe+ and AVRxm together; the 16-bit LDS and STS of AVRrc lie on the
patterns of LDD and STD and are left out. Width 32: the first halfword of an instruction is the word's upper half, as the
lister has it.

No alias is listed, because an alias is an encoding that is already here: LSL (ADD), ROL (ADC), TST (AND), CLR (EOR), SER
(LDI), SBR (ORI), CBR (ANDI), BREQ and the other named branches (BRBS, BRBC), SEC.. and CLC.. (BSET, BCLR), LD Rd,Y and LD
Rd,Z (LDD with displacement 0), ST Y and ST Z (STD). No two patterns overlap.

The k of relative jumps, calls and branches counts words from the next instruction, in two's complement. The other constants are plain:
K and q count from zero, and the k of JMP, CALL, LDS and STS is an address.
"""

from patterns import InstructionSet, listed

INSTRUCTIONS = listed("""
    NOP         0000 0000 0000 0000
    MOVW        0000 0001 dddd rrrr
    MULS        0000 0010 dddd rrrr
    MULSU       0000 0011 0ddd 0rrr
    FMUL        0000 0011 0ddd 1rrr
    FMULS       0000 0011 1ddd 0rrr
    FMULSU      0000 0011 1ddd 1rrr
    CPC         0000 01rd dddd rrrr
    SBC         0000 10rd dddd rrrr
    ADD         0000 11rd dddd rrrr
    CPSE        0001 00rd dddd rrrr
    CP          0001 01rd dddd rrrr
    SUB         0001 10rd dddd rrrr
    ADC         0001 11rd dddd rrrr
    AND         0010 00rd dddd rrrr
    EOR         0010 01rd dddd rrrr
    OR          0010 10rd dddd rrrr
    MOV         0010 11rd dddd rrrr
    CPI         0011 KKKK dddd KKKK
    SBCI        0100 KKKK dddd KKKK
    SUBI        0101 KKKK dddd KKKK
    ORI         0110 KKKK dddd KKKK
    ANDI        0111 KKKK dddd KKKK
    LDD Z       10q0 qq0d dddd 0qqq
    LDD Y       10q0 qq0d dddd 1qqq
    STD Z       10q0 qq1r rrrr 0qqq
    STD Y       10q0 qq1r rrrr 1qqq
    LDS         1001 000d dddd 0000 kkkk kkkk kkkk kkkk
    LD Z+       1001 000d dddd 0001
    LD -Z       1001 000d dddd 0010
    LPM Z       1001 000d dddd 0100
    LPM Z+      1001 000d dddd 0101
    ELPM Z      1001 000d dddd 0110
    ELPM Z+     1001 000d dddd 0111
    LD Y+       1001 000d dddd 1001
    LD -Y       1001 000d dddd 1010
    LD X        1001 000d dddd 1100
    LD X+       1001 000d dddd 1101
    LD -X       1001 000d dddd 1110
    POP         1001 000d dddd 1111
    STS         1001 001d dddd 0000 kkkk kkkk kkkk kkkk
    ST Z+       1001 001r rrrr 0001
    ST -Z       1001 001r rrrr 0010
    XCH         1001 001r rrrr 0100
    LAS         1001 001r rrrr 0101
    LAC         1001 001r rrrr 0110
    LAT         1001 001r rrrr 0111
    ST Y+       1001 001r rrrr 1001
    ST -Y       1001 001r rrrr 1010
    ST X        1001 001r rrrr 1100
    ST X+       1001 001r rrrr 1101
    ST -X       1001 001r rrrr 1110
    PUSH        1001 001d dddd 1111
    COM         1001 010d dddd 0000
    NEG         1001 010d dddd 0001
    SWAP        1001 010d dddd 0010
    INC         1001 010d dddd 0011
    ASR         1001 010d dddd 0101
    LSR         1001 010d dddd 0110
    ROR         1001 010d dddd 0111
    DEC         1001 010d dddd 1010
    BSET        1001 0100 0sss 1000
    BCLR        1001 0100 1sss 1000
    RET         1001 0101 0000 1000
    RETI        1001 0101 0001 1000
    SLEEP       1001 0101 1000 1000
    BREAK       1001 0101 1001 1000
    WDR         1001 0101 1010 1000
    LPM         1001 0101 1100 1000
    ELPM        1001 0101 1101 1000
    SPM         1001 0101 1110 1000
    SPM Z+      1001 0101 1111 1000
    IJMP        1001 0100 0000 1001
    EIJMP       1001 0100 0001 1001
    ICALL       1001 0101 0000 1001
    EICALL      1001 0101 0001 1001
    DES         1001 0100 KKKK 1011
    JMP         1001 010k kkkk 110k kkkk kkkk kkkk kkkk
    CALL        1001 010k kkkk 111k kkkk kkkk kkkk kkkk
    ADIW        1001 0110 KKdd KKKK
    SBIW        1001 0111 KKdd KKKK
    CBI         1001 1000 AAAA Abbb
    SBIC        1001 1001 AAAA Abbb
    SBI         1001 1010 AAAA Abbb
    SBIS        1001 1011 AAAA Abbb
    MUL         1001 11rd dddd rrrr
    IN          1011 0AAd dddd AAAA
    OUT         1011 1AAr rrrr AAAA
    RJMP        1100 kkkk kkkk kkkk : k signed
    RCALL       1101 kkkk kkkk kkkk : k signed
    LDI         1110 KKKK dddd KKKK
    BRBS        1111 00kk kkkk ksss : k signed
    BRBC        1111 01kk kkkk ksss : k signed
    BLD         1111 100d dddd 0bbb
    BST         1111 101d dddd 0bbb
    SBRC        1111 110r rrrr 0bbb
    SBRS        1111 111r rrrr 0bbb
""")

SET = InstructionSet("avr", 32, tuple(INSTRUCTIONS))
