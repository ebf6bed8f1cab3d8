"""The controller of a weather buoy: a table of our own, to show how an instruction set grows into the gaps of its old
patterns.

No manual: this file is where the facts are. There are sixteen registers; register 15 is the clock. Instructions are 16 or
32 bits, the first halfword in the word's upper half. Buoys are at sea for years, so what an old program does must never
change: each version only takes words that no program in the field uses.

Version 1, the first season: sixteen-bit instructions.
Version 2, lamps and alarms. A branch that is never taken (condition 1111) and a result written over the clock (register 15)
    were of no use, and no program has them, with one exception: ADD 15, 15, t corrects the clock's drift and stays. TRIP
    takes the four patterns 00kk 1111 across MOVE, ADD, SUB and MASK: it is not more specific than any of them (nor they
    than it), so they give up these words by exclusion conditions, ADD but for 15, 15; and TRIP gives up what ADD keeps.
    LAMP lies inside BRANCH alone and is more specific; BRANCH needs no condition.
Version 3, the satellite link: 32-bit instructions under 1110. SAMPLE with count 0 would never end: it takes no such word,
    and STOP is put there, for all ports or for one. RELEASE is a later, wider RETURN: the old one is more specific and
    stays as it was.
Version 4, after the storm. SLEEP 0 slept forever and cost us a buoy: no entry claims it any more, so the simulator traps;
    this is the one word that was ever taken back. DOZE (wake by waves) takes the sleeps of 240 to 254 ticks, which no
    program has, by being more specific; it leaves SLEEP 255, the long night of version 1.

Offsets and gains of the controller have a sign. BRANCH and CALL count halfwords from the next instruction, back or on; SET, SET LONG and
COMPARE take numbers below zero, as the sea's temperature may be; FILTER's k is the gain of a filter, with twelve bits after its point:
-8 up to 7.999755859375. The offsets of LOAD and STORE and all addresses count from zero.

Since the storm each buoy keeps an account of its battery, so the list has cycles: beats of the core's clock while it is awake, each of
which takes the same charge. Falling asleep and waking up are counted, the sleep between them is not. SEND, RECEIVE and SAMPLE have what
the usual message or row of readings takes of the core; radio and sensors have accounts of their own.
"""

from patterns import InstructionSet, Unless, listed

CLOCK = Unless("---- 1111")
CLOCK_BUT_DRIFT = Unless("---- 1111", ("---- ---- 1111",))      # ADD 15, 15, t
DRIFT = Unless("0001 1111 1111")                                # what ADD keeps
NO_SLEEP = Unless("---- ---- 0000 0000")
LONG_NIGHT = Unless("---- ---- ---- 1111")                      # SLEEP 255
NO_COUNT = Unless("---- ---- ---- ---- 0000 0000")

VERSION_1 = (
    listed("MOVE      0000 dddd ssss 0000 = 1", CLOCK)
    + listed("ADD       0001 dddd ssss tttt = 1", CLOCK_BUT_DRIFT)
    + listed("""
    SUB       0010 dddd ssss tttt = 1
    MASK      0011 dddd ssss tttt = 1
    """, CLOCK)
    + listed("""
    SET       0100 dddd iiii iiii : i signed = 1
    READ      0101 dddd pppp pppp = 3
    WRITE     0110 ssss pppp pppp = 3
    LOAD      0111 dddd ssss oooo = 2
    STORE     1000 dddd ssss oooo = 2
    BRANCH    1001 cccc oooo oooo : o signed = 2
    CALL      1010 oooo oooo oooo : o signed = 3
    RETURN    1011 0000 0000 0000 = 3
    """)
    + listed("SLEEP     1011 0001 tttt tttt = 12", NO_SLEEP))

VERSION_2 = (
    listed("TRIP      00kk 1111 ssss tttt = 4", DRIFT)
    + listed("""
    LAMP      1001 1111 llll pppp = 5
    LAMP OFF  1001 1111 llll 0000 = 3
    SHIFT     1100 dddd ssss tttt = 1
    COMPARE   1101 dddd iiii iiii : i signed = 1
    """))

VERSION_3 = (
    listed("""
    RELEASE   1011 0000 0000 nnnn = 4
    SEND      1110 0000 dddd ssss aaaa aaaa aaaa aaaa = 620
    RECEIVE   1110 0001 dddd ssss aaaa aaaa aaaa aaaa = 480
    FAR CALL  1110 0010 aaaa aaaa aaaa aaaa aaaa aaaa = 4
    SET LONG  1110 0011 0000 dddd iiii iiii iiii iiii : i signed = 2
    FILTER    1110 01ww dddd ssss kkkk kkkk kkkk kkkk : k point 12 = 18
    STOP      1110 1ppp pppp dddd 0000 0000 0000 0000 = 6
    STOP ALL  1110 1111 1111 dddd 0000 0000 0000 0000 = 40
    """)
    + listed("SAMPLE    1110 1ppp pppp dddd nnnn nnnn rrrr rrrr = 2400", NO_COUNT))

VERSION_4 = listed("DOZE      1011 0001 1111 wwww = 16", LONG_NIGHT)

SET = InstructionSet("buoy", 32, tuple(VERSION_1 + VERSION_2 + VERSION_3 + VERSION_4))
