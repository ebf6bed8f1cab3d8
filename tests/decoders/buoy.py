"""The buoy's controller as its simulator would decode it: the first nibble, then the story of the versions in data/buoy.py."""

from decoders import part

PLAIN = {4: "SET", 5: "READ", 6: "WRITE", 7: "LOAD", 8: "STORE", 10: "CALL", 12: "SHIFT", 13: "COMPARE"}
LONG = {0: "SEND", 1: "RECEIVE", 2: "FAR CALL"}


def arithmetic(first, second, third, fourth):
    if second == 15:
        # Only the clock's drift is still corrected as in version 1.
        return "ADD" if first == 1 and third == 15 else "TRIP"
    if first == 0:
        return "MOVE" if fourth == 0 else None
    return ["ADD", "SUB", "MASK"][first - 1]


def ending(second, third, fourth):
    """First nibble 11: returns and sleeps."""
    if second == 0 and third == 0:
        return "RETURN" if fourth == 0 else "RELEASE"
    if second == 1:
        ticks = 16 * third + fourth
        if ticks == 0:
            return None
        return "DOZE" if 240 <= ticks <= 254 else "SLEEP"
    return None


def long(word, second, third):
    """First nibble 14: the satellite link."""
    if second < 3:
        return LONG[second]
    if second == 3:
        return "SET LONG" if third == 0 else None
    if second < 8:
        return "FILTER"
    if part(word, 15, 8) != 0:
        return "SAMPLE"
    if part(word, 7, 0) != 0:
        return None
    return "STOP ALL" if second == 15 and third == 15 else "STOP"


def name_of(word):
    first, second, third, fourth = (part(word, low + 3, low) for low in (28, 24, 20, 16))
    if first < 4:
        return arithmetic(first, second, third, fourth)
    if first == 9:
        if second != 15:
            return "BRANCH"
        return "LAMP" if fourth else "LAMP OFF"
    if first == 11:
        return ending(second, third, fourth)
    if first == 14:
        return long(word, second, third)
    return PLAIN.get(first)
