/* How the examples take numbers out of text: digits alone, up to a limit. strtoul and scanf would take a sign, or stop in the middle. */

#ifndef NUMBERS_H
#define NUMBERS_H

#include <stdint.h>
#include <string.h>

/* What is left of a line, or of an argument. */
struct text {
    const char *at, *end;
};

static inline struct text text_of(const char *argument) {
    struct text text = {argument, argument + strlen(argument)};
    return text;
}

static inline int is_blank(char byte) { return byte == ' ' || byte == '\t' || byte == '\r'; }

/* Past the blanks; 1 if nothing else is left. */
static inline int skip_blanks(struct text *text) {
    while (text->at < text->end && is_blank(*text->at)) text->at++;
    return text->at == text->end;
}

/* What a digit stands for in base 10 or 16, `base` if it is none. */
static inline uint32_t digit_of(char byte, uint32_t base) {
    static const char digits[] = "0123456789abcdef", capitals[] = "0123456789ABCDEF";
    for (uint32_t digit = 0; digit < base; digit++)
        if (byte == digits[digit] || byte == capitals[digit]) return digit;
    return base;
}

/* Takes a number, up to a blank or the end; 0 if there is none, if it is over `most`, or if anything but digits stands there. */
static inline int take_number(struct text *text, uint32_t base, uint32_t most, uint32_t *number) {
    uint64_t taken = 0;
    const char *from = text->at;
    for (; text->at < text->end && !is_blank(*text->at); text->at++) {
        uint32_t digit = digit_of(*text->at, base);
        taken = taken * base + digit;
        if (digit == base || taken > most) return 0;
    }
    *number = (uint32_t)taken;
    return text->at > from;
}

#endif
