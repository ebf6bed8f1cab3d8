/*
 * Compares kilnumber_signed, kilnumber_stored and kilnumber_text with what the second implementation answers. Usage: numbers_test file,
 * which make_numbers.py writes. It prints one line with the counts; at the first difference it prints both results and exits with
 * status 1.
 *
 * With -DSTAND_IN there is no library, but the three calls written here, and with WRONG=1 and so on in the environment wrong in one way, to show that
 * the test notices.
 *
 * The buffer for a text lies directly before a page that can't be touched, and then directly after one. It is compared as a whole.
 */

#define _DEFAULT_SOURCE
#include <stdio.h>
#include <stdlib.h>

#include "kilnumber.h"

#define TEST "numbers_test"
#include "words_file.h"

#include "lending.h"

#define MOST_TEXT 28u /* "-", ten digits, ".", sixteen digits: no text is longer */
#define MOST_ROOM 512u
#define VALUE_WORDS (6u + MOST_TEXT / 4)
#define NUMBER_WORDS 5u

static uint64_t refused(uint64_t number) { return number << 32; }

/* ------------------------------------------------------------------------- stand-in for the library */

#ifdef STAND_IN
#include "wrong.h"

static uint32_t form_of(uint32_t field) { return field >> 24 & 15; }
static uint32_t fraction_of(uint32_t field) { return field >> 16 & 0xff; }
static uint32_t width_of(uint32_t field) { return field & 0xff; }

static int spare_set(uint32_t field) {
    if (WRONG == 1) return 0;                                                           /* 1: spare bits are not looked at */
    if (WRONG == 2) return fraction_of(field) != 0;                                     /* 2: they are spare for form 2 too */
    if (WRONG == 3 && form_of(field) > 2) return 0;                                     /* 3: nor spare for forms over 2 */
    if (WRONG == 4 && form_of(field) == 1) return 0;                                    /* 4: nor for form 1 */
    if (WRONG == 5 && (field >> 8 & 0xff) != 0) return 1;                               /* 5: the lowest bit is spare */
    return form_of(field) != 2 && fraction_of(field) != 0;
}

static int form_fault(uint32_t field) {
    uint32_t fraction = fraction_of(field);
    if (WRONG == 6) return fraction > 16 || fraction > width_of(field);                 /* 6: every form is taken */
    if (WRONG == 7) return form_of(field) > 2 || fraction > width_of(field);            /* 7: more than 16 fraction bits are taken */
    if (WRONG == 8) return form_of(field) > 2 || fraction > 16;                         /* 8: more than the width are taken */
    if (WRONG == 9) return form_of(field) > 2 || fraction > 15 || fraction > width_of(field); /* 9: not sixteen */
    if (WRONG == 10 && form_of(field) == 2 && fraction >= width_of(field)) return 1;    /* 10: not as many as the width */
    if (WRONG == 11 && form_of(field) == 2 && fraction == 0) return 1;                  /* 11: not none */
    return form_of(field) > 2 || fraction > 16 || fraction > width_of(field);
}

static int width_fault(uint32_t field) {
    uint32_t width = width_of(field), lowest = field >> 8 & 0xff;
    if (WRONG == 12) return width == 0;                                                 /* 12: widths over 32 are taken */
    if (WRONG == 13) return width > 32;                                                 /* 13: width 0 is */
    if (WRONG == 14) return width == 0 || width > 31;                                   /* 14: width 32 is not */
    if (WRONG == 15) return width == 0 || lowest + width > 32;                          /* 15: the lowest bit is judged */
    return width == 0 || width > 32;
}

/* The number of the word's fault, 0 if there is none. */
static uint64_t fault(uint32_t field) {
    if (WRONG == 16 && (width_fault(field) || form_fault(field))) return 4;             /* 16: 4 before 2 */
    if (field >> 28 != 3 && WRONG != 17) return 2;                                      /* 17: the kind is not looked at */
    if (spare_set(field)) return WRONG == 18 ? 4 : 2;                                   /* 18: a spare bit is 4 */
    if (WRONG == 19 && form_of(field) > 2) return 2;                                    /* 19: a form over 2 is 2 */
    if (WRONG == 20 && width_fault(field)) return 2;                                    /* 20: a width is 2 */
    return width_fault(field) || form_fault(field) ? 4 : 0;
}

static uint64_t end_of(uint32_t field) { return (uint64_t)1 << (width_of(field) > 32 ? 32 : width_of(field)); }

static int has_sign(uint32_t field) {
    if (WRONG == 21) return 1;                                                          /* 21: plain values have a sign */
    if (WRONG == 22) return form_of(field) == 2;                                        /* 22: two's complement has none */
    if (WRONG == 23) return form_of(field) == 1;                                        /* 23: fixed point has none */
    if (WRONG == 24 && width_of(field) == 1) return 0;                                  /* 24: one bit has none */
    if (WRONG == 25 && width_of(field) == 32) return 0;                                 /* 25: 32 bits have none */
    return form_of(field) != 0;
}

static int64_t number_of(uint32_t field, uint32_t value) {
    int64_t end = (int64_t)end_of(field), all = value;
    if (!has_sign(field) || all < end / 2) return all;
    if (WRONG == 26) return end / 2 - all;                                              /* 26: a sign and a magnitude */
    if (WRONG == 27) return all - end + 1;                                              /* 27: ones' complement */
    if (WRONG == 28 && all == end / 2) return all;                                      /* 28: the lowest number is above zero */
    return all - end;
}

/* 0, or the refusal of a field and a value. */
static uint64_t value_fault(uint32_t field, uint32_t value) {
    int out = value >= end_of(field);
    if (WRONG == 29 && out && width_of(field) != 0) return 12;                          /* 29: 12 before 2 and 4 */
    if (fault(field) != 0) return fault(field);
    if (WRONG == 30) return 0;                                                          /* 30: no value is out of range */
    if (WRONG == 31) out = value > end_of(field);                                       /* 31: the first that is, is not */
    if (WRONG == 32) out = has_sign(field) && value >= end_of(field) / 2;               /* 32: the range is that of numbers */
    return out ? 12 : 0;
}

uint64_t kilnumber_signed(uint32_t field, uint32_t value) {
    uint64_t number = value_fault(field, value);
    if (WRONG == 33 && number != 0) return refused(number) | field;                     /* 33: the word in a refusal */
    if (WRONG == 34 && number == 12) return refused(number) | 1;                        /* 34: place 1 with 12 */
    if (WRONG == 35) number <<= 8;                                                      /* 35: the refusal in bits 47-40 */
    if (number != 0) return refused(number);
    int64_t its = number_of(field, value);
    if (WRONG == 36 && form_of(field) == 2) its /= 1 << fraction_of(field);             /* 36: wholes and not steps */
    if (WRONG == 37) return (uint64_t)its;                                              /* 37: all bits above are the sign's */
    if (WRONG == 38) return (uint32_t)its;                                              /* 38: no sign */
    if (WRONG == 39) return (uint32_t)its | (uint64_t)(its < 0) << 63;                  /* 39: the sign in bit 63 */
    if (WRONG == 40) return (uint32_t)(its < 0 ? -its : its) | (uint64_t)(its < 0) << 40; /* 40: a magnitude beside it */
    return (uint32_t)its | (uint64_t)(its < 0) << 40;
}

uint64_t kilnumber_stored(uint32_t field, int64_t number) {
    if (fault(field) != 0) return refused(fault(field));
    int64_t end = (int64_t)end_of(field), from = has_sign(field) ? -end / 2 : 0, to = from + end - 1;
    if (WRONG == 41) number = (int64_t)((uint64_t)number & 0xffffffff);                 /* 41: the lower half of the number alone */
    if (WRONG == 42) to = end - 1;                                                      /* 42: up to the highest value */
    if (WRONG == 43) from = -end / 2;                                                   /* 43: below zero too for plain */
    if (WRONG == 44 && from < 0) from++;                                                /* 44: not the lowest number */
    if (WRONG == 45) to--;                                                              /* 45: not the highest number */
    if (WRONG == 46) from = -end;                                                       /* 46: twice as far down */
    if ((number < from || number > to) && WRONG != 47) return refused(12);              /* 47: what does not fit is cut */
    if (WRONG == 48) return (uint32_t)number;                                           /* 48: the sign in all 32 bits */
    if (WRONG == 49) return (uint32_t)((uint64_t)number & (uint64_t)(end - 1)) << fraction_of(field); /* 49: wholes and not steps */
    return (uint32_t)((uint64_t)number & (uint64_t)(end - 1));
}

/* Its length. */
static size_t write_text(char *text, uint32_t field, int64_t number) {
    uint32_t fraction = fraction_of(field);
    uint64_t steps = (uint64_t)(number < 0 ? -number : number), whole = steps >> fraction, digits = steps - (whole << fraction);
    const char *sign = number < 0 ? "-" : "";
    for (uint32_t turn = 0; turn < fraction; turn++) digits *= 5;                       /* n / 2^f = n 5^f / 10^f */
    int places = (int)fraction;
    if (WRONG == 50) sign = number < 0 && whole > 0 ? "-" : "";                         /* 50: -0.5 without its sign */
    if (WRONG == 51) sign = number < 0 ? "-" : "+";                                     /* 51: a plus sign */
    if (WRONG == 52 && has_sign(field) && number == 0) sign = "-";                      /* 52: a minus sign for zero */
    if (WRONG == 53 && number < 0 && digits > 0) whole++;                               /* 53: -0.5 is -1.5 */
    if (WRONG == 54 && fraction > 0 && whole == 0)                                      /* 54: .5 */
        return (size_t)sprintf(text, "%s.%0*llu", sign, places, (unsigned long long)digits);
    if (WRONG == 55 && fraction == 0)                                                   /* 55: 5. */
        return (size_t)sprintf(text, "%s%llu.", sign, (unsigned long long)whole);
    if (WRONG == 56) places = 1;                                                        /* 56: zeros after the point left out */
    if (WRONG == 57 && fraction > 6)                                                    /* 57: a digit too few */
        return (size_t)sprintf(text, "%s%llu.%0*llu", sign, (unsigned long long)whole, places - 1, (unsigned long long)(digits / 10));
    if (WRONG == 58)                                                                    /* 58: by floats */
        return (size_t)sprintf(text, "%.*f", places, (double)((float)number / (float)(1u << fraction)));
    if (WRONG == 59 && fraction > 0)                                                    /* 59: a needless zero */
        return (size_t)sprintf(text, "%s%02llu.%0*llu", sign, (unsigned long long)whole, places, (unsigned long long)digits);
    if (fraction == 0) return (size_t)sprintf(text, "%s%llu", sign, (unsigned long long)whole);
    size_t length = (size_t)sprintf(text, "%s%llu%c%0*llu", sign, (unsigned long long)whole, WRONG == 60 ? ',' : '.', places,
                                    (unsigned long long)digits);                        /* 60: a comma */
    while (WRONG == 61 && text[length - 1] == '0' && text[length - 2] != '.') length--; /* 61: no zeros at the end */
    return length;
}

uint64_t kilnumber_text(uint32_t field, uint32_t value, uint8_t *text, size_t room) {
    char line[320];
    uint64_t number = value_fault(field, value);
    if (WRONG == 62 && room == 0) return refused(18);                                   /* 62: 18 before all others */
    if (WRONG == 63 && number == 12 && room < 2) return refused(18);                    /* 63: 18 before 12 */
    if (WRONG == 64 && number != 0) memset(text, 0, room);                              /* 64: zeros after a refusal */
    if (number != 0) return refused(number);
    size_t length = write_text(line, field, number_of(field, value)), first = 0;
    if (WRONG == 65) room &= 0xff;                                                      /* 65: eight bits of the room */
    int short_of = room < length;
    if (WRONG == 66) short_of = room <= length;                                         /* 66: room for a byte more is wanted */
    if (WRONG == 67) short_of = room < MOST_TEXT;                                       /* 67: room for the longest is wanted */
    if (WRONG == 68 && short_of) memcpy(text, line, room);                              /* 68: as much as there is room for */
    if (WRONG == 69 && short_of) memset(text, 0, room);                                 /* 69: zeros after 18 */
    if (WRONG == 70 && short_of) return refused(18) | length;                           /* 70: the length with 18 */
    if (WRONG == 71 && short_of) return refused(17);                                    /* 71: the number of a listing */
    if (short_of && WRONG != 72) return refused(18);                                    /* 72: the room is not looked at */
    if (WRONG == 73) first = room - length;                                             /* 73: at the end of the buffer */
    if (WRONG == 74) ((volatile uint8_t *)text)[-1] ^= 0;                               /* 74: a byte before it is touched */
    if (WRONG == 75) ((volatile uint8_t *)text)[room] ^= 0;                             /* 75: a byte after it is */
    memcpy(text + first, line, length);
    if (WRONG == 76 && room > length) text[length] = 0;                                 /* 76: a zero byte ends the text */
    if (WRONG == 77) memset(text + length, ' ', room - length);                         /* 77: blanks after it */
    if (WRONG == 78) return length + 1;                                                 /* 78: the length with a zero byte */
    return length;
}
#endif

/* ------------------------------------------------------------------------- the comparison */

static struct room room;
static unsigned values_by[19], numbers_by[19], texts_by[19], longest, kinds[3][33], fractions[17];

static void difference(const char *what, uint32_t field, int64_t given, uint64_t expected, uint64_t seen) {
    printf("difference: %s of field %08x, %lld: expected %016llx, seen %016llx\n", what, (unsigned)field, (long long)given,
           (unsigned long long)expected, (unsigned long long)seen);
    exit(1);
}

static int64_t joined(uint32_t low, uint32_t high) {
    int64_t whole = (int64_t)1 << 32;
    return ((int64_t)high - (high < 0x80000000 ? 0 : whole)) * whole + low;
}

/* "bytes after the text are unchanged"; after a refusal all are. */
static void compare_text(uint32_t field, uint32_t value, uint64_t expected, const uint8_t *text, size_t size, int at_start) {
    static uint8_t before[MOST_ROOM], after[MOST_ROOM];
    for (size_t at = 0; at < size; at++) before[at] = after[at] = (uint8_t)(0x80 | at % 128); /* no byte of a text */
    uint32_t number = (uint32_t)(expected >> 32), length = (uint32_t)expected;
    if (number == 0) memcpy(after, text, length);
    uint8_t *lent = lend_bytes(room, before, size, at_start);
    uint64_t seen = kilnumber_text(field, value, lent, size);
    if (seen != expected || kilnumber_number(seen) != number || (number == 0 && kilnumber_text_length(seen) != length))
        difference("the text", field, value, expected, seen);
    if (size > 0 && memcmp(lent, after, size) != 0) {
        printf("difference: the text of field %08x, %u: expected %.*s, seen %.*s, or other bytes of the %zu changed\n", (unsigned)field,
               (unsigned)value, (int)length, (const char *)text, (int)length, (const char *)lent, size);
        exit(1);
    }
    texts_by[number]++;
}

/* In every room up to a few bytes more, and in larger ones, of which some are too short in their lower bits. */
static void compare_texts(uint32_t field, uint32_t value, uint32_t number, const uint8_t *text, uint32_t length) {
    const size_t more[] = {MOST_TEXT, 255, 256, 256 + (length > 0 ? length - 1 : 0), MOST_ROOM};
    size_t some = length + 3, count = some + sizeof more / sizeof more[0];
    for (size_t turn = 0; turn < count; turn++) {
        size_t size = turn < some ? turn : more[turn - some];
        uint64_t expected = number != 0 ? refused(number) : size < length ? refused(18) : length;
        compare_text(field, value, expected, text, size, 0);
        compare_text(field, value, expected, text, size, 1);
    }
}

static void compare_stored(uint32_t field, int64_t given, uint32_t number, uint32_t value) {
    uint64_t expected = number != 0 ? refused(number) : value, seen = kilnumber_stored(field, given);
    if (seen != expected || kilnumber_number(seen) != number || kilnumber_stored_value(seen) != value)
        difference("the value", field, given, expected, seen);
    numbers_by[number]++;
}

static void try_value(const uint32_t *words) {
    uint32_t field = words[0], value = words[1], number = words[2], low = words[3], length = words[5];
    int64_t signed_number = joined(low, words[4]);
    uint8_t text[MOST_TEXT];
    for (size_t at = 0; at < MOST_TEXT; at++) text[at] = (uint8_t)(words[6 + at / 4] >> 8 * (at % 4));
    uint64_t expected = number != 0 ? refused(number) : low | (uint64_t)(signed_number < 0) << 40, seen = kilnumber_signed(field, value);
    if (seen != expected || kilnumber_number(seen) != number || kilnumber_signed_number(seen) != signed_number)
        difference("the number", field, value, expected, seen);
    compare_texts(field, value, number, text, length);
    values_by[number]++;
    if (number != 0) return;
    compare_stored(field, signed_number, 0, value); /* "a signed number in range comes back as itself" */
    longest = length > longest ? length : longest;
    kinds[field >> 24 & 15][field & 0xff]++;
    fractions[field >> 16 & 0xff]++;
}

static void require_enough(void) {
    static const unsigned numbers[] = {0, 2, 4, 12};
    for (size_t at = 0; at < 4; at++)
        if (values_by[numbers[at]] < 1000 || numbers_by[numbers[at]] < 1000) stop("too few of a number");
    for (size_t form = 0; form < 3; form++)
        for (size_t width = 1; width <= 32; width++)
            if (kinds[form][width] < 5) stop("too few of a form and a width");
    for (size_t fraction = 0; fraction <= 16; fraction++)
        if (fractions[fraction] < 100) stop("too few of fraction bits");
    if (texts_by[18] < 10000 || longest != 23) stop("too few short buffers, or not the longest text");
}

int main(int arguments, char **argument) {
    if (arguments != 2) stop("usage: numbers_test file");
    size_t count;
    uint32_t *words = read_words(argument[1], &count);
    room = make_room();
    if (count < 2 || count != 2 + (size_t)VALUE_WORDS * words[0] + (size_t)NUMBER_WORDS * words[1]) stop("the file is not whole");
    const uint32_t *at = words + 2;
    for (uint32_t turn = 0; turn < words[0]; turn++, at += VALUE_WORDS) {
        if (at[2] > 12 || at[5] > MOST_TEXT) stop("the file is not whole");
        try_value(at);
    }
    for (uint32_t turn = 0; turn < words[1]; turn++, at += NUMBER_WORDS) {
        if (at[3] > 12) stop("the file is not whole");
        compare_stored(at[0], joined(at[1], at[2]), at[3], at[4]);
    }
    require_enough();
    printf("numbers_test good: values by number 0: %u, 2: %u, 4: %u, 12: %u; numbers 0: %u, 2: %u, 4: %u, 12: %u; texts 0: %u, 18: %u, "
           "the longest %u bytes\n", values_by[0], values_by[2], values_by[4], values_by[12], numbers_by[0], numbers_by[2], numbers_by[4],
           numbers_by[12], texts_by[0], texts_by[18], longest);
    free(words);
    return 0;
}
