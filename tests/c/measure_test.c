/*
 * Compares kilnumber_measure with the second implementation's answers. Usage: measure_test file, which make_sizes.py writes.
 * It prints one line with the counts; at the first difference it prints both results and exits with status 1.
 *
 * With -DSTAND_IN there is no library: kilnumber_measure then gives back what the file has, and with WRONG=1 and so on in the environment that answer
 * wrong in one way, to show that the test notices.
 *
 * A table lies directly before a page that can't be touched, and then directly after one. It must be the same afterwards.
 */

#define _DEFAULT_SOURCE
#include <stdio.h>
#include <stdlib.h>

#include "kilnumber.h"

#define TEST "measure_test"
#include "words_file.h"

#include "lending.h"

#define MOST_NODES 16383u

/* The answer for a table; and of the nodes within the limit what wrong stand-ins look at (make_sizes.py, made_of). */
struct size {
    uint64_t answer;
    uint32_t nodes, tests, first_tests, last_tests, is_clash, clash, unnamed, lowest, highest;
};

/* ------------------------------------------------------------------------- stand-in for the library */

#ifdef STAND_IN
#include "wrong.h"
static struct size standing;

uint64_t kilnumber_measure(const uint32_t *table, size_t table_words) {
    struct size is = standing;
    uint64_t number = is.answer >> 32, low = is.answer & 0xffffffff;
    if (WRONG == 1 && number == 0) return (uint64_t)is.nodes << 16 | is.tests;              /* 1: tests below, nodes above */
    if (WRONG == 2 && number == 0) return low + 1;                                          /* 2: words, not nodes */
    if (WRONG == 3 && number == 0) return (uint64_t)is.first_tests << 16 | is.nodes;        /* 3: tests of the zero sides */
    if (WRONG == 4 && number == 0) return (uint64_t)is.last_tests << 16 | is.nodes;         /* 4: tests of the one sides */
    if (WRONG == 5 && number == 0) return low + 65536;                                      /* 5: a leaf counts as a test */
    if (WRONG == 6) return number << 40 | low;                                              /* 6: the number in bits 47-40 */
    if (WRONG == 7 && number == 6) return number << 32;                                     /* 7: without the word */
    if (WRONG == 8 && number >= 1 && number <= 4) return number << 32;                      /* 8: without the place */
    if (WRONG == 9 && is.is_clash) return (uint64_t)6 << 32 | is.clash;                     /* 9: 6 before 5 */
    if (WRONG == 10 && is.nodes >= MOST_NODES) return (uint64_t)5 << 32;                    /* 10: the limit is one lower */
    if (WRONG == 11 && number == 6) return (uint64_t)is.tests << 16 | is.nodes;             /* 11: 6 is not looked for */
    if (WRONG == 12 && number >= 1 && number <= 4) return number << 32 | low << 48;         /* 12: the place where a walk has it */
    if (WRONG == 13 && number == 5) return number << 32 | is.nodes;                         /* 13: nodes with 5 */
    if (WRONG == 14 && number == 5) return (uint64_t)is.tests << 16 | is.nodes;             /* 14: 5 is not looked for */
    if (WRONG == 15 && number == 6) return (uint64_t)5 << 32;                               /* 15: 6 is taken for 5 */
    if (WRONG == 16 && table_words > 0) ((volatile uint32_t *)(uintptr_t)table)[table_words - 1] ^= 1; /* 16: the table is written */
    if (WRONG == 17 && ((const volatile uint32_t *)table)[table_words] == 0) return 0;      /* 17: a word after it is read */
    if (WRONG == 18 && ((const volatile uint32_t *)table)[-1] == 0) return 0;               /* 18: a word before it is read */
    if (WRONG == 19 && number == 19) return (uint64_t)is.tests << 16 | is.nodes;            /* 19: 19 is not looked for */
    if (WRONG == 20 && number == 19) return number << 32 | (table[0] >> 16 & 0xfff);        /* 20: the number of entries as place */
    if (WRONG == 21 && number == 6 && is.unnamed > 0) return (uint64_t)19 << 32 | is.lowest; /* 21: 19 before 6 */
    if (WRONG == 22 && number == 19) return number << 32;                                   /* 22: without the entry */
    if (WRONG == 23 && number == 5 && is.unnamed > 0) return (uint64_t)19 << 32 | is.lowest; /* 23: 19 before 5 */
    if (WRONG == 24 && number == 19) return number << 32 | is.highest;                      /* 24: the highest such entry */
    if (WRONG == 25 && number == 19) return number << 32 | is.unnamed;                      /* 25: how many there are */
    if (WRONG == 26 && number == 19) return number << 32 | low << 48;                       /* 26: the entry where a walk has a place */
    if (WRONG == 27 && number == 19) return (uint64_t)6 << 32 | low;                        /* 27: 19 is taken for 6 */
    if (WRONG == 28 && number == 19) return number << 32 | (low + 1);                       /* 28: entries counted from 1 */
    return is.answer;
}
#endif

/* ------------------------------------------------------------------------- the comparison */

#define UNREACHED 19u

static struct room room;
static unsigned by_number[UNREACHED + 1], of_kind_6, at_limit, over_and_clash;
static unsigned first, middle, last, unreached_at_limit, clash_and_unreached, over_and_unreached; /* the first three: places of 19 */

static void compare(const uint32_t *table, size_t table_words, uint64_t expected, int at_start) {
    const uint32_t *lent = lend(room, table, table_words, at_start);
    uint64_t seen = kilnumber_measure(lent, table_words);
    uint32_t number = (uint32_t)(expected >> 32), low = (uint32_t)expected;
    int parts_right = kilnumber_number(seen) == number;
    if (number == 0) parts_right &= kilnumber_nodes(seen) == low % 65536 && kilnumber_tests(seen) == low / 65536;
    if (number == 6) parts_right &= kilnumber_word(seen) == low;
    if ((number >= 1 && number <= 4) || number == UNREACHED) parts_right &= kilnumber_list_place(seen) == low;
    if (seen != expected || !parts_right) {
        printf("difference: %zu table words: expected %016llx, seen %016llx\n", table_words, (unsigned long long)expected,
               (unsigned long long)seen);
        exit(1);
    }
    require_unchanged(lent, table, table_words);
}

static void count_unreached(uint32_t number, uint32_t entries, struct size size) {
    first += number == UNREACHED && size.lowest == 0 && entries > 1;
    middle += number == UNREACHED && size.lowest > 0 && size.lowest + 1 < entries;
    last += number == UNREACHED && size.lowest > 0 && size.lowest + 1 == entries;
    unreached_at_limit += number == UNREACHED && size.nodes == MOST_NODES;
    clash_and_unreached += number == 6 && size.unnamed > 0;
    over_and_unreached += number == 5 && size.unnamed > 0;
}

static void try_table(const uint32_t *table, size_t table_words, struct size size) {
#ifdef STAND_IN
    standing = size;
#endif
    compare(table, table_words, size.answer, 0);
    compare(table, table_words, size.answer, 1);
    by_number[size.answer >> 32]++;
    of_kind_6 += size.answer >> 32 == 0 && table[0] >> 28 == 6;
    at_limit += size.answer >> 32 == 0 && size.nodes == MOST_NODES;
    over_and_clash += size.answer >> 32 == 5 && size.is_clash;
    count_unreached((uint32_t)(size.answer >> 32), table_words == 0 ? 0 : table[0] >> 16 & 0xfff, size);
}

int main(int arguments, char **argument) {
    if (arguments != 2) stop("usage: measure_test file");
    size_t count, at = 1;
    uint32_t *words = read_words(argument[1], &count);
    room = make_room();
    for (uint32_t turn = 0; turn < words[0]; turn++) {
        if (at + 12 > count) stop("the file is not whole");
        const uint32_t *from = words + at;
        struct size size = {(uint64_t)from[1] << 32 | from[0], from[2], from[3], from[4], from[5], from[6], from[7], from[8], from[9],
                            from[10]};
        uint32_t table_words = from[11];
        at += 12 + (size_t)table_words;
        if (from[1] > UNREACHED || table_words > MOST_WORDS || at > count) stop("the file is not whole");
        try_table(from + 12, table_words, size);
    }
    if (at != count) stop("the file is not whole");
    if (words[0] < 1500) stop("too few tables");
    printf("measure_test good: %u tables;", (unsigned)words[0]);
    for (size_t number = 0; number <= UNREACHED; number = number == 6 ? UNREACHED : number + 1) {
        printf(" number %zu: %u%s", number, by_number[number], number < UNREACHED ? "," : "\n");
        if (by_number[number] < (number == 5 ? 5 : 50)) stop("too few of a number");
    }
    if (at_limit < 2 || over_and_clash < 2) stop("too few at the limit");
    if (first < 30 || middle < 30 || last < 30) stop("too few places of 19");
    if (unreached_at_limit < 2 || over_and_unreached < 2 || clash_and_unreached < 20) stop("too few with an entry that is not reached");
    if (of_kind_6 < 100) stop("too few of kind 6");
    free(words);
    return 0;
}
