/*
 * Compares kilnumber_cycles with what the second implementation reads. Usage: cycles_test file, which make_cycles.py writes.
 * It prints one line with the counts; at the first difference it prints both results and exits with status 1.
 *
 * With -DSTAND_IN there is no library: kilnumber_cycles then gives back what the file has, and with WRONG=1 and so on in the environment that answer
 * wrong in one way, to show that the test notices.
 *
 * A table lies directly before a page that can't be touched, and then directly after one. It must be the same afterwards.
 */

#define _DEFAULT_SOURCE
#include <stdio.h>
#include <stdlib.h>

#include "kilnumber.h"

#define TEST "cycles_test"
#include "words_file.h"

#include "lending.h"

#define MOST_ENTRIES 256u

/* What the file has of a table: its refusal, or for each entry the cycles and the word after the value, which only a wrong stand-in
 * looks at. */
struct costs {
    uint32_t number, place, entries;
    const uint32_t *cycles, *after;
};

/* "A new call gives an entry's cycles, or after the table's faults 11 for no such entry." Place and number are where a listing has them. */
static uint64_t answer(struct costs costs, uint32_t entry) {
    if (costs.number != 0) return (uint64_t)costs.number << 32 | costs.place;
    return entry < costs.entries ? costs.cycles[entry] : (uint64_t)11 << 32;
}

/* ------------------------------------------------------------------------- stand-in for the library */

#ifdef STAND_IN
#include "wrong.h"
static struct costs standing;

uint64_t kilnumber_cycles(const uint32_t *table, size_t table_words, uint32_t entry) {
    struct costs is = standing;
    uint32_t first = table_words == 0 ? 0 : table[0];
    if (WRONG == 1 && entry < is.entries) entry = 0;                                        /* 1: the first entry's for all */
    if (WRONG == 2 && entry + 1 < is.entries) entry++;                                      /* 2: the next entry's */
    if (WRONG == 3) entry &= 0xff;                                                          /* 3: eight bits of the entry */
    if (WRONG == 4) entry &= 0xffff;                                                        /* 4: sixteen bits of it */
    if (WRONG == 5 && entry == is.entries && entry > 0) entry--;                            /* 5: no 11 at the number of entries */
    if (WRONG == 6 && entry >= (first >> 16 & 0xfff)) return (uint64_t)11 << 32;            /* 6: 11 before the table's faults */
    uint64_t right = answer(is, entry), number = right >> 32, low = right & 0xffffffff;
    if (WRONG == 7 && number == 0) return low & 0xff;                                       /* 7: eight bits of the cycles */
    if (WRONG == 8 && number == 0) return low & 0x7fff;                                     /* 8: fifteen bits of them */
    if (WRONG == 9 && number == 0) return low << 16;                                        /* 9: the cycles in bits 31-16 */
    if (WRONG == 10 && number == 11) return 0;                                              /* 10: no 11: cycles 0 */
    if (WRONG == 11 && number == 11) return number << 32 | entry;                           /* 11: the entry with 11 */
    if (WRONG == 12 && number == 0 && first >> 28 == 1) return is.after[entry];             /* 12: kind 1 has cycles too */
    if (WRONG == 13 && number == 0 && first >> 28 == 6) return (uint64_t)1 << 32;           /* 13: kind 6 is a fault */
    if (WRONG == 14) return number << 40 | low;                                             /* 14: the number in bits 47-40 */
    if (WRONG == 15 && number >= 1 && number <= 4) return number << 32;                     /* 15: without the place */
    if (WRONG == 16 && number >= 1 && number <= 4) return number << 32 | low << 48;         /* 16: the place where a walk has it */
    if (WRONG == 17 && table_words > 0) ((volatile uint32_t *)(uintptr_t)table)[table_words - 1] ^= 1; /* 17: the table is written */
    if (WRONG == 18 && ((const volatile uint32_t *)table)[table_words] == 0) return 0;      /* 18: a word after it is read */
    if (WRONG == 19 && ((const volatile uint32_t *)table)[-1] == 0) return 0;               /* 19: a word before it is read */
    return right;
}
#endif

/* ------------------------------------------------------------------------- the comparison */

static struct room room;
static unsigned by_number[12], tables_of_6, at_most, most_entries;

static void compare(const uint32_t *table, size_t table_words, uint32_t entry, uint64_t expected, int at_start) {
    const uint32_t *lent = lend(room, table, table_words, at_start);
    uint64_t seen = kilnumber_cycles(lent, table_words, entry);
    uint32_t number = (uint32_t)(expected >> 32), low = (uint32_t)expected;
    int parts_right = kilnumber_number(seen) == number && (number == 0 ? kilnumber_cycle_count(seen) : kilnumber_list_place(seen)) == low;
    if (seen != expected || !parts_right) {
        printf("difference: %zu table words, entry %u: expected %016llx, seen %016llx\n", table_words, (unsigned)entry,
               (unsigned long long)expected, (unsigned long long)seen);
        exit(1);
    }
    require_unchanged(lent, table, table_words);
}

static void try_entry(const uint32_t *table, size_t table_words, uint32_t entry, struct costs costs) {
    uint64_t expected = answer(costs, entry);
    compare(table, table_words, entry, expected, 0);
    compare(table, table_words, entry, expected, 1);
    by_number[expected >> 32]++;
    at_most += expected == 65535;
}

/* Every entry; the first that is not there; and others, some of which have an entry's number in their lower bits. */
static void try_table(const uint32_t *table, size_t table_words, struct costs costs) {
    static const uint32_t others[] = {0, 1, 255, 256, 257, 65536, 0x7fffffff, 0x80000000, 0xffffffff};
#ifdef STAND_IN
    standing = costs;
#endif
    for (uint32_t entry = 0; entry <= costs.entries; entry++) try_entry(table, table_words, entry, costs);
    for (size_t at = 0; at < sizeof others / sizeof others[0]; at++) try_entry(table, table_words, others[at], costs);
    tables_of_6 += costs.number == 0 && costs.entries > 0 && table[0] >> 28 == 6;
    most_entries += costs.entries == MOST_ENTRIES;
}

int main(int arguments, char **argument) {
    if (arguments != 2) stop("usage: cycles_test file");
    size_t count, at = 1;
    uint32_t *words = read_words(argument[1], &count);
    room = make_room();
    for (uint32_t turn = 0; turn < words[0]; turn++) {
        if (at + 4 > count || words[at] > 4 || words[at + 2] > MOST_ENTRIES || words[at + 3] > MOST_WORDS) stop("the file is not whole");
        uint32_t entries = words[at + 2], table_words = words[at + 3];
        const uint32_t *from = words + at + 4;
        struct costs costs = {words[at], words[at + 1], entries, from, from + entries};
        at += 4 + 2 * (size_t)entries + table_words;
        if (at > count) stop("the file is not whole");
        try_table(from + 2 * entries, table_words, costs);
    }
    if (at != count) stop("the file is not whole");
    static const unsigned numbers[] = {0, 1, 2, 3, 4, 11};
    printf("cycles_test good: %u tables, %u of kind 6 without fault;", (unsigned)words[0], tables_of_6);
    for (size_t one = 0; one < sizeof numbers / sizeof numbers[0]; one++) {
        printf(" number %u: %u%s", numbers[one], by_number[numbers[one]], one < 5 ? "," : "\n");
        if (by_number[numbers[one]] < 500) stop("too few of a number");
    }
    if (tables_of_6 < 200 || at_most < 100 || most_entries < 2) stop("too few of kind 6, of the most cycles, or of the most entries");
    free(words);
    return 0;
}
