/*
 * Compares kilnumber_changed with the second implementation's answers. Usage: changed_test file, which make_changes.py writes.
 * It prints one line with the counts; at the first difference it prints both results and exits with status 1.
 *
 * With -DSTAND_IN there is no library: kilnumber_changed then counts by the file's marks, and with WRONG=1 and so on in the environment it
 * is wrong in one way, to show that the test notices.
 *
 * Table and list lie directly before a page that can't be touched, and then directly after one. They must be the same afterwards.
 */

#define _DEFAULT_SOURCE
#include <stdio.h>
#include <stdlib.h>

#include "kilnumber.h"

#define TEST "changed_test"
#include "words_file.h"

#include "lending.h"

#define MOST_LISTED 66000u
#define LOOKED_AT 100u /* of a list, for what would take long in the longest */

/* What the file has of a question: the answer, and what only the stand-in and the counts look at. */
struct question {
    uint64_t answer;
    uint32_t entry, count, sizing; /* the last: the number that sizing refuses the table with */
    const uint32_t *words, *marks;
};

/* What a mark says of a word: what it selects before the withdrawal, and afterwards in the new numbers. */
#define NOTHING 256u
#define AMBIGUOUS 257u
#define HIGH 258u
static uint32_t before(uint32_t mark) { return mark & 0x1ff; }
static uint32_t after(uint32_t mark) { return mark >> 16; }
static int is_unfit(uint32_t mark) { return before(mark) >= AMBIGUOUS; }

/* ------------------------------------------------------------------------- stand-in for the library */

#ifdef STAND_IN
#include "wrong.h"
static struct question standing;

static int is_again(size_t at) {
    for (size_t earlier = 0; earlier < at && earlier < LOOKED_AT; earlier++)
        if (standing.words[earlier] == standing.words[at]) return 1;
    return 0;
}

/* Whether the word at an index of the list is counted. */
static int counts(uint32_t entry, size_t at) {
    uint32_t mark = standing.marks[at], its = before(mark);
    if (WRONG == 1) return its != entry;                                                    /* 1: those that did not select it */
    if (WRONG == 2) return 1;                                                               /* 2: all */
    if (WRONG == 3) return its == entry && after(mark) != AMBIGUOUS;                        /* 3: turning ambiguous is no change */
    if (WRONG == 4) return its == entry && after(mark) != NOTHING;                          /* 4: turning nothing is none */
    if (WRONG == 5) return its == entry && after(mark) >= NOTHING;                          /* 5: another entry is none */
    if (WRONG == 6) return its != after(mark);                                              /* 6: renumbering is one */
    if (WRONG == 7) return (mark >> 9 & 1) != 0;                                            /* 7: those that the entry claims */
    if (WRONG == 8) return its == entry && !is_again(at);                                   /* 8: a word twice counts once */
    if (WRONG == 9) return its == entry && at > 0;                                          /* 9: without the first word */
    if (WRONG == 10) return its == entry && at + 1 < standing.count;                        /* 10: without the last word */
    if (WRONG == 11) return its == (entry == 0 ? NOTHING : entry - 1);                      /* 11: the entry before it */
    return its == entry;
}

/* Whether the word at an index of the list is refused. */
static int refuses(const uint32_t *table, size_t at) {
    uint32_t mark = standing.marks[at], width = table[0] & 0xff;
    if (WRONG == 12 && before(mark) == HIGH) return 0;                                      /* 12: no 7 */
    if (WRONG == 13 && before(mark) == AMBIGUOUS) return 0;                                 /* 13: no 6 */
    if (WRONG == 14 && after(mark) == AMBIGUOUS) return 1;                                  /* 14: a word that turns ambiguous too */
    if (WRONG == 15 && after(mark) != AMBIGUOUS && before(mark) != HIGH) return 0;          /* 15: 6 only if it is ambiguous afterwards */
    if (WRONG == 16 && before(mark) == HIGH && standing.words[at] >> width == 1) return 0;  /* 16: the bit at the width may be set */
    if (WRONG == 17 && at == 0) return 0;                                                   /* 17: the first word is not judged */
    if (WRONG == 18 && at + 1 == standing.count) return 0;                                  /* 18: nor is the last */
    return is_unfit(mark);
}

/* The index of the word that is refused, the list's length if there is none. */
static size_t unfit_at(const uint32_t *table) {
    size_t found = standing.count;
    for (size_t at = 0; at < standing.count; at++) {
        if (!refuses(table, at)) continue;
        uint32_t of = found == standing.count ? 0 : before(standing.marks[found]), its = before(standing.marks[at]);
        if (of == 0 || WRONG == 19) found = at;                                             /* 19: the last unfit word */
        if (WRONG == 20 && of == AMBIGUOUS && its == HIGH) found = at;                      /* 20: 7 before 6 */
        if (WRONG == 21 && of == HIGH && its != HIGH) found = at;                           /* 21: 6 before 7 */
    }
    return found;
}

static uint64_t refused_word(size_t at) {
    uint64_t six = (uint64_t)6 << 32, seven = (uint64_t)7 << 32, word = standing.words[at];
    int is_high = before(standing.marks[at]) == HIGH;
    if (WRONG == 22 && !is_high) return six;                                                /* 22: 6 without the word */
    if (WRONG == 23 && !is_high) return six | at;                                           /* 23: 6 with the word's index */
    if (WRONG == 24 && is_high) return seven | word;                                        /* 24: 7 with the word */
    if (WRONG == 25 && is_high) return seven | at;                                          /* 25: 7 with its index */
    if (WRONG == 26 && is_high) return six | word;                                          /* 26: 6 for 7 */
    if (WRONG == 27 && !is_high) return seven;                                              /* 27: 7 for 6 */
    return is_high ? seven : six | word;
}

/* The answer for a table without fault that has the entry. */
static uint64_t answer(const uint32_t *table, uint32_t entry) {
    uint64_t total = 0, sizing = standing.sizing;
    size_t unfit = unfit_at(table);
    for (size_t at = 0; at < unfit; at++) total += (uint64_t)counts(entry, at);
    if (WRONG == 28 && sizing == 6 && unfit == standing.count) return sizing << 32;         /* 28: 6 for a word not in the list */
    if (WRONG == 29 && sizing == 19) return sizing << 32;                                   /* 29: 19 as in sizing */
    if (WRONG == 30 && sizing == 5) return sizing << 32;                                    /* 30: 5 as in sizing */
    if (unfit < standing.count) return refused_word(unfit) | (WRONG == 31 ? total << 40 : 0); /* 31: the count with 6 and 7 */
    if (WRONG == 32) return total & 0xff;                                                   /* 32: eight bits of the count */
    if (WRONG == 33) return total & 0xffff;                                                 /* 33: sixteen bits of it */
    if (WRONG == 34) return total << 40;                                                    /* 34: the count in bits 63-40 */
    if (WRONG == 35) return (total & 0xffff) | total >> 16 << 40;                           /* 35: its bits from 16 on there */
    if (WRONG == 36) return total != 0;                                                     /* 36: whether there is one */
    return total;
}

uint64_t kilnumber_changed(const uint32_t *table, size_t table_words, uint32_t entry, const uint32_t *words, size_t count) {
    uint64_t fault = standing.answer >> 32 & 0xff, place = standing.answer & 0xffffffff, eleven = (uint64_t)11 << 32;
    uint32_t entries = table_words == 0 ? 0 : table[0] >> 16 & 0xfff;
    if (WRONG == 37 && count == 0) return 0;                                                /* 37: nothing is judged without words */
    if (WRONG == 38 && entry >= entries) return eleven;                                     /* 38: 11 before the table's faults */
    if (WRONG == 39 && table_words > 0) ((volatile uint32_t *)(uintptr_t)table)[table_words - 1] ^= 1; /* 39: the table is written */
    if (WRONG == 40 && count > 0) ((volatile uint32_t *)(uintptr_t)words)[count - 1] ^= 1;  /* 40: the list is written */
    if (WRONG == 41 && ((const volatile uint32_t *)table)[table_words] == 0) return 0;      /* 41: a word after the table is read */
    if (WRONG == 42 && ((const volatile uint32_t *)table)[-1] == 0) return 0;               /* 42: a word before it is read */
    if (WRONG == 43 && ((const volatile uint32_t *)words)[count] == 0) return 0;            /* 43: a word after the list is read */
    if (WRONG == 44 && ((const volatile uint32_t *)words)[-1] == 0) return 0;               /* 44: a word before it is read */
    if (fault >= 1 && fault <= 4) {
        if (WRONG == 45) return fault << 32;                                                /* 45: without the place */
        if (WRONG == 46) return fault << 32 | place << 48;                                  /* 46: the place where a walk has it */
        return fault << 32 | place;
    }
    if (WRONG == 47) entry &= 0xff;                                                         /* 47: eight bits of the entry */
    if (WRONG == 48) entry &= 0xffff;                                                       /* 48: sixteen bits of it */
    if (entry >= entries) {
        if (WRONG == 49) return 0;                                                          /* 49: no 11: nothing changes */
        if (WRONG == 50 && entry == entries) return 0;                                      /* 50: no 11 at the number of entries */
        if (WRONG == 51) return eleven | entry;                                             /* 51: the entry with 11 */
        if (WRONG == 52 && unfit_at(table) < count) return refused_word(unfit_at(table));   /* 52: 11 after the words */
        if (WRONG == 53 && count == 0) return 0;                                            /* 53: 11 only with a word */
        return eleven;
    }
    uint64_t right = answer(table, entry), number = right >> 32 & 0xff;
    return WRONG == 54 && number != 0 ? number << 40 | (right & 0xffffffff) : right;        /* 54: the number in bits 47-40 */
}
#endif

/* ------------------------------------------------------------------------- the comparison */

static struct room table_room, list_room;
static unsigned by_number[12], with_count, to_nothing, to_ambiguous, to_other, renumbered, unjudged, unreached, of_kind_6;
static unsigned six_first, seven_first, late, over_16_bits; /* the first two: a word unfit in the other way comes later in the list */

static void compare(const uint32_t *table, size_t table_words, struct question is, int at_start) {
    const uint32_t *lent = lend(table_room, table, table_words, at_start), *listed = lend(list_room, is.words, is.count, at_start);
    uint64_t seen = kilnumber_changed(lent, table_words, is.entry, listed, is.count);
    uint32_t number = (uint32_t)(is.answer >> 32), low = (uint32_t)is.answer;
    uint64_t part = number == 0 ? kilnumber_changed_words(seen) : number == 6 ? kilnumber_word(seen) : kilnumber_list_place(seen);
    if (seen != is.answer || kilnumber_number(seen) != number || part != low) {
        printf("difference: %zu table words, entry %u, %u words: expected %016llx, seen %016llx\n", table_words, (unsigned)is.entry,
               (unsigned)is.count, (unsigned long long)is.answer, (unsigned long long)seen);
        exit(1);
    }
    require_unchanged(lent, table, table_words);
    require_unchanged(listed, is.words, is.count);
}

/* What became of the words of a list that is counted. */
static void count_changes(struct question is) {
    for (size_t at = 0; at < is.count && at < LOOKED_AT; at++) {
        uint32_t its = before(is.marks[at]), then = after(is.marks[at]);
        to_nothing += its == is.entry && then == NOTHING;
        to_ambiguous += its == is.entry && then == AMBIGUOUS;
        to_other += its == is.entry && then < NOTHING;
        renumbered += its != is.entry && its != then;
    }
    with_count += is.answer > 0;
    over_16_bits += is.answer > 65535;
    unjudged += is.sizing == 6 && is.answer > 0;
    unreached += is.sizing == 19 && is.answer > 0;
}

/* Whether a later word is unfit in the other way than the first unfit one; and whether words that change come before that one. */
static void count_refusal(struct question is) {
    size_t first = 0;
    while (!is_unfit(is.marks[first])) late += before(is.marks[first++]) == is.entry;
    uint32_t how = before(is.marks[first]);
    for (size_t at = first + 1; at < is.count; at++) {
        six_first += how == AMBIGUOUS && before(is.marks[at]) == HIGH;
        seven_first += how == HIGH && before(is.marks[at]) == AMBIGUOUS;
    }
}

static void try_question(const uint32_t *table, size_t table_words, struct question is) {
#ifdef STAND_IN
    standing = is;
#endif
    compare(table, table_words, is, 0);
    compare(table, table_words, is, 1);
    uint32_t number = (uint32_t)(is.answer >> 32);
    by_number[number]++;
    of_kind_6 += number == 0 && table[0] >> 28 == 6;
    if (number == 0) count_changes(is);
    if (number == 6 || number == 7) count_refusal(is);
}

/* A run of the file at an index, which is moved past it. */
static const uint32_t *take(const uint32_t *words, size_t count, size_t *at, size_t length) {
    const uint32_t *from = words + *at;
    if (length > count - *at) stop("the file is not whole");
    *at += length;
    return from;
}

int main(int arguments, char **argument) {
    if (arguments != 2) stop("usage: changed_test file");
    size_t count, at = 1;
    uint32_t *words = read_words(argument[1], &count), questions = 0;
    table_room = make_room();
    list_room = make_room_for(MOST_LISTED);
    for (uint32_t turn = 0; turn < words[0]; turn++) {
        const uint32_t *head = take(words, count, &at, 2), *table = take(words, count, &at, head[1]), *asked = take(words, count, &at, 1);
        if (head[1] > MOST_WORDS) stop("a table is too long");
        for (uint32_t one = 0; one < *asked; one++, questions++) {
            const uint32_t *from = take(words, count, &at, 4), *listed = take(words, count, &at, 2 * (size_t)from[3]);
            if (from[1] > 11 || from[3] > MOST_LISTED) stop("a list is too long, or its answer is none");
            struct question is = {(uint64_t)from[1] << 32 | from[0], from[2], from[3], head[0], listed, listed + from[3]};
            try_question(table, head[1], is);
        }
    }
    if (at != count) stop("the file is not whole");
    static const unsigned numbers[] = {0, 1, 2, 3, 4, 6, 7, 11};
    printf("changed_test good: %u tables, %u lists, %u with changes;", (unsigned)words[0], (unsigned)questions, with_count);
    for (size_t one = 0; one < sizeof numbers / sizeof numbers[0]; one++) {
        printf(" number %u: %u%s", numbers[one], by_number[numbers[one]], one < 7 ? "," : "\n");
        if (by_number[numbers[one]] < 80) stop("too few of a number");
    }
    if (with_count < 500 || to_nothing < 200 || to_ambiguous < 200 || to_other < 200 || renumbered < 200) stop("too few changes");
    if (six_first < 20 || seven_first < 20 || late < 50) stop("too few lists with several unfit words, or with a late one");
    if (unjudged < 20 || unreached < 20) stop("too few tables that sizing refuses");
    if (of_kind_6 < 200 || over_16_bits < 2) stop("too few of kind 6, or too few counts over 16 bits");
    free(words);
    return 0;
}
