/*
 * Compares kilnumber_check with the second implementation's answers. Usage: check_test file, which make_checks.py writes.
 * It prints one line with the counts; at the first difference it prints both results and exits with status 1.
 *
 * With -DSTAND_IN there is no library: kilnumber_check then gives back what the file has, and with WRONG=1 and so on in the environment that answer
 * wrong in one way, to show that the test notices.
 *
 * Table and tree lie directly before a page that can't be touched. They must be the same afterwards.
 */

#define _DEFAULT_SOURCE
#include <stdio.h>
#include <stdlib.h>

#include "kilnumber.h"

#define TEST "check_test"
#include "words_file.h"

#include "leaves.h"
#include "lending.h"

/* ------------------------------------------------------------------------- stand-in for the library */

#ifdef STAND_IN
#include "wrong.h"
static uint32_t standing_number, standing_place;

uint64_t kilnumber_check(const uint32_t *table, size_t table_words, const uint32_t *tree, size_t tree_words) {
    uint64_t number = standing_number, place = standing_place;
    if (WRONG == 1) return 0;                                                 /* 1: yes always */
    if (WRONG == 2 && number == 0) number = 14;                               /* 2: no always */
    if (WRONG == 3) place = 0;                                                /* 3: without the place */
    if (WRONG == 4) return number << 32 | place << 48;                        /* 4: the place where a walk has it */
    if (WRONG == 5 && number == 14) return number << 32 | 1;                  /* 5: a place with 14 */
    if (WRONG == 6 && number >= 1 && number <= 4) number = 14;                /* 6: a table's faults are no */
    if (WRONG == 7 && number == 4) number = 3;                                /* 7: 4 is taken for 3 */
    if (WRONG == 8 && table_words > 0) ((volatile uint32_t *)(uintptr_t)table)[0] ^= 1; /* 8: the table is written */
    if (WRONG == 9 && tree_words > 0) ((volatile uint32_t *)(uintptr_t)tree)[0] ^= 1;   /* 9: the tree is written */
    if (WRONG == 10 && ((const volatile uint32_t *)tree)[tree_words] == 0) return 0;    /* 10: a word after it is read */
    if (WRONG == 11 && number == 0 && leaves_one_out(table, tree)) number = 19;         /* 11: 19 as in generating */
    return number << 32 | place;
}
#endif

/* ------------------------------------------------------------------------- the comparison */

static struct room table_room, tree_room;
static unsigned by_number[18], of_kind_6, unreached; /* the last: yes, though an entry is selected by no word */

static void compare(const uint32_t *table, size_t table_words, const uint32_t *tree, size_t tree_words, uint32_t number,
                    uint32_t place) {
    const uint32_t *lent_table = lend(table_room, table, table_words, 0), *lent_tree = lend(tree_room, tree, tree_words, 0);
    uint64_t expected = (uint64_t)number << 32 | place;
    uint64_t seen = kilnumber_check(lent_table, table_words, lent_tree, tree_words);
    if (seen != expected || kilnumber_number(seen) != number || kilnumber_list_place(seen) != place) {
        printf("difference: %zu table words, %zu tree words: expected %016llx, seen %016llx\n", table_words, tree_words,
               (unsigned long long)expected, (unsigned long long)seen);
        exit(1);
    }
    require_unchanged(lent_table, table, table_words);
    require_unchanged(lent_tree, tree, tree_words);
    by_number[number]++;
    of_kind_6 += number == 0 && table[0] >> 28 == 6;
    unreached += number == 0 && leaves_one_out(table, tree);
}

int main(int arguments, char **argument) {
    if (arguments != 2) stop("usage: check_test file");
    size_t count, at = 1;
    uint32_t *words = read_words(argument[1], &count);
    table_room = make_room();
    tree_room = make_room();
    for (uint32_t turn = 0; turn < words[0]; turn++) {
        if (at + 3 > count || words[at + 2] > MOST_WORDS || at + 3 + words[at + 2] >= count) stop("the file is not whole");
        uint32_t number = words[at], place = words[at + 1], table_words = words[at + 2];
        const uint32_t *table = words + at + 3;
        at += 3 + table_words;
        uint32_t tree_words = words[at];
        if (number > 17 || tree_words > MOST_WORDS || at + 1 + tree_words > count) stop("the file is not whole");
#ifdef STAND_IN
        standing_number = number, standing_place = place;
#endif
        compare(table, table_words, words + at + 1, tree_words, number, place);
        at += 1 + tree_words;
    }
    if (at != count) stop("the file is not whole");
    static const unsigned numbers[] = {0, 1, 2, 3, 4, 14};
    printf("check_test good: %u checks;", (unsigned)words[0]);
    for (size_t one = 0; one < sizeof numbers / sizeof numbers[0]; one++) {
        printf(" number %u: %u%s", numbers[one], by_number[numbers[one]], one < 5 ? "," : "\n");
        if (by_number[numbers[one]] < 50) stop("too few of a number");
    }
    if (of_kind_6 < 50) stop("too few of kind 6");
    if (unreached < 50) stop("too few with an entry that is not reached");
    free(words);
    return 0;
}
