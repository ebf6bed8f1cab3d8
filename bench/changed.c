/*
 * How long it takes to count what a withdrawal changes: kilnumber_changed for lists of 0, 1,000 and 100,000 words; and beside it
 * kilnumber_cycles, which reads the same table once and does nothing else.
 *
 * Usage: changed name table list. The list is of 100,000 words (make_changed.py writes it).
 *
 *   gcc -std=c11 -O2 -Iinclude -Iexamples bench/changed.c libkilnumber.a -o changed
 */

#define _POSIX_C_SOURCE 199309L
#include <stdint.h>
#include <stdio.h>
#include <stdlib.h>

#include "times.h"

#include "files.h"
#include "kilnumber.h"

#define SIDES 4
#define LISTED 100000u

static const size_t sizes[SIDES] = {0, 0, 1000, LISTED}; /* the first side only reads */

static uint64_t one_call(struct words table, struct words list, int side) {
    if (side == 0) return kilnumber_cycles(table.at, table.count, 0);
    return kilnumber_changed(table.at, table.count, 0, list.at, sizes[side]);
}

/* Seconds of one call. Short ones are made many times. */
static double timed(struct words table, struct words list, int side) {
    size_t rounds = LISTED / (sizes[side] + 100);
    uint32_t refused = 0;
    double before = seconds();
    for (size_t round = 0; round < rounds + 1; round++) refused |= kilnumber_number(one_call(table, list, side));
    double taken = seconds() - before;
    if (refused != 0) stop("changed", "a call is refused");
    return taken / (double)(rounds + 1);
}

int main(int arguments, char **argument) {
    if (arguments != 4) stop("usage", "changed name table list");
    struct words table = read_words(argument[2]), list = read_words(argument[3]);
    if (list.count != LISTED) stop(argument[3], "not 100,000 words");
    static double taken[SIDES][REPEATS];
    for (int turn = 0; turn < REPEATS; turn++)
        for (int side = 0; side < SIDES; side++) taken[side][turn] = timed(table, list, side);
    struct times times[SIDES];
    printf("%-8s %4u", argument[1], (unsigned)(table.at[0] >> 16 & 0xfff));
    for (int side = 0; side < SIDES; side++) {
        times[side] = times_of(taken[side]);
        printf("  %9.1f %9.1f %9.1f", 1e6 * times[side].best, 1e6 * times[side].median, 1e6 * times[side].worst);
    }
    printf("  %7.1f\n", 1e9 * (times[3].median - times[1].median) / LISTED);
    free(table.at);
    free(list.at);
    return 0;
}
