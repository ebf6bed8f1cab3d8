/*
 * How long walks take: a walker in plain C with the same checks on the same bytes, beside it the proved one, and beside these the
 * proved call for the mask of a walk.
 *
 * Usage: walk file (make_walk.py writes it). First every result is compared: the C side with the second implementation, the
 * proved side with the C side on all words, walks and masks, and both on trees with a bit flipped. It exits with status 1 at a
 * difference.
 *
 *   gcc -std=c11 -O2 -Iinclude bench/walk.c libkilnumber.a -o walk
 *   gcc -std=c11 -O2 -DSTAND_IN -DWRONG=1 -Iinclude bench/walk.c -o walk       no library, a wrong walker in its place
 *
 * With -DPLAIN the C side is written as document 01 says it; without, as fast as we could make it by hand.
 */

#define _POSIX_C_SOURCE 199309L
#include <stdint.h>
#include <stdio.h>
#include <stdlib.h>
#include <string.h>

#include "times.h"

#include "kilnumber.h"

#ifndef REPEATS
#endif
#define NAME_BYTES 16
#define FLIPS 200       /* flipped bits tried for each tree */
#define FLIPPED_WALKS 64
#define LEAST_TESTS 4000000.0 /* of a timed turn, so that it is long against the clock's own cost */

struct words {
    uint32_t *at;
    size_t count;
};

struct case_ {
    char name[NAME_BYTES + 1];
    uint8_t *tree;
    size_t tree_bytes;
    struct words words, answers;
    double tests; /* a walk, on average */
};

static void stop(const char *why) {
    printf("walk: %s\n", why);
    exit(1);
}

/* ------------------------------------------------------------------------- the C side */

static inline uint32_t word_at(const uint8_t *bytes, size_t index) {
    const uint8_t *at = bytes + 4 * index;
    return (uint32_t)at[0] | (uint32_t)at[1] << 8 | (uint32_t)at[2] << 16 | (uint32_t)at[3] << 24;
}

static inline uint64_t refused(uint32_t number, uint32_t place) { return (uint64_t)number << 32 | (uint64_t)place << 48; }

/* Not inlined, as the library isn't: both sides are called. */
__attribute__((noinline)) static uint64_t walk_in_c(const uint8_t *tree, size_t length, uint32_t word) {
    if (length % 4 != 0 || length == 0) return refused(8, 0);
    uint32_t header = word_at(tree, 0);
    uint32_t width = header >> 16 & 63, nodes = header & 0xffff;
    if (header >> 28 != 7 || (header >> 22 & 63) != 0 || width < 1 || width > 32) return refused(8, 0);
    if (nodes == 0 || nodes > length / 4 - 1) return refused(8, 0);
    if (width < 32 && word >> width != 0) return refused(7, 0);
    uint32_t index = 1, tests = 0;
    for (;;) {
        uint32_t node = word_at(tree, index);
#ifndef PLAIN
        /* Kind and spare bits of a test in one comparison: gcc doesn't find that by itself. */
        if ((node & 0xf07f0000) == 0x80000000) {
            uint32_t bit = node >> 23 & 31, one_side = node & 0xffff;
            if (bit >= width || one_side < index + 2 || one_side > nodes) return refused(9, index);
            tests++;
            index = (word >> bit & 1) == 0 ? index + 1 : one_side;
            continue;
        }
#endif
        switch (node >> 28) {
        case 8: {
            uint32_t bit = node >> 23 & 31, one_side = node & 0xffff;
            if ((node >> 16 & 0x7f) != 0 || bit >= width || one_side < index + 2 || one_side > nodes) return refused(9, index);
            tests++;
            index = (word >> bit & 1) == 0 ? index + 1 : one_side;
            break;
        }
        case 9:
            if ((node & 0x0fffff00) != 0) return refused(9, index);
            return (uint64_t)(node & 0xff) | (uint64_t)tests << 16;
        case 10:
            if ((node & 0x0fffffff) != 0) return refused(9, index);
            return 0x100 | (uint64_t)tests << 16;
        default:
            return refused(9, index);
        }
    }
}

/* The mask is only compared: its time is held against that of the C walk, which has no mask to keep. */
static uint32_t mask_in_c(const uint8_t *tree, size_t length, uint32_t word) {
    uint32_t mask = 0;
    if ((walk_in_c(tree, length, word) >> 32 & 0xff) != 0) return 0;
    for (uint32_t index = 1; word_at(tree, index) >> 28 == 8;) {
        uint32_t node = word_at(tree, index), bit = node >> 23 & 31;
        mask |= (uint32_t)1 << bit;
        index = (word >> bit & 1) == 0 ? index + 1 : node & 0xffff;
    }
    return mask;
}

/* ------------------------------------------------------------------------- stand-in for the library */

#ifdef STAND_IN
uint32_t kilnumber_mask(const uint8_t *tree, size_t length, uint32_t word) {
    uint32_t mask = mask_in_c(tree, length, word);
    if (WRONG == 7) mask |= 1;    /* 7: bit 0 is always in it */
    if (WRONG == 8) mask &= word; /* 8: a zero side is not marked */
    if (WRONG == 9 && walk_in_c(tree, length, word) >> 32 == 7) mask = mask_in_c(tree, length, 0); /* 9: for high words */
    return mask;
}

uint64_t kilnumber_walk(const uint8_t *tree, size_t length, uint32_t word) {
    uint64_t result = walk_in_c(tree, length, word);
    uint32_t number = (uint32_t)(result >> 32 & 0xff);
    if (WRONG == 1 && number == 0) result += 1 << 16;                 /* 1: the leaf is counted too */
    if (WRONG == 2 && number == 9) result = 0x100;                    /* 2: a damaged node names nothing */
    if (WRONG == 3 && number == 7) result = walk_in_c(tree, length, 0); /* 3: high bits are let through */
    if (WRONG == 4 && number == 8 && length >= 8) result = 0x100;     /* 4: a wrong header is let through */
    if (WRONG == 5 && number == 9) result &= ~((uint64_t)0xffff << 48); /* 5: no place */
    if (WRONG == 6 && number == 0 && result >> 16 == 32) result ^= 1; /* 6: another entry at the end of the longest path */
    return result;
}
#endif

/* ------------------------------------------------------------------------- the file */

static struct words read_words(const char *name) {
    FILE *file = fopen(name, "rb");
    if (file == NULL || fseek(file, 0, SEEK_END) != 0) stop(name);
    size_t length = (size_t)ftell(file);
    rewind(file);
    uint8_t *bytes = malloc(length + 4);
    struct words words = {malloc(length + 4), length / 4};
    if (bytes == NULL || words.at == NULL || length % 4 != 0 || fread(bytes, 1, length, file) != length) stop(name);
    for (size_t at = 0; at < words.count; at++) words.at[at] = word_at(bytes, at);
    free(bytes);
    fclose(file);
    return words;
}

static void put_word(uint8_t *to, uint32_t word) {
    for (int byte = 0; byte < 4; byte++) to[byte] = (uint8_t)(word >> 8 * byte);
}

static struct words take_run(struct words *from) {
    if (from->count < 1 || from->at[0] > from->count - 1) stop("the file is not whole");
    struct words run = {from->at + 1, from->at[0]};
    from->at += 1 + run.count;
    from->count -= 1 + run.count;
    return run;
}

static struct case_ take_case(struct words *from) {
    struct case_ made = {{0}, NULL, 0, {NULL, 0}, {NULL, 0}, 0};
    if (from->count < NAME_BYTES / 4) stop("the file is not whole");
    for (int part = 0; part < NAME_BYTES / 4; part++) put_word((uint8_t *)made.name + 4 * part, from->at[part]);
    from->at += NAME_BYTES / 4;
    from->count -= NAME_BYTES / 4;
    struct words tree = take_run(from);
    made.tree_bytes = 4 * tree.count;
    made.tree = malloc(made.tree_bytes + 4);
    if (made.tree == NULL) stop("no memory");
    for (size_t at = 0; at < tree.count; at++) put_word(made.tree + 4 * at, tree.at[at]);
    made.words = take_run(from);
    made.answers = take_run(from);
    return made;
}

/* ------------------------------------------------------------------------- equality first */

static size_t compared, with_number[10];

static void compare(const uint8_t *tree, size_t length, uint32_t word) {
    uint64_t in_c = walk_in_c(tree, length, word), proved = kilnumber_walk(tree, length, word);
    if (in_c != proved) {
        printf("walk: word %08x: C %016llx, proved %016llx\n", (unsigned)word, (unsigned long long)in_c,
               (unsigned long long)proved);
        exit(1);
    }
    uint32_t mask = mask_in_c(tree, length, word), proved_mask = kilnumber_mask(tree, length, word);
    if (mask != proved_mask) {
        printf("walk: word %08x: the mask in C %08x, proved %08x\n", (unsigned)word, (unsigned)mask, (unsigned)proved_mask);
        exit(1);
    }
    compared++;
    with_number[in_c >> 32 & 0xff]++;
}

static void check_answers(struct case_ made) {
    for (size_t at = 0; at + 3 <= made.answers.count; at += 3) {
        uint64_t wanted = (uint64_t)made.answers.at[at + 2] << 32 | made.answers.at[at + 1];
        if (walk_in_c(made.tree, made.tree_bytes, made.answers.at[at]) != wanted)
            stop("the C side differs from the second implementation");
        compare(made.tree, made.tree_bytes, made.answers.at[at]);
    }
}

/* Half of the bits are taken near the root, where each path comes by. */
static void check_flipped(struct case_ made) {
    for (uint32_t turn = 0; turn < FLIPS; turn++) {
        size_t near = made.tree_bytes < 32 ? made.tree_bytes : 32;
        size_t byte = turn % 2 == 0 ? turn * 2654435761u % near : turn * 2654435761u % made.tree_bytes;
        made.tree[byte] ^= (uint8_t)(1 << turn / 2 % 8);
        for (size_t at = 0; at < FLIPPED_WALKS; at++) compare(made.tree, made.tree_bytes, made.words.at[at % made.words.count]);
        compare(made.tree, made.tree_bytes, 0xffffffff - turn); /* below width 32 it is too high */
        made.tree[byte] ^= (uint8_t)(1 << turn / 2 % 8);
    }
    for (size_t length = 0; length < 16; length++) compare(made.tree, length, 0);
}

static void check_equal(struct case_ *made) {
    double tests = 0;
    check_answers(*made);
    for (size_t at = 0; at < made->words.count; at++) {
        compare(made->tree, made->tree_bytes, made->words.at[at]);
        tests += (double)kilnumber_tests(walk_in_c(made->tree, made->tree_bytes, made->words.at[at]));
    }
    made->tests = tests / (double)made->words.count;
    check_flipped(*made);
}

/* ------------------------------------------------------------------------- timing */

typedef uint64_t walker(const uint8_t *, size_t, uint32_t);

/* The results are added up, so that no walk can be left out. */
static double timed(walker *walk, struct case_ made, size_t rounds, uint64_t *sum) {
    uint64_t total = 0;
    double before = seconds();
    for (size_t round = 0; round < rounds; round++)
        for (size_t at = 0; at < made.words.count; at++) total += walk(made.tree, made.tree_bytes, made.words.at[at]);
    double taken = seconds() - before;
    *sum = total;
    return taken;
}

static double timed_masks(struct case_ made, size_t rounds, uint64_t *sum) {
    uint64_t total = 0;
    double before = seconds();
    for (size_t round = 0; round < rounds; round++)
        for (size_t at = 0; at < made.words.count; at++) total += kilnumber_mask(made.tree, made.tree_bytes, made.words.at[at]);
    double taken = seconds() - before;
    *sum = total;
    return taken;
}

static uint64_t masks_in_c(struct case_ made, size_t rounds) {
    uint64_t total = 0;
    for (size_t at = 0; at < made.words.count; at++) total += mask_in_c(made.tree, made.tree_bytes, made.words.at[at]);
    return rounds * total;
}

/* The middle ratios to the walk in C: of the proved walk, and of the proved mask. */
struct medians {
    double walk, mask;
};

/* The sides take turns, so that what else the machine does meets both; each turn gives a ratio of its own. */
static struct medians measure(struct case_ made) {
    double a_round = (made.tests + 4) * (double)made.words.count;
    size_t rounds = (size_t)(LEAST_TESTS / a_round) + 1;
    double c_taken[REPEATS], proved_taken[REPEATS], ratio[REPEATS], mask_taken[REPEATS], mask_ratio[REPEATS];
    uint64_t c_masks = masks_in_c(made, rounds);
    for (int turn = 0; turn < REPEATS; turn++) {
        uint64_t c_sum, proved_sum, proved_masks;
        c_taken[turn] = timed(walk_in_c, made, rounds, &c_sum);
        proved_taken[turn] = timed(kilnumber_walk, made, rounds, &proved_sum);
        ratio[turn] = proved_taken[turn] / c_taken[turn];
        mask_taken[turn] = timed_masks(made, rounds, &proved_masks);
        mask_ratio[turn] = mask_taken[turn] / c_taken[turn];
        if (c_sum != proved_sum || c_masks != proved_masks) stop("the sums differ");
    }
    struct times c_times = times_of(c_taken), proved_times = times_of(proved_taken), ratios = times_of(ratio);
    struct medians medians = {ratios.median, times_of(mask_ratio).median};
    double walks = 1e-9 * (double)rounds * (double)made.words.count;
    printf("%-16s %8.1f  %8.2f %8.2f %8.2f  %8.2f %8.2f %8.2f  %5.2f  %5.2f %5.2f %5.2f  %8.2f %5.2f\n", made.name, made.tests,
           c_times.best / walks, c_times.median / walks, c_times.worst / walks, proved_times.best / walks,
           proved_times.median / walks, proved_times.worst / walks, proved_times.best / c_times.best, ratios.best,
           ratios.median, ratios.worst, times_of(mask_taken).median / walks, medians.mask);
    return medians;
}

int main(int arguments, char **argument) {
    if (arguments != 2) stop("usage: walk file");
    struct words file = read_words(argument[1]);
    size_t count = file.count > 0 ? file.at[0] : 0;
    struct words left = {file.at + 1, file.count - 1};
    struct case_ *made = calloc(count + 1, sizeof *made);
    if (made == NULL || count == 0) stop("no trees");
    for (size_t at = 0; at < count; at++) {
        made[at] = take_case(&left);
        check_equal(&made[at]);
    }
    printf("equal: %zu walks and masks; number 7: %zu, 8: %zu, 9: %zu\n", compared, with_number[7], with_number[8],
           with_number[9]);
    if (with_number[7] < 100 || with_number[8] < 100 || with_number[9] < 100) stop("too few refusals were compared");
#ifndef STAND_IN
    printf("ns a walk: tests; C: best, median, worst; proved: best, median, worst; ratio of best; of turns: least, median,"
           " most;\n           the proved mask: median, and its median ratio to the C walk\n");
    struct medians worst = {0, 0};
    for (size_t at = 0; at < count; at++) {
        struct medians ratio = measure(made[at]);
        if (ratio.walk > worst.walk) worst.walk = ratio.walk;
        if (ratio.mask > worst.mask) worst.mask = ratio.mask;
    }
    printf("largest median ratio proved to C: %.2f\n", worst.walk);
    printf("largest median ratio of the proved mask to the C walk: %.2f\n", worst.mask);
#else
    (void)measure;
#endif
    return 0;
}
