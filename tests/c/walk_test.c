/*
 * Compares kilnumber_walk and kilnumber_mask, called from C as the simulator does, with a walker written from documents 01 and 02
 * alone (walker.h).
 *
 * Usage: walk_test file, where the file holds generated trees (make_trees.py). Prints one line with the counts; at the
 * first difference it prints both results and exits with status 1.
 *
 *   gcc -std=c11 -O2 -Wall -Wextra -fsanitize=address,undefined -Iinclude tests/c/walk_test.c libkilnumber.a -o walk_test
 *
 * With -DSTAND_IN there is no library: the two calls are then copies of that walker, and with WRONG=1 and so on in the environment one of them is
 * wrong in one way, to show that the test notices: 1 to 18 the walk here, from 19 on the mask in wrong_mask.h.
 *
 * Every tree lies directly before a page that can't be read, so a library that reads past the end breaks off, although
 * the sanitizers don't see into it.
 */

#define _DEFAULT_SOURCE
#include <sys/mman.h>
#include <unistd.h>

#include "kilnumber.h"
#include "trees.h"

#define LEAST_WALKS 2000000u

/* ------------------------------------------------------------------------- stand-in for the library */

#ifdef STAND_IN
#include "wrong.h"
#define WRONG_MASK (WRONG - 18)
#include "wrong_mask.h"

uint64_t kilnumber_walk(const uint8_t *tree, size_t length, uint32_t word) {
    if (length % 4 != 0) {
        if (WRONG != 1) return (uint64_t)8 << 32;
        length -= length % 4; /* 1: trailing bytes are dropped */
    }
    if (length == 0) return (uint64_t)8 << 32;
    uint32_t header = word_at(tree, 0);
    uint32_t width = header >> 16 & 63, nodes = header & 0xffff;
    if (WRONG == 2 && width < 32 && word >> width != 0) return (uint64_t)7 << 32; /* 2: 7 before 8 */
    if (header >> 28 != 7) return (uint64_t)8 << 32;
    if (WRONG != 3 && (header >> 22 & 63) != 0) return (uint64_t)8 << 32; /* 3: the header's spare bits are not looked at */
    if (width < 1 || width > 32) return (uint64_t)8 << 32;
    if (nodes == 0) return (uint64_t)8 << 32;
    if (WRONG == 4 ? nodes > length / 4 : nodes > length / 4 - 1) return (uint64_t)8 << 32; /* 4: the header counts as a node */
    if (WRONG == 5 && length / 4 - 1 > nodes) return (uint64_t)8 << 32; /* 5: words after the tree are refused */
    if (WRONG == 6) word &= width < 32 ? ((uint32_t)1 << width) - 1 : 0xffffffff; /* 6: high bits are cut off */
    if (width < 32 && word >> width != 0) return WRONG == 7 ? (uint64_t)7 << 32 | (uint64_t)1 << 48 : (uint64_t)7 << 32; /* 7: a place with 7 */
    uint32_t index = 1, tests = 0;
    for (;;) {
        if (index > length / 4 - 1) return (uint64_t)9 << 32;
        uint32_t node = word_at(tree, index);
        uint32_t one_side = node & 0xffff;
        int damaged = node_damaged(node, index, width, nodes);
        if (WRONG == 8 && node >> 28 == 8 && one_side == index + 1) damaged = 0; /* 8: own + 1 is let through */
        if (WRONG == 9 && node >> 28 == 8 && one_side > nodes && one_side < length / 4) damaged = 0; /* 9: up to the last word */
        if (WRONG == 10 && node >> 28 == 8 && (node >> 23 & 31) == width && (node >> 16 & 0x7f) == 0 &&
            one_side >= index + 2 && one_side <= nodes)
            damaged = 0; /* 10: the bit at the width is let through */
        if (WRONG == 11 && node >> 28 == 9) damaged = 0; /* 11: spare bits of a named entry */
        if (WRONG == 12 && node >> 28 == 10) damaged = 0; /* 12: spare bits of nothing */
        if (damaged) {
            uint64_t place = WRONG == 13 ? index - 1 : index; /* 13: places counted from 0 */
            uint64_t count = WRONG == 14 ? tests : 0;         /* 14: the count of a walk that didn't finish */
            return (uint64_t)9 << 32 | place << 48 | count << 16;
        }
        uint64_t count = WRONG == 15 ? tests + 1 : WRONG == 16 ? (tests & 0xff) : tests; /* 15: leaves counted, 16: eight bits */
        if (node >> 28 == 9) return (uint64_t)(node & 0xff) | count << 16;
        if (node >> 28 == 10) return (WRONG == 17 ? (uint64_t)0x1ff : (uint64_t)0x100) | count << 16; /* 17: nothing as entry 255 */
        tests++;
        int one = (word >> (node >> 23 & 31) & 1) != 0;
        if (WRONG == 18 && tests > 32) return (uint64_t)9 << 32 | (uint64_t)index << 48; /* 18: paths over 32 tests are refused */
        index = one ? one_side : index + 1;
    }
}
#endif

/* ------------------------------------------------------------------------- the lent bytes and the comparison */

static uint8_t *guard;       /* the page that can't be read */
static size_t room;          /* bytes before it */

static void prepare_room(void) {
    size_t page = (size_t)sysconf(_SC_PAGESIZE);
    room = (4u * MOST_WORDS + page - 1) / page * page;
    uint8_t *start = mmap(NULL, room + page, PROT_READ | PROT_WRITE, MAP_PRIVATE | MAP_ANONYMOUS, -1, 0);
    if (start == MAP_FAILED || mprotect(start + room, page, PROT_NONE) != 0) {
        perror("mmap");
        exit(2);
    }
    guard = start + room;
}

/* The words as bytes, low byte first, cut to a length in bytes, directly before the guard page. */
static const uint8_t *lend(const uint32_t *words, size_t length) {
    uint8_t *to = guard - length;
    for (size_t at = 0; at < length; at++) to[at] = (uint8_t)(words[at / 4] >> 8 * (at % 4));
    return to;
}

static uint64_t walks, by_number[10], entries, nothings, long_walks, masked;

static void differ(const char *what, const uint8_t *tree, size_t length, uint32_t word, uint64_t expected, uint64_t seen) {
    printf("difference: %s, %zu bytes, word %08x: expected %016llx, seen %016llx\n", what, length, (unsigned)word,
           (unsigned long long)expected, (unsigned long long)seen);
    for (size_t at = 0; at < length / 4 && at < 40; at++) printf(" %08x", (unsigned)word_at(tree, at));
    printf("\n");
    exit(1);
}

static void compare(const char *what, const uint8_t *tree, size_t length, uint32_t word) {
    struct outcome outcome = walk(tree, length, word);
    uint64_t expected = packed(outcome);
    uint64_t seen = kilnumber_walk(tree, length, word);
    int parts_right = kilnumber_number(seen) == outcome.number && kilnumber_place(seen) == outcome.place &&
                      kilnumber_is_nothing(seen) == outcome.nothing && kilnumber_entry(seen) == outcome.entry &&
                      kilnumber_tests(seen) == outcome.tests;
    if (seen != expected || !parts_right) differ(what, tree, length, word, expected, seen);
    uint32_t mask = kilnumber_mask(tree, length, word);
    if (mask != outcome.mask) differ("the mask", tree, length, word, outcome.mask, mask);
    walks++;
    by_number[outcome.number]++;
    if (outcome.number == 0 && outcome.nothing) nothings++;
    if (outcome.number == 0 && !outcome.nothing) entries++;
    if (outcome.number == 0 && outcome.tests > 255) long_walks++;
    if (outcome.mask != 0) masked++;
}

static void walk_often(const char *what, const uint32_t *words, size_t length, int times) {
    const uint8_t *tree = lend(words, length);
    uint32_t header = length >= 4 ? words[0] : 0;
    for (int turn = 0; turn < times; turn++) compare(what, tree, length, some_word(header));
}

/* ------------------------------------------------------------------------- other trees */

/* A tree and what can be made of it: damaged nodes near the root (where paths come by), headers, lengths, words after it. */
static void all_ways(const char *what, size_t words, int times) {
    uint32_t nodes = lent[0] & 0xffff;
    walk_often(what, lent, 4 * words, times);
    for (int turn = 0; turn < times / 4; turn++) {
        uint32_t near = nodes < 12 ? nodes : 12;
        uint32_t index = 1 + (below(4) == 0 ? below(nodes) : below(near));
        uint32_t before = lent[index];
        alter_node(index, nodes);
        walk_often("a node altered", lent, 4 * words, 8);
        lent[index] = before;
    }
    for (int turn = 0; turn < times / 8; turn++) {
        uint32_t before = lent[0];
        alter_header(words);
        walk_often("the header altered", lent, 4 * words, 4);
        lent[0] = before;
    }
    for (int turn = 0; turn < times / 16; turn++) {
        size_t length = below(3) == 0 ? below((uint32_t)(4 * words + 1)) : 4 * words - below(8);
        walk_often("cut", lent, length, 2);
    }
}

static void generated_trees(const char *name) {
    struct trees trees = open_trees(name);
    for (size_t words = next_tree(&trees); words != 0; words = next_tree(&trees)) {
        int times = words < 2000 ? 512 : 64;
        all_ways("generated", words, times);
        size_t after = 1 + below(5);
        for (size_t more = 0; more < after; more++) lent[words + more] = any();
        walk_often("generated, words after it", lent, 4 * (words + after), times / 4);
    }
}

static void foreign_trees(void) {
    for (uint32_t turn = 0; turn < 3000; turn++) {
        uint32_t nodes = turn % 4 == 0 ? 1 + below(400) : 1 + below(24);
        size_t words = make_foreign(1 + turn % 32, nodes, below(3) == 0 ? below(6) : 0);
        all_ways("foreign", words, 192);
    }
}

/* 65,535 nodes, the most that a header can say: a count and a place that fill their sixteen bits. */
static void largest_trees(void) {
    uint32_t nodes = 65535;
    lent[0] = 7u << 28 | 1u << 16 | nodes;
    for (uint32_t index = 1; index + 2 <= nodes; index++) lent[index] = 8u << 28 | (index + 2);
    lent[nodes - 1] = 9u << 28 | 255;
    lent[nodes] = 10u << 28;
    walk_often("longest path", lent, 4u * (nodes + 1), 20);
    lent[1] = 8u << 28 | nodes;
    lent[nodes] = 8u << 28 | nodes;
    walk_often("last node damaged", lent, 4u * (nodes + 1), 20);
    walk_often("one word missing", lent, 4u * nodes, 20);
    for (int turn = 0; turn < 4; turn++) {
        size_t words = make_foreign(32, nodes, (uint32_t)turn);
        walk_often("large foreign", lent, 4 * words, 200);
    }
}

/* A tree at any address: the bytes need no alignment. */
static void unaligned_trees(void) {
    static uint8_t bytes[4 * 64 + 8];
    for (uint32_t turn = 0; turn < 2000; turn++) {
        size_t words = make_foreign(1 + turn % 32, 1 + below(60), 0);
        uint8_t *to = bytes + turn % 8;
        for (size_t at = 0; at < 4 * words; at++) to[at] = (uint8_t)(lent[at / 4] >> 8 * (at % 4));
        for (int again = 0; again < 8; again++) compare("unaligned", to, 4 * words, some_word(lent[0]));
    }
}

int main(int arguments, char **argument) {
    if (arguments != 2) {
        printf("usage: walk_test file\n");
        return 2;
    }
    prepare_room();
    generated_trees(argument[1]);
    foreign_trees();
    largest_trees();
    unaligned_trees();
    require(walks, LEAST_WALKS, "walks");
    require(entries, 300000, "entries named");
    require(nothings, 100000, "nothing named");
    require(long_walks, 10, "walks of more than 255 tests");
    require(by_number[7], 50000, "number 7");
    require(by_number[8], 100000, "number 8");
    require(by_number[9], 200000, "number 9");
    require(masked, 1000000, "masks with a one");
    printf("walk_test good: %llu walks and masks; entry: %llu, nothing: %llu, number 7: %llu, number 8: %llu, number 9: %llu\n",
           (unsigned long long)walks, (unsigned long long)entries, (unsigned long long)nothings,
           (unsigned long long)by_number[7], (unsigned long long)by_number[8], (unsigned long long)by_number[9]);
    return 0;
}
