/*
 * Compares the cache of the examples (examples/cache.h) with walks without it: all words of narrow trees, words of other trees
 * that differ in few bits, words that are too high, trees that are damaged or that no table has.
 *
 * Usage: cache_test file, where the file holds generated trees (make_trees.py). Prints one line with the counts; at the first
 * difference it exits with status 1.
 *
 *   gcc -std=c11 -O2 -Wall -Wextra -fsanitize=address,undefined -Iinclude -Iexamples tests/c/cache_test.c libkilnumber.a \
 *       -o cache_test
 */

#include "cache.h"
#include "trees.h"

#define NARROW 12 /* bits: all words of such trees are walked */
#define ROUNDS 3

static uint64_t walks, hits, refusals[10];
static struct cache cache;

static void differs(const char *what, uint32_t word, uint64_t seen, uint64_t wanted) {
    printf("difference: %s: header %08x, word %08x: seen %016llx, wanted %016llx\n", what, (unsigned)lent[0], (unsigned)word,
           (unsigned long long)seen, (unsigned long long)wanted);
    exit(1);
}

/* One walk through the cache, and the same at once again: now it must hit, if the walk finishes, and else not. */
static void compare(uint32_t word) {
    uint64_t wanted = kilnumber_walk_words(cache.tree, cache.tree_words, word), before = cache.misses;
    uint64_t seen = cache_walk(&cache, word);
    if (seen != wanted) differs("the answer", word, seen, wanted);
    walks++;
    hits += cache.misses == before;
    refusals[kilnumber_number(wanted)]++;
    before = cache.misses;
    seen = cache_walk(&cache, word);
    if (seen != wanted) differs("the answer again", word, seen, wanted);
    uint64_t misses = kilnumber_number(wanted) != 0;
    if (cache.misses - before != misses) differs("misses of the same word", word, cache.misses - before, misses);
}

/* Every word of the width, in an order of its own each round, and higher ones among them. */
static void all_words(uint32_t width) {
    uint32_t count = (uint32_t)1 << width;
    for (int round = 0; round < ROUNDS; round++) {
        uint32_t step = any() | 1, word = any();
        for (uint32_t turn = 0; turn < count; turn++, word += step) {
            compare(word & (count - 1));
            if (turn % 4 == 0) compare((word & (count - 1)) | count << below(32 - width));
        }
    }
}

/* Words near each other, so that many hit: one or two bits change, now and then at or above the width. */
static void near_words(int times) {
    uint32_t word = some_word(lent[0]);
    for (int turn = 0; turn < times; turn++) {
        compare(word);
        compare(word ^ (uint32_t)1 << below(32));
        word = turn % 16 == 0 ? some_word(lent[0]) : word ^ ((uint32_t)1 << below(32) & ~cache.above);
    }
}

static void try_tree(size_t words) {
    uint32_t width = lent[0] >> 16 & 63;
    cache_start(&cache, lent, words);
    if (width != 0 && width <= NARROW) all_words(width);
    cache_start(&cache, lent, words);
    near_words(200);
}

/* A node on most paths, then the header. */
static void try_damaged(size_t words) {
    uint32_t nodes = lent[0] & 0xffff, index = 1 + below(nodes < 8 ? nodes : 8), node = lent[index], header = lent[0];
    alter_node(index, nodes);
    try_tree(words);
    lent[index] = node;
    alter_header(words);
    cache_start(&cache, lent, words);
    near_words(20);
    lent[0] = header;
}

int main(int arguments, char **argument) {
    if (arguments != 2) {
        printf("usage: cache_test file\n");
        return 2;
    }
    struct trees trees = open_trees(argument[1]);
    for (size_t words = next_tree(&trees); words != 0; words = next_tree(&trees)) {
        try_tree(words);
        for (int turn = 0; turn < 4; turn++) try_damaged(words);
    }
    for (uint32_t turn = 0; turn < 600; turn++) {
        size_t words = make_foreign(1 + turn % 32, 1 + below(60), 0);
        try_tree(words);
        try_damaged(words);
    }
    cache_start(&cache, lent, 0); /* no header */
    near_words(20);
    require(hits, 500000, "hits");
    for (int number = 7; number <= 9; number++) require(refusals[number], 10000, "a number of refusals");
    printf("cache_test good: %llu walks, %llu hits; number 7: %llu, 8: %llu, 9: %llu\n", (unsigned long long)walks,
           (unsigned long long)hits, (unsigned long long)refusals[7], (unsigned long long)refusals[8],
           (unsigned long long)refusals[9]);
    return 0;
}
