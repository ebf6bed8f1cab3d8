/*
 * How long walks take with a cache before them: the proved walk of each item of an image, and beside it the same through the
 * cache of examples/cache.h, which walks with the same call where it misses.
 *
 * Usage: cache name table tree image. First every answer is compared; it exits with status 1 at a difference. Then the image is
 * walked round and round, as a firmware's loop is; each turn begins with an empty cache.
 *
 *   gcc -std=c11 -O2 -Iinclude -Iexamples bench/cache.c libkilnumber.a -o cache
 */

#define _POSIX_C_SOURCE 199309L
#include <stdint.h>
#include <stdio.h>
#include <stdlib.h>

#include "times.h"

#include "cache.h"
#include "files.h"
#include "items.h"
#include "kilnumber.h"

#define LEAST_WALKS 1000000u /* of a timed turn */

static struct cache cache;

static void differ(const char *what) {
    printf("cache: %s\n", what);
    exit(1);
}

/* The words of all items of the image. */
static struct words item_words(struct words table, struct words tree, struct bytes image) {
    size_t room = image.count / 2;
    struct words words = {malloc(4 * room + 1), 0};
    if (words.at == NULL) stop("cache", "no memory");
    uint64_t result = kilnumber_list(table.at, table.count, tree.at, tree.count, image.at, image.count, words.at, room);
    if (kilnumber_number(result) != 0 || result == 0) stop("cache", "the listing is refused, or empty");
    words.count = kilnumber_items(result);
    for (size_t at = 0; at < words.count; at++) words.at[at] = word_of(image, words.at[at]);
    return words;
}

static void compare(struct words tree, struct words words) {
    cache_start(&cache, tree.at, tree.count);
    for (int round = 0; round < 2; round++)
        for (size_t at = 0; at < words.count; at++)
            if (cache_walk(&cache, words.at[at]) != kilnumber_walk_words(tree.at, tree.count, words.at[at]))
                differ("an answer of the cache is not the walk's");
}

/* The results are added up, so that no walk can be left out. */
static double timed_walks(struct words tree, struct words words, size_t rounds, uint64_t *sum) {
    uint64_t total = 0;
    double before = seconds();
    for (size_t round = 0; round < rounds; round++)
        for (size_t at = 0; at < words.count; at++) total += kilnumber_walk_words(tree.at, tree.count, words.at[at]);
    double taken = seconds() - before;
    *sum = total;
    return taken;
}

static double timed_cache(struct words tree, struct words words, size_t rounds, uint64_t *sum) {
    uint64_t total = 0;
    double before = seconds();
    cache_start(&cache, tree.at, tree.count);
    for (size_t round = 0; round < rounds; round++)
        for (size_t at = 0; at < words.count; at++) total += cache_walk(&cache, words.at[at]);
    double taken = seconds() - before;
    *sum = total;
    return taken;
}

/* The sides take turns, so that what else the machine does meets both. */
static void measure(const char *name, struct words tree, struct words words) {
    size_t rounds = LEAST_WALKS / words.count + 1;
    double walk_taken[REPEATS], cache_taken[REPEATS], ratio[REPEATS];
    for (int turn = 0; turn < REPEATS; turn++) {
        uint64_t walk_sum, cache_sum;
        walk_taken[turn] = timed_walks(tree, words, rounds, &walk_sum);
        cache_taken[turn] = timed_cache(tree, words, rounds, &cache_sum);
        ratio[turn] = cache_taken[turn] / walk_taken[turn];
        if (walk_sum != cache_sum) differ("the sums differ");
    }
    struct times walk = times_of(walk_taken), cached = times_of(cache_taken), ratios = times_of(ratio);
    double walks = (double)rounds * (double)words.count, scale = 1e9 / walks;
    printf("%-16s %8zu  %5.1f%%  %8.2f %8.2f %8.2f  %8.2f %8.2f %8.2f  %5.2f %5.2f %5.2f\n", name, words.count,
           100 * (1 - (double)cache.misses / walks), scale * walk.best, scale * walk.median, scale * walk.worst,
           scale * cached.best, scale * cached.median, scale * cached.worst, ratios.best, ratios.median, ratios.worst);
}

int main(int arguments, char **argument) {
    if (arguments != 5) stop("usage", "cache name table tree image");
    struct words table = read_words(argument[2]), tree = read_words(argument[3]);
    struct bytes image = read_file(argument[4]);
    struct words words = item_words(table, tree, image);
    compare(tree, words);
    measure(argument[1], tree, words);
    free(table.at);
    free(tree.at);
    free(image.at);
    free(words.at);
    return 0;
}
