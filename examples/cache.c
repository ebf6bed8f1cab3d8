/*
 * Walks each item of a firmware image through a cache of walks (cache.h) and without it, and says how often the cache was hit.
 *
 *   target/bin/mktree < data/avr.table | python3 examples/tree_file.py target/avr.tree
 *   tools/build kilnumber
 *   gcc -std=c11 -O2 -Iinclude examples/cache.c target/staticlib/libkilnumber.a -o target/cache
 *   target/cache data/avr.table target/avr.tree examples/avr.image
 *
 * Table and tree are files of words, low byte first; the image is bytes as they lie in flash, each halfword low byte first.
 *
 * It exits with 0 if all answers are the same, with 1 if one differs or something was refused, and with 2 if a file is no good, or what is printed is lost.
 */

#include <stdio.h>
#include <stdlib.h>

#include "cache.h"
#include "files.h"
#include "items.h"
#include "kilnumber.h"
#include "refusals.h"

/* Whether the cache's answer is another than the tree's. */
static int differs(struct cache *cache, uint32_t word) {
    uint64_t cached = cache_walk(cache, word), walked = kilnumber_walk_words(cache->tree, cache->tree_words, word);
    if (cached == walked) return 0;
    printf("word %08x: %016llx from the cache, %016llx from the tree\n", (unsigned)word, (unsigned long long)cached,
           (unsigned long long)walked);
    return 1;
}

static int walk_items(struct words tree, struct bytes image, const uint32_t *items, uint32_t count) {
    static struct cache cache;
    int differ = 0;
    cache_start(&cache, tree.at, tree.count);
    for (uint32_t at = 0; at < count; at++) differ |= differs(&cache, word_of(image, items[at]));
    printf("%u items: %llu hits, %llu misses\n", (unsigned)count, (unsigned long long)(count - cache.misses),
           (unsigned long long)cache.misses);
    return differ;
}

int main(int arguments, char **argument) {
    if (arguments != 4) stop("usage", "cache table tree image");
    struct words table = read_words(argument[1]), tree = read_words(argument[2]);
    struct bytes image = read_file(argument[3]);
    size_t room = image.count / 2; /* as many items as halfwords, at most: never KILNUMBER_NO_ROOM */
    uint32_t *items = malloc(4 * room + 1);
    if (items == NULL) stop(argument[3], "no memory");
    uint64_t result = kilnumber_list(table.at, table.count, tree.at, tree.count, image.at, image.count, items, room);
    int failed = is_refused(result, table) || walk_items(tree, image, items, kilnumber_items(result));
    free(table.at);
    free(tree.at);
    free(image.at);
    free(items);
    finish_printing();
    return failed;
}
