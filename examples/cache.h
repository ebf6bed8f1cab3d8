/*
 * A small cache of walks, for a simulator that meets the same instructions again and again: cache_walk answers what
 * kilnumber_walk_words answers, and walks only where it must. A walk is kept with the mask of the bits that it tested, so it
 * serves all words that agree with its word there, whatever their operands are.
 *
 * A cache belongs to one tree, which may not change meanwhile, and to one thread.
 */

#ifndef CACHE_H
#define CACHE_H

#include "kilnumber.h"

#define CACHE_BITS 10
#define CACHE_SLOTS (1 << CACHE_BITS)

/* A word hits if it has the key's bits where `cover` has ones. */
struct cache_slot {
    uint32_t cover, key;
    uint64_t result;
};

struct cache {
    const uint32_t *tree;
    size_t tree_words;
    uint32_t above; /* the bits at or above the tree's width */
    uint32_t shift;
    uint64_t misses;
    struct cache_slot slot[CACHE_SLOTS];
};

static inline void cache_start(struct cache *cache, const uint32_t *tree, size_t tree_words) {
    uint32_t width = tree_words == 0 ? 32 : tree[0] >> 16 & 63;
    if (width > 32) width = 32; /* such a tree is refused, and nothing is kept */
    cache->tree = tree;
    cache->tree_words = tree_words;
    cache->above = width < 32 ? 0xffffffff << width : 0;
    cache->shift = width > CACHE_BITS ? width - CACHE_BITS : 0;
    cache->misses = 0;
    for (size_t at = 0; at < CACHE_SLOTS; at++) {
        cache->slot[at].cover = 0; /* with this key no word hits */
        cache->slot[at].key = 1;
    }
}

/* By the word's top bits: most tables tell instructions apart there, and operands stand below. A hash of more bits would take in
 * operands, and words that agree on their mask would lie in many slots. */
static inline struct cache_slot *cache_slot_of(struct cache *cache, uint32_t word) {
    return &cache->slot[word >> cache->shift & (CACHE_SLOTS - 1)];
}

/* Walks, and keeps what isn't refused. The bits above the width are covered too, and 0 in the key: no higher word hits. */
static inline uint64_t cache_miss(struct cache *cache, struct cache_slot *slot, uint32_t word) {
    uint64_t result = kilnumber_walk_words(cache->tree, cache->tree_words, word);
    cache->misses++;
    if (kilnumber_number(result) != 0) return result;
    slot->cover = kilnumber_mask_words(cache->tree, cache->tree_words, word) | cache->above;
    slot->key = word & slot->cover;
    slot->result = result;
    return result;
}

static inline uint64_t cache_walk(struct cache *cache, uint32_t word) {
    struct cache_slot *slot = cache_slot_of(cache, word);
    if ((word & slot->cover) == slot->key) return slot->result;
    return cache_miss(cache, slot, word);
}

#endif
