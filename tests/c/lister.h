/*
 * The items of an image by the walker in C (walker.h), written from documents 01 and 02 alone, for the tests of listings; and the tables with
 * trees that make_halves.py writes. Whoever includes it includes words_file.h before it.
 */

#ifndef LISTER_H
#define LISTER_H

#include "walker.h"

#define NOTHING 256u
#define SEVERAL 257u

struct table {
    const uint32_t *words, *tree, *lengths;
    size_t count, nodes, entries; /* nodes: words of the tree */
};

struct item {
    uint32_t kind, entry;
    size_t next; /* the address after it */
};

static uint64_t walks;

static inline uint32_t named_by(const struct table *table, uint32_t word) {
    struct outcome outcome = walk((const uint8_t *)table->tree, 4 * table->nodes, word);
    if (outcome.number != 0) stop("a tree of the file is refused");
    walks++;
    return outcome.nothing ? NOTHING : outcome.entry;
}

/* What the walks of all words with this upper half name, if they name the same. */
static inline uint32_t named_by_all(const struct table *table, uint32_t upper) {
    uint32_t first = named_by(table, upper << 16), named = first;
    for (uint32_t lower = 1; lower < 65536; lower++)
        if (named_by(table, upper << 16 | lower) != first) named = SEVERAL;
    return named;
}

/* "With the lower half missing, the item is now kind 12 exactly if all 65,536 lower halves select the same entry of length 16, kind 13 if
 * all of them select nothing, and kind 14 otherwise." */
static inline uint32_t last_kind(const struct table *table, uint32_t named) {
    if (named == SEVERAL) return 14;
    if (named == NOTHING) return 13;
    return table->lengths[named] == 16 ? 12 : 14;
}

static inline uint32_t half_at(const uint8_t *image, size_t address) {
    return (uint32_t)image[2 * address] | (uint32_t)image[2 * address + 1] << 8;
}

/* The item at an address of an image of so many halfwords, the last of which names `last` by all walks. */
static inline struct item item_at(const struct table *table, const uint8_t *image, size_t halves, size_t address, uint32_t last) {
    struct item item = {13, 0, address + 1};
    uint32_t named = last;
    if (address + 1 == halves) {
        item.kind = last_kind(table, last);
    } else {
        named = named_by(table, half_at(image, address) << 16 | half_at(image, address + 1)); /* "full words read as before" */
        if (named != NOTHING) item.kind = 12, item.next = address + table->lengths[named] / 16;
    }
    if (item.kind == 12) item.entry = named;
    return item;
}

static inline uint32_t item_of(uint32_t kind, uint32_t entry, size_t address) { return kind << 28 | entry << 20 | (uint32_t)address; }
static inline uint32_t item_word(struct item item, size_t address) { return item_of(item.kind, item.entry, address); }

/* A run of the file: how many words, then the words. */
static inline const uint32_t *run_at(const uint32_t *words, size_t count, size_t *at, size_t *length) {
    if (*at >= count || words[*at] > count - *at - 1) stop("the file is not whole");
    const uint32_t *run = words + *at + 1;
    *length = words[*at];
    *at += 1 + *length;
    return run;
}

/* A table, its tree and its entries' lengths. */
static inline struct table table_at(const uint32_t *words, size_t count, size_t *at) {
    struct table table;
    table.words = run_at(words, count, at, &table.count);
    table.tree = run_at(words, count, at, &table.nodes);
    table.lengths = run_at(words, count, at, &table.entries);
    return table;
}

#endif
