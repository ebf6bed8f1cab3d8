/* The walk of a tree, written from documents 01 and 02 alone, for the tests of the walk, of the mask and of listings. */

#ifndef WALKER_H
#define WALKER_H

#include <stddef.h>
#include <stdint.h>

struct outcome {
    uint32_t number;  /* 0 if the walk finished */
    uint32_t place;
    int nothing;
    uint32_t entry;
    uint32_t tests;
    uint32_t mask; /* the bits tested */
};

static inline uint32_t word_at(const uint8_t *bytes, size_t index) {
    const uint8_t *at = bytes + 4 * index;
    return (uint32_t)at[0] | (uint32_t)at[1] << 8 | (uint32_t)at[2] << 16 | (uint32_t)at[3] << 24;
}

static inline struct outcome refused(uint32_t number, uint32_t place) {
    struct outcome outcome = {number, place, 0, 0, 0, 0};
    return outcome;
}

/* "tree header: length 0, kind, spare bit, width not 1-32, no nodes, more nodes than words after it" */
static inline int header_wrong(const uint8_t *tree, size_t length) {
    if (length % 4 != 0) return 1; /* "a length not a multiple of four gives 8" */
    if (length == 0) return 1;
    uint32_t header = word_at(tree, 0);
    uint32_t width = header >> 16 & 63;
    uint32_t nodes = header & 0xffff;
    if (header >> 28 != 7) return 1;
    if ((header >> 22 & 63) != 0) return 1;
    if (width < 1 || width > 32) return 1;
    if (nodes == 0) return 1;
    return nodes > length / 4 - 1;
}

/* "A path node is damaged if ..." */
static inline int node_damaged(uint32_t node, uint32_t index, uint32_t width, uint32_t nodes) {
    switch (node >> 28) {
    case 8:
        if ((node >> 16 & 0x7f) != 0) return 1;
        if ((node >> 23 & 31) >= width) return 1;
        return (node & 0xffff) < index + 2 || (node & 0xffff) > nodes;
    case 9:
        return (node & 0x0fffff00) != 0;
    case 10:
        return (node & 0x0fffffff) != 0;
    default:
        return 1;
    }
}

static inline struct outcome walk(const uint8_t *tree, size_t length, uint32_t word) {
    if (header_wrong(tree, length)) return refused(8, 0);
    uint32_t width = word_at(tree, 0) >> 16 & 63;
    uint32_t nodes = word_at(tree, 0) & 0xffff;
    if (width < 32 && word >> width != 0) return refused(7, 0);
    struct outcome outcome = {0, 0, 0, 0, 0, 0};
    uint32_t index = 1;
    for (;;) {
        uint32_t node = word_at(tree, index);
        if (node_damaged(node, index, width, nodes)) return refused(9, index);
        if (node >> 28 == 9) {
            outcome.entry = node & 0xff;
            return outcome;
        }
        if (node >> 28 == 10) {
            outcome.nothing = 1;
            return outcome;
        }
        outcome.tests++;
        outcome.mask |= (uint32_t)1 << (node >> 23 & 31);
        index = (word >> (node >> 23 & 31) & 1) == 0 ? index + 1 : (node & 0xffff);
    }
}

/* "entry in 7-0, bit 8 for nothing, count in 31-16, number in 39-32 (0 if none), place in 63-48, the rest zero" */
static inline uint64_t packed(struct outcome outcome) {
    return (uint64_t)outcome.entry | (uint64_t)outcome.nothing << 8 | (uint64_t)outcome.tests << 16 |
           (uint64_t)outcome.number << 32 | (uint64_t)outcome.place << 48;
}

#endif
