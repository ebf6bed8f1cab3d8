/* A stand-in for kilnumber_mask: right, or with WRONG_MASK 1 to 12 wrong in one way. */

#ifndef WRONG_MASK_H
#define WRONG_MASK_H

#include "walker.h"

/* The bits tested up to the node `place`, or to a node after which a walk can't go on. */
static uint32_t path_mask(const uint8_t *tree, size_t words, uint32_t word, uint32_t place) {
    uint32_t mask = WRONG_MASK == 1; /* 1: starts at 1 */
    uint32_t last = 0;
    for (uint32_t index = 1; index < words && index != place;) {
        uint32_t node = word_at(tree, index);
        if (node >> 28 != 8 || (node & 0xffff) <= index) break;
        uint32_t tested = node >> 23 & 31;
        int one = (word >> tested & 1) != 0;
        if (WRONG_MASK == 11) tested = (word_at(tree, 0) >> 16 & 63) - 1 - tested; /* 11: counted from the other end */
        uint32_t bit = (uint32_t)1 << tested;
        last = bit;
        if (WRONG_MASK == 7) mask ^= bit;             /* 7: a bit tested twice is taken out */
        else if (WRONG_MASK != 2 || one) mask |= bit; /* 2: a zero side is not marked */
        index = one ? node & 0xffff : index + 1;
    }
    return WRONG_MASK == 6 ? mask & ~last : mask; /* 6: the last bit tested is missing */
}

uint32_t kilnumber_mask(const uint8_t *tree, size_t length, uint32_t word) {
    if (WRONG_MASK == 9) length -= length % 4; /* 9: trailing bytes are dropped */
    struct outcome outcome = walk(tree, length, word);
    int kept = (WRONG_MASK == 3 && outcome.number == 9) ||                /* 3: the bits before a damaged node */
               (WRONG_MASK == 4 && outcome.number == 7) ||                /* 4: the bits for a word that is too high */
               (WRONG_MASK == 10 && outcome.number == 8 && length >= 4); /* 10: the bits under a wrong header */
    if (outcome.number != 0 && !kept) return 0;
    if (WRONG_MASK == 5) return word; /* 5: the word for its mask */
    uint32_t width = word_at(tree, 0) >> 16 & 63;
    if (WRONG_MASK == 8) return 0xffffffff >> (32 - width); /* 8: all bits of the width */
    uint32_t above = WRONG_MASK == 12 && width < 32 ? (uint32_t)1 << width : 0; /* 12: a bit at the width */
    return path_mask(tree, length / 4, word, outcome.place) | above;
}

#endif
