/* The words that a walk takes for the items of a listing. */

#ifndef ITEMS_H
#define ITEMS_H

#include "files.h"
#include "kilnumber.h"

/* The halfword at an address, 0 past the image's end. */
static inline uint32_t half_at(struct bytes image, size_t address) {
    if (2 * address + 2 > image.count) return 0;
    return (uint32_t)image.at[2 * address] | (uint32_t)image.at[2 * address + 1] << 8;
}

/* The item's halfword in the upper half, the next one in the lower. At the image's end zeros stand for a missing lower half: the walk of
 * that word has the last item's mask, but what the item is all lower halves decide together. */
static inline uint32_t word_of(struct bytes image, uint32_t item) {
    size_t address = kilnumber_item_address(item);
    return half_at(image, address) << 16 | half_at(image, address + 1);
}

#endif
