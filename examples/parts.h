/*
 * Lists an image of any length in parts that kilnumber_list takes. Of each part but the final one the last item is left out, since what comes
 * after the part may decide it, and the next part begins at its address. examples/lister.c goes through an image so.
 */

#ifndef PARTS_H
#define PARTS_H

#include "kilnumber.h"

struct part {
    uint64_t result; /* kilnumber_list's, of this part */
    uint32_t count;  /* how many of its items to take, 0 after a refusal */
    size_t next;     /* the byte where the next part begins; the image's length after the final one */
};

/* All that is left, or `most`. An odd image that is longer has an odd part first: it is refused before anything is listed. */
static inline size_t part_length(size_t left, size_t most) { return left <= most ? left : most - left % 2; }

/* Lists the part that begins at byte `start`; addresses in its items count from there. `most` is the bytes of a part: even, at least 6 (of
 * three halfwords some item is not the last), and at most KILNUMBER_MOST_IMAGE_BYTES. `items` has a word for each halfword of a part. */
static inline struct part list_part(const uint32_t *table, size_t table_words, const uint32_t *tree, size_t tree_words,
                                    const uint8_t *image, size_t image_bytes, size_t start, size_t most, uint32_t *items) {
    size_t length = part_length(image_bytes - start, most);
    uint64_t result = kilnumber_list(table, table_words, tree, tree_words, image + start, length, items, length / 2);
    struct part part = {result, 0, start + length};
    if (kilnumber_number(result) != 0) return part;
    part.count = kilnumber_items(result);
    if (part.next == image_bytes) return part;
    part.count--;
    part.next = start + 2 * (size_t)kilnumber_item_address(items[part.count]);
    return part;
}

#endif
