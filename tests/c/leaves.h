/* What the leaves of a tree say of a table's entries, for check_test.c and tests/fuzz. */

#ifndef LEAVES_H
#define LEAVES_H

#include <stdint.h>

/* Whether an entry of the table is named by no leaf of a tree that the checker accepts. */
static int leaves_one_out(const uint32_t *table, const uint32_t *tree) {
    uint8_t named[256] = {0};
    for (uint32_t index = 1; index <= (tree[0] & 0xffff); index++)
        if (tree[index] >> 28 == 9) named[tree[index] & 0xff] = 1;
    for (uint32_t entry = 0; entry < (table[0] >> 16 & 0xfff); entry++)
        if (!named[entry]) return 1;
    return 0;
}

#endif
