/*
 * The last halfword of an image (document 02's No. 6): kilnumber_list against the walks of all 65,536 words that the halfword begins, by the
 * walker in C (walker.h). Usage: halves_test file, which make_halves.py writes. The halfword is listed by itself, and after two others.
 * It prints one line with the counts; at the first difference it prints both items and exits with status 1.
 *
 * With -DSTAND_IN there is no library: kilnumber_list then descends the tree; with WRONG=1 and so on in the environment it is wrong in one
 * way, to show that the test notices.
 *
 * Everything lent lies directly before a page that can't be touched. Table, tree and image must be the same afterwards.
 */

#define _DEFAULT_SOURCE
#include <stdio.h>
#include <stdlib.h>

#include "kilnumber.h"

#define TEST "halves_test"
#include "words_file.h"

#include "lending.h"
#include "lister.h"

#define MOST_HALVES 3u
#define ROOM (MOST_HALVES + 1)
#define MARK 0x5eed5eedu

/* ------------------------------------------------------------------------- stand-in for the library */

#ifdef STAND_IN
#include "wrong.h"

static const struct table *standing;

static uint32_t both(uint32_t zero, uint32_t one) {
    if (WRONG == 1) return zero;                                                            /* 1: zeros below decide */
    if (WRONG == 2) return one;                                                             /* 2: ones below decide */
    if (WRONG == 3 && (zero == NOTHING || one == NOTHING)) return NOTHING;                  /* 3: nothing with some is nothing */
    if (WRONG == 4 && zero != one) return NOTHING;                                          /* 4: several are nothing */
    if (WRONG == 5 && zero < NOTHING && standing->lengths[zero] == 16) return zero;         /* 5: a short one for some */
    return zero == one ? zero : SEVERAL;
}

/* What all lower halves name from a node on. */
static uint32_t named_from(const uint32_t *tree, uint32_t index, uint32_t upper) {
    uint32_t node = tree[index], bit = node >> 23 & 31;
    if (node >> 28 != 8) return node >> 28 == 9 ? node & 0xff : NOTHING;
    uint32_t lowest = WRONG == 6 ? 15 : WRONG == 7 ? 17 : 16;                               /* 6: bit 15 is there; 7: bit 16 isn't */
    if (bit >= lowest) return named_from(tree, (upper << 16 >> bit & 1) == 0 ? index + 1 : node & 0xffff, upper);
    return both(named_from(tree, index + 1, upper), named_from(tree, node & 0xffff, upper));
}

static uint32_t last_item(uint32_t upper, size_t address) {
    const uint32_t *tree = standing->tree;
    uint32_t named = named_from(tree, 1, upper);
    if (WRONG == 8) {                                                                       /* 8: the lower halves 0 and 0xffff alone */
        struct outcome zero = walk((const uint8_t *)tree, 4 * standing->nodes, upper << 16);
        struct outcome one = walk((const uint8_t *)tree, 4 * standing->nodes, upper << 16 | 0xffff);
        uint32_t zeros = zero.nothing ? NOTHING : zero.entry, ones = one.nothing ? NOTHING : one.entry;
        named = zeros == ones ? zeros : SEVERAL;
    }
    if (WRONG == 14) address = 0;                                                           /* 14: without the address */
    if (named == NOTHING) return item_of(13, 0, address);
    if (named < NOTHING && (standing->lengths[named] == 16 || WRONG == 9)) return item_of(12, named, address); /* 9: a long one too */
    if (WRONG == 10 && named < NOTHING) return item_of(14, named, address);                 /* 10: with the entry */
    if (WRONG == 11 && named < NOTHING) return item_of(13, 0, address);                     /* 11: a long one is nothing */
    return item_of(14, 0, address);
}

uint64_t kilnumber_list(const uint32_t *table, size_t table_words, const uint32_t *tree, size_t tree_words, const uint8_t *image,
                        size_t image_bytes, uint32_t *items, size_t room) {
    size_t halves = image_bytes / 2, address = 0, count = 0;
    (void)table, (void)table_words;
    if (WRONG == 15) ((volatile uint8_t *)(uintptr_t)image)[image_bytes - 1] ^= 1;          /* 15: the image is written */
    if (WRONG == 16 && ((const volatile uint8_t *)image)[image_bytes] == 0) return 0;       /* 16: a byte after it is read */
    while (address < halves) {
        uint32_t upper = (uint32_t)image[2 * address] | (uint32_t)image[2 * address + 1] << 8;
        size_t last = WRONG == 12 && halves > 1 ? halves - 2 : halves - 1;                  /* 12: the last but one so too */
        if (count == room && !(WRONG == 13 && address + 1 == halves)) return (uint64_t)17 << 32 | address; /* 13: no 17 for the last */
        if (count == room) break;
        if (address >= last) {
            items[count] = last_item(upper, address);
            address = halves;
        } else {
            uint32_t lower = (uint32_t)image[2 * address + 2] | (uint32_t)image[2 * address + 3] << 8;
            struct outcome outcome = walk((const uint8_t *)tree, 4 * tree_words, upper << 16 | lower);
            items[count] = outcome.nothing ? item_of(13, 0, address) : item_of(12, outcome.entry, address);
            address += outcome.nothing ? 1 : standing->lengths[outcome.entry] / 16;
        }
        count++;
    }
    if (WRONG == 17 && count < room) items[count] = 0;                                      /* 17: the word after the items is changed */
    return count;
}
#endif

/* ------------------------------------------------------------------------- what must be listed */

static struct room table_room, tree_room, image_room, items_room;
static uint64_t full_items, by_kind[15], with_zeros_below[15]; /* the last: another kind than the walk of zeros below has */

struct wanted {
    uint32_t items[ROOM];
    size_t count, addresses[ROOM];
};

/* The items of the image whose last halfword names `last` by all walks. */
static struct wanted wanted_of(const struct table *table, const uint8_t *image, size_t halves, uint32_t last) {
    struct wanted wanted = {{0}, 0, {0}};
    for (size_t address = 0; address < halves; wanted.count++) {
        struct item item = item_at(table, image, halves, address, last);
        wanted.addresses[wanted.count] = address;
        wanted.items[wanted.count] = item_word(item, address);
        full_items += address + 1 < halves;
        address = item.next;
    }
    return wanted;
}

/* ------------------------------------------------------------------------- the comparison */

static void differs(const char *what, const struct table *table, const uint8_t *bytes, size_t halves, uint64_t expected, uint64_t seen) {
    printf("difference: %s: halfwords", what);
    for (size_t at = 0; at < halves; at++) printf(" %04x", (unsigned)half_at(bytes, at));
    printf(": expected %016llx, seen %016llx; the table:", (unsigned long long)expected, (unsigned long long)seen);
    for (size_t at = 0; at < table->count; at++) printf(" %08x", (unsigned)table->words[at]);
    printf("\n");
    exit(1);
}

static void compare(const struct table *table, const uint8_t *bytes, size_t halves, struct wanted wanted, size_t room) {
    static const uint32_t marked[ROOM] = {MARK, MARK, MARK, MARK};
    const uint32_t *words = lend(table_room, table->words, table->count, 0), *tree = lend(tree_room, table->tree, table->nodes, 0);
    uint8_t *image = lend_bytes(image_room, bytes, 2 * halves, 0);
    uint32_t *items = (uint32_t *)(void *)lend_bytes(items_room, marked, 4 * room, 0);
    uint64_t expected = room < wanted.count ? (uint64_t)17 << 32 | wanted.addresses[room] : wanted.count;
    uint64_t seen = kilnumber_list(words, table->count, tree, table->nodes, image, 2 * halves, items, room);
    if (seen != expected) differs("a listing", table, bytes, halves, expected, seen);
    for (size_t at = 0; at < room; at++)
        if (items[at] != (at < wanted.count ? wanted.items[at] : MARK))
            differs(at < wanted.count ? "an item" : "a word after the items", table, bytes, halves,
                    at < wanted.count ? wanted.items[at] : MARK, items[at]);
    require_unchanged(words, table->words, table->count);
    require_unchanged(tree, table->tree, table->nodes);
    if (memcmp(image, bytes, 2 * halves) != 0) differs("the image has changed", table, bytes, halves, 0, 0);
}

/* Room for a word more than the items, for all but the last, and for none. */
static void try_image(const struct table *table, const uint32_t *half, size_t halves, uint32_t last) {
    uint8_t bytes[2 * MOST_HALVES];
    for (size_t at = 0; at < halves; at++) bytes[2 * at] = (uint8_t)half[at], bytes[2 * at + 1] = (uint8_t)(half[at] >> 8);
    struct wanted wanted = wanted_of(table, bytes, halves, last);
    compare(table, bytes, halves, wanted, wanted.count + 1);
    compare(table, bytes, halves, wanted, wanted.count - 1);
    compare(table, bytes, halves, wanted, 0);
}

static void try_upper(const struct table *table, uint32_t upper, uint32_t drawn) {
    uint32_t three[MOST_HALVES] = {drawn & 0xffff, drawn >> 16, upper}, last = named_by_all(table, upper);
    uint32_t kind = last_kind(table, last), of_zeros = last_kind(table, named_by(table, upper << 16));
    by_kind[kind]++;
    with_zeros_below[of_zeros] += kind != of_zeros;
    try_image(table, &upper, 1, last);
    try_image(table, three, 3, last);
    /* The halfword twice and once more: a full word that has it for its upper half, and the last one. */
    three[0] = three[1] = upper;
    try_image(table, three, 3, last);
    try_image(table, three + 1, 2, last);
}

int main(int arguments, char **argument) {
    if (arguments != 2) stop("usage: halves_test file");
    size_t count, at = 1, uppers, tried = 0;
    uint32_t *words = read_words(argument[1], &count), drawn = 1;
    table_room = make_room();
    tree_room = make_room();
    image_room = make_room();
    items_room = make_room();
    for (uint32_t turn = 0; turn < words[0]; turn++) {
        struct table table = table_at(words, count, &at);
        const uint32_t *upper = run_at(words, count, &at, &uppers);
#ifdef STAND_IN
        standing = &table;
#endif
        for (size_t one = 0; one < uppers; one++, tried++) {
            drawn = drawn * 1664525u + 1013904223u;
            try_upper(&table, upper[one], drawn);
        }
    }
    if (at != count) stop("the file is not whole");
    printf("halves_test good: %zu last halfwords, kind 12: %llu, 13: %llu, 14: %llu (of these by zeros below 12: %llu, 13: %llu); %llu "
           "walks, %llu full words before them\n", tried, (unsigned long long)by_kind[12], (unsigned long long)by_kind[13],
           (unsigned long long)by_kind[14], (unsigned long long)with_zeros_below[12], (unsigned long long)with_zeros_below[13],
           (unsigned long long)walks, (unsigned long long)full_items);
    if (by_kind[12] < 200 || by_kind[13] < 60 || by_kind[14] < 350) stop("too few of a kind");
    if (with_zeros_below[12] < 60 || with_zeros_below[13] < 20) stop("too few that zeros below would have otherwise");
    if (walks < 65536 * (uint64_t)tried || full_items < 2000) stop("too few walks");
    free(words);
    return 0;
}
