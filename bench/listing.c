/*
 * How long a whole listing takes: the loop of document 01 in plain C, twice, and beside it the proved lister. One loop in C looks at the
 * tree's header for each item, as a walk of its own does; the other looks once, before the first item. The last halfword is that of
 * document 02's No. 6.
 *
 * Usage: listing table tree image start. The files hold 32-bit words, low byte first, but the image, which is bytes; `start`
 * holds the items of the image's first bytes, as the second implementation lists them (make_listing.py writes all but the table).
 *
 *   gcc -std=c11 -O2 -Wall -Wextra bench/listing.c -o listing                                    the C side alone
 *   gcc -std=c11 -O2 -DKILNUMBER_LIST -Iinclude bench/listing.c libkilnumber.a -o listing        with the proved side
 *   gcc -std=c11 -O2 -DKILNUMBER_LIST -DSTAND_IN -Iinclude bench/listing.c -o listing                      no library, to try the harness
 * and with -DBEFORE also an older library, whose calls all have before_ before their names.
 *
 * With the proved side it also compares every item, and asks for what probe's input can't hold: images of 2,097,152 bytes
 * and more. It exits with status 1 at a difference.
 */

#define _POSIX_C_SOURCE 199309L
#include <stdint.h>
#include <stdio.h>
#include <stdlib.h>
#include <string.h>

#include "times.h"

#ifdef KILNUMBER_LIST
#include "kilnumber.h"
#endif

#define MOST_BYTES 2097152u
#define MARK 0x5eed5eedu

struct words {
    uint32_t *at;
    size_t count;
};

struct bytes {
    uint8_t *at;
    size_t count;
};

static void stop(const char *why) {
    printf("listing: %s\n", why);
    exit(1);
}

/* ------------------------------------------------------------------------- the walk of document 01 */

#define WRONG_WALK 0x200u
#define NOTHING 0x100u

/* "tree header: length 0, kind, spare bit, width not 1-32, no nodes, more nodes than words after it" */
static int header_good(const uint32_t *tree, size_t words) {
    if (words == 0 || tree[0] >> 28 != 7 || (tree[0] >> 22 & 63) != 0) return 0;
    uint32_t width = tree[0] >> 16 & 63, nodes = tree[0] & 0xffff;
    return width >= 1 && width <= 32 && nodes >= 1 && nodes <= words - 1;
}

struct header {
    uint32_t width, nodes;
};

static struct header header_of(const uint32_t *tree) {
    struct header header = {tree[0] >> 16 & 63, tree[0] & 0xffff};
    return header;
}

/* The entry, NOTHING or, for 7 and 9, WRONG_WALK; the header is good.
 * "A path node is damaged if its kind is not 8-10, a spare bit is set, the tested bit is at or above the width, or the one
 * side's index is below its own + 2 or above the number of nodes." */
static inline uint32_t walk_from(const uint32_t *restrict tree, struct header header, uint32_t word) {
    uint32_t index = 1;
    if (header.width < 32 && word >> header.width != 0) return WRONG_WALK;
    for (;;) {
        uint32_t node = tree[index];
        switch (node >> 28) {
        case 8: {
            uint32_t bit = node >> 23 & 31, one_side = node & 0xffff;
            if ((node >> 16 & 0x7f) != 0 || bit >= header.width || one_side < index + 2 || one_side > header.nodes) return WRONG_WALK;
            index = (word >> bit & 1) == 0 ? index + 1 : one_side;
            break;
        }
        case 9:
            return (node & 0x0fffff00) != 0 ? WRONG_WALK : node & 0xff;
        case 10:
            return (node & 0x0fffffff) != 0 ? WRONG_WALK : NOTHING;
        default:
            return WRONG_WALK;
        }
    }
}

/* The header is looked at in each walk, as "Walking: 8, 7, 9" has it. */
static uint32_t walk(const uint32_t *restrict tree, size_t words, uint32_t word) {
    return header_good(tree, words) ? walk_from(tree, header_of(tree), word) : WRONG_WALK;
}

#define SEVERAL 0x300u

static uint32_t leaf_of(uint32_t node) {
    if (node >> 28 == 9) return (node & 0x0fffff00) != 0 ? WRONG_WALK : node & 0xff;
    return node == 10u << 28 ? NOTHING : WRONG_WALK;
}

/* What all words with this upper half name from a node on: as walk_from, or SEVERAL. The tree is a good one: its sides share no node. */
static uint32_t named_from(const uint32_t *restrict tree, struct header header, uint32_t upper, uint32_t index) {
    uint32_t node = tree[index], bit = node >> 23 & 31, one_side = node & 0xffff;
    if (node >> 28 != 8) return leaf_of(node);
    if ((node >> 16 & 0x7f) != 0 || bit >= header.width || one_side < index + 2 || one_side > header.nodes) return WRONG_WALK;
    if (bit >= 16) return named_from(tree, header, upper, (upper >> (bit - 16) & 1) == 0 ? index + 1 : one_side);
    uint32_t zero = named_from(tree, header, upper, index + 1), one = named_from(tree, header, upper, one_side);
    if (zero == WRONG_WALK || one == WRONG_WALK) return WRONG_WALK;
    return zero == one ? zero : SEVERAL;
}

/* ------------------------------------------------------------------------- the listing of documents 01 and 02 */

#define REFUSED SIZE_MAX

/* "offset = 2 x address"; "A halfword is two bytes, low byte first." */
static uint32_t halfword(const uint8_t *image, size_t address) {
    return (uint32_t)image[2 * address] | (uint32_t)image[2 * address + 1] << 8;
}

struct listing {
    const uint8_t *lengths;
    size_t halves, address, items, room;
};

static inline uint32_t word_at(const uint8_t *restrict image, size_t address) {
    return halfword(image, address) << 16 | halfword(image, address + 1);
}

/* The item of a full word; 0 where the walk was refused or the buffer is full. */
static inline int put_item(struct listing *listing, uint32_t named, uint32_t *restrict buffer) {
    size_t address = listing->address;
    if (named == WRONG_WALK || listing->items == listing->room) return 0;
    if (named == NOTHING) {
        buffer[listing->items++] = 13u << 28 | (uint32_t)address;
        listing->address = address + 1;
    } else {
        buffer[listing->items++] = 12u << 28 | named << 20 | (uint32_t)address;
        listing->address = address + listing->lengths[named] / 16;
    }
    return 1;
}

/* The item of the last halfword, if the items before it leave it over; 0 as put_item. "With the lower half missing, the item is now kind 12
 * exactly if all 65,536 lower halves select the same entry of length 16, kind 13 if all of them select nothing, and kind 14 otherwise." */
static int put_last(struct listing *listing, const uint32_t *restrict tree, size_t tree_words, const uint8_t *restrict image,
                    uint32_t *restrict buffer) {
    size_t address = listing->address;
    if (address == listing->halves) return 1;
    uint32_t named = header_good(tree, tree_words) ? named_from(tree, header_of(tree), halfword(image, address), 1) : WRONG_WALK;
    if (named == WRONG_WALK || listing->items == listing->room) return 0;
    if (named == NOTHING) buffer[listing->items++] = 13u << 28 | (uint32_t)address;
    else if (named == SEVERAL || listing->lengths[named] != 16) buffer[listing->items++] = 14u << 28 | (uint32_t)address;
    else buffer[listing->items++] = 12u << 28 | named << 20 | (uint32_t)address;
    listing->address = address + 1;
    return 1;
}

/* The number of items, or REFUSED where the tree is no good or the buffer too short. The header is looked at for each item. */
static size_t list_in_c(const uint32_t *restrict tree, size_t tree_words, const uint8_t *restrict lengths,
                        const uint8_t *restrict image, size_t image_bytes, uint32_t *restrict buffer, size_t room) {
    struct listing listing = {lengths, image_bytes / 2, 0, 0, room};
    while (listing.address + 1 < listing.halves)
        if (!put_item(&listing, walk(tree, tree_words, word_at(image, listing.address)), buffer)) return REFUSED;
    return put_last(&listing, tree, tree_words, image, buffer) ? listing.items : REFUSED;
}

/* The same with one look at the header, before the first item. */
static size_t list_looking_once(const uint32_t *restrict tree, size_t tree_words, const uint8_t *restrict lengths,
                                const uint8_t *restrict image, size_t image_bytes, uint32_t *restrict buffer, size_t room) {
    struct listing listing = {lengths, image_bytes / 2, 0, 0, room};
    if (!header_good(tree, tree_words)) return REFUSED;
    struct header header = header_of(tree);
    while (listing.address + 1 < listing.halves)
        if (!put_item(&listing, walk_from(tree, header, word_at(image, listing.address)), buffer)) return REFUSED;
    return put_last(&listing, tree, tree_words, image, buffer) ? listing.items : REFUSED;
}

/* ------------------------------------------------------------------------- the proved side */

struct listed {
    uint32_t number; /* of the refusal, 0 if there is none */
    size_t items;
};

#ifdef KILNUMBER_LIST
static struct listed proved_list(struct words table, struct words tree, const uint8_t *image, size_t image_bytes,
                                 uint32_t *buffer, size_t room) {
    uint64_t result = kilnumber_list(table.at, table.count, tree.at, tree.count, image, image_bytes, buffer, room);
    struct listed listed = {kilnumber_number(result), kilnumber_items(result)};
    return listed;
}
#endif

#ifdef BEFORE
uint64_t before_kilnumber_list(const uint32_t *table, size_t table_words, const uint32_t *tree, size_t tree_words,
                               const uint8_t *image, size_t image_bytes, uint32_t *items, size_t room);

/* How long the older library takes. Its last item may be another, so only their number is compared. */
static double older_takes(struct words table, struct words tree, struct bytes image, uint32_t *buffer, size_t room, size_t items) {
    double start = seconds();
    uint64_t result = before_kilnumber_list(table.at, table.count, tree.at, tree.count, image.at, image.count, buffer, room);
    double taken = seconds() - start;
    if (result != items) stop("the older library lists another number of items");
    return taken;
}
#endif

/* ------------------------------------------------------------------------- files */

static struct bytes read_file(const char *name) {
    struct bytes bytes = {NULL, 0};
    FILE *file = fopen(name, "rb");
    if (file == NULL || fseek(file, 0, SEEK_END) != 0) stop(name);
    bytes.count = (size_t)ftell(file);
    rewind(file);
    bytes.at = malloc(bytes.count + 4);
    if (bytes.at == NULL || fread(bytes.at, 1, bytes.count, file) != bytes.count) stop(name);
    fclose(file);
    return bytes;
}

static struct words words_of(struct bytes bytes) {
    struct words words = {malloc(bytes.count + 4), bytes.count / 4};
    if (words.at == NULL || bytes.count % 4 != 0) stop("not whole words");
    for (size_t at = 0; at < words.count; at++) {
        const uint8_t *from = bytes.at + 4 * at;
        words.at[at] = (uint32_t)from[0] | (uint32_t)from[1] << 8 | (uint32_t)from[2] << 16 | (uint32_t)from[3] << 24;
    }
    return words;
}

/* The length in bits of each entry of a table that is good. */
static void read_lengths(struct words table, uint8_t lengths[256]) {
    size_t at = 1;
    for (uint32_t entry = 0; entry < (table.at[0] >> 16 & 0xfff); entry++) {
        uint32_t head = table.at[at];
        lengths[entry] = (uint8_t)(head >> 8);
        at += 3 + (head >> 4 & 15);
        for (uint32_t condition = 0; condition < (head & 15); condition++) at += 3 + 3 * (size_t)(table.at[at] & 15);
    }
    if (at != table.count) stop("the table is not as expected");
}

/* ------------------------------------------------------------------------- timing */

static void print_times(const char *what, struct times times, size_t items) {
    printf("%-20s best %8.3f ms, median %8.3f ms, worst %8.3f ms; %6.2f ns an item\n", what, 1e3 * times.best,
           1e3 * times.median, 1e3 * times.worst, 1e9 * times.best / (double)items);
}

static void fill(uint32_t *buffer, size_t count) {
    for (size_t at = 0; at < count; at++) buffer[at] = MARK;
}

/* ------------------------------------------------------------------------- what is compared */

/* The C side must be right before it is a measure: the first bytes against the second implementation. */
static void check_start(struct words tree, const uint8_t lengths[256], struct bytes image, struct words start,
                        uint32_t *buffer, size_t room) {
    size_t bytes = start.at[0];
    if (bytes > image.count) stop("the start is longer than the image");
    size_t items = list_in_c(tree.at, tree.count, lengths, image.at, bytes, buffer, room);
    if (items != start.count - 1 || memcmp(buffer, start.at + 1, 4 * items) != 0)
        stop("the C side differs from the second implementation");
    fill(buffer, room);
    if (list_looking_once(tree.at, tree.count, lengths, image.at, bytes, buffer, room) != items
        || memcmp(buffer, start.at + 1, 4 * items) != 0)
        stop("the C side that looks once differs from the second implementation");
    printf("start good: %zu items of the first %zu bytes\n", items, bytes);
}

static void print_kinds(const uint32_t *buffer, size_t items, const uint8_t lengths[256]) {
    size_t unknown = 0, cut = 0, lasting_two = 0;
    for (size_t at = 0; at < items; at++) {
        unknown += buffer[at] >> 28 == 13;
        cut += buffer[at] >> 28 == 14;
        lasting_two += buffer[at] >> 28 == 12 && lengths[buffer[at] >> 20 & 0xff] == 32;
    }
    printf("%zu items: %zu of 16 bits, %zu of 32 bits, %zu unknown, %zu cut\n", items, items - unknown - cut - lasting_two,
           lasting_two, unknown, cut);
}

#ifdef KILNUMBER_LIST
static void expect(const char *what, struct listed seen, uint32_t number, size_t items) {
    if (seen.number == number && (number != 0 || seen.items == items)) return;
    printf("listing: %s: number %u, %zu items; expected number %u, %zu items\n", what, (unsigned)seen.number, seen.items,
           (unsigned)number, items);
    exit(1);
}

static void check_words_after(const uint32_t *buffer, size_t from, size_t room) {
    for (size_t at = from; at < room; at++)
        if (buffer[at] != MARK) stop("a word after the items was changed");
}

/* Sizes that probe's input can't hold. The image's bytes are followed by three more. */
static void check_limits(struct words table, struct words tree, const uint8_t *image, const uint32_t *wanted, size_t items,
                         uint32_t *buffer, size_t room) {
    fill(buffer, room);
    expect("2,097,152 bytes, exact buffer", proved_list(table, tree, image, MOST_BYTES, buffer, items), 0, items);
    if (memcmp(buffer, wanted, 4 * items) != 0) stop("the items differ");
    check_words_after(buffer, items, room);
    fill(buffer, room);
    expect("one word short", proved_list(table, tree, image, MOST_BYTES, buffer, items - 1), 17, 0);
    if (memcmp(buffer, wanted, 4 * (items - 1)) != 0) stop("the items before 17 differ");
    check_words_after(buffer, items - 1, room);
    fill(buffer, room);
    for (size_t extra = 1; extra <= 3; extra++)
        expect("over 2,097,152 bytes", proved_list(table, tree, image, MOST_BYTES + extra, buffer, room), 16, 0);
    expect("one byte fewer", proved_list(table, tree, image, MOST_BYTES - 1, buffer, room), 16, 0);
    check_words_after(buffer, 0, room);
    printf("limits good\n");
}
#endif

/* ------------------------------------------------------------------------- stand-in for the library */

#ifdef STAND_IN
#ifndef WRONG
#define WRONG 0
#endif

/* 6: the last item is read with zeros for a missing half, as before No. 6. */
static inline void zeros_below(const uint32_t *tree, size_t tree_words, const uint8_t lengths[256], const uint8_t *image, size_t halves,
                               uint32_t *item) {
    size_t address = *item & 0xfffff;
    if (address + 1 != halves) return;
    uint32_t named = walk(tree, tree_words, halfword(image, address) << 16);
    *item = (uint32_t)address | (named == NOTHING ? 13u << 28 : lengths[named] == 16 ? 12u << 28 | named << 20 : 14u << 28);
}

uint64_t kilnumber_list(const uint32_t *table, size_t table_count, const uint32_t *tree, size_t tree_count,
                        const uint8_t *image, size_t image_bytes, uint32_t *buffer, size_t buffer_words) {
    struct words table_words = {(uint32_t *)table, table_count};
    uint8_t lengths[256];
    read_lengths(table_words, lengths);
    uint64_t result;
    if (image_bytes % 2 != 0 || (WRONG != 1 && image_bytes > MOST_BYTES)) { /* 1: no limit to the bytes */
        result = (uint64_t)16 << 32;
    } else {
        if (WRONG == 2) lengths[0] = 48 - lengths[0]; /* 2: one entry has the other length */
        size_t items = list_in_c(tree, tree_count, lengths, image, image_bytes, buffer, buffer_words);
        if (WRONG == 3 && items != REFUSED) buffer[items] = 0; /* 3: the word after the items is changed */
        if (WRONG == 4 && items == REFUSED) buffer[0] = 0;     /* 4: the buffer doesn't hold the earlier items */
        if (WRONG == 5 && items != REFUSED) buffer[items - 1] &= ~(1u << 19); /* 5: addresses of nineteen bits */
        if (WRONG == 6 && items != REFUSED && items > 0) zeros_below(tree, tree_count, lengths, image, image_bytes / 2, buffer + items - 1);
        result = items == REFUSED ? (uint64_t)17 << 32 : (uint64_t)items;
    }
    return result;
}
#endif

int main(int arguments, char **argument) {
    if (arguments != 5) stop("usage: listing table tree image start");
    struct words table = words_of(read_file(argument[1])), tree = words_of(read_file(argument[2]));
    struct bytes image = read_file(argument[3]);
    struct words start = words_of(read_file(argument[4]));
    uint8_t lengths[256] = {0};
    read_lengths(table, lengths);
    if (image.count != MOST_BYTES) stop("the image is not of 2,097,152 bytes");
    image.at = realloc(image.at, image.count + 4); /* the limits are tried with a few bytes more */
    size_t room = image.count / 2 + 16;
    uint32_t *in_c = malloc(4 * room), *once = malloc(4 * room), *proved = malloc(4 * room);
    if (image.at == NULL || in_c == NULL || once == NULL || proved == NULL) stop("no memory");
    fill(in_c, room);
    fill(once, room);
    fill(proved, room);

    check_start(tree, lengths, image, start, in_c, room);
    size_t items = list_in_c(tree.at, tree.count, lengths, image.at, image.count, in_c, room);
    if (items == REFUSED) stop("the C side refuses the image");
    print_kinds(in_c, items, lengths);
#ifdef KILNUMBER_LIST
    check_limits(table, tree, image.at, in_c, items, proved, room);
#endif

    /* The sides take turns, so that what else the machine does meets both. */
    double c_taken[REPEATS], once_taken[REPEATS], proved_taken[REPEATS], setup_taken[REPEATS];
#ifdef BEFORE
    double older_taken[REPEATS];
#endif
    for (int turn = 0; turn < REPEATS; turn++) {
        double before = seconds();
        size_t again = list_in_c(tree.at, tree.count, lengths, image.at, image.count, in_c, room);
        c_taken[turn] = seconds() - before;
        if (again != items) stop("the C side changed its mind");
        before = seconds();
        again = list_looking_once(tree.at, tree.count, lengths, image.at, image.count, once, room);
        once_taken[turn] = seconds() - before;
        if (again != items || memcmp(in_c, once, 4 * items) != 0) stop("the C sides differ");
#ifdef KILNUMBER_LIST
        before = seconds();
        struct listed listed = proved_list(table, tree, image.at, image.count, proved, room);
        proved_taken[turn] = seconds() - before;
        expect("a timed listing", listed, 0, items);
        if (memcmp(in_c, proved, 4 * items) != 0) stop("the items differ");
        before = seconds();
        /* Reading the table and checking the tree, which the C side doesn't do: an image without bytes. */
        expect("no image", proved_list(table, tree, image.at, 0, proved, room), 0, 0);
        setup_taken[turn] = seconds() - before;
#endif
#ifdef BEFORE
        older_taken[turn] = older_takes(table, tree, image, once, room, items);
#endif
    }
    struct times c_times = times_of(c_taken), once_times = times_of(once_taken);
    print_times("C, header each time", c_times, items);
    print_times("C, header once", once_times, items);
#ifdef KILNUMBER_LIST
    struct times proved_times = times_of(proved_taken), setup_times = times_of(setup_taken);
    print_times("proved", proved_times, items);
    print_times("proved, no image", setup_times, items);
    printf("ratio proved to C that looks at the header each time, best: %.2f, median: %.2f; once, best: %.2f, median: %.2f\n",
           proved_times.best / c_times.best, proved_times.median / c_times.median, proved_times.best / once_times.best,
           proved_times.median / once_times.median);
#ifdef BEFORE
    struct times older_times = times_of(older_taken);
    print_times("proved, before", older_times, items);
    printf("ratio to before, best: %.2f, median: %.2f\n", proved_times.best / older_times.best, proved_times.median / older_times.median);
#endif
#else
    (void)proved_taken;
    (void)setup_taken;
    printf("ratio: not measured, the proved side is not linked (KILNUMBER_LIST)\n");
#endif
    return 0;
}
