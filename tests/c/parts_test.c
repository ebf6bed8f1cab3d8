/*
 * Listings in parts (examples/parts.h) against the items of the whole image by the walker in C (lister.h). Usage: parts_test file, which
 * make_halves.py writes. For each table of the file a short image is listed in parts of every even length; for some tables one of more than
 * two parts of 2,097,152 bytes, as it stands and one halfword further on. Odd images must be refused at their first part, and give no items.
 * It prints one line with the counts; at the first difference it prints what differs and exits with status 1.
 */

#include <stdio.h>
#include <stdlib.h>
#include <string.h>

#include "kilnumber.h"
#include "parts.h"

#define TEST "parts_test"
#include "words_file.h"

#include "lister.h"

#define SHORT_HALVES 24u
#define LONG_BYTES 4500002u /* more than two parts */
#define LONG_EACH 50u       /* every so many-th table has a long image too */

struct image {
    uint8_t bytes[LONG_BYTES];
    size_t count;
    uint32_t last; /* what its last halfword names by all walks */
};

static uint32_t drawn = 1, items[KILNUMBER_MOST_IMAGE_BYTES / 2];
static uint64_t images, parts, listed, decided; /* the last: where the last item of a part is another in the whole image */

static uint32_t draw(void) {
    drawn = drawn * 1664525u + 1013904223u;
    return drawn >> 16;
}

static void differs(const char *what, const struct image *image, size_t most, size_t at) {
    printf("difference: %s: image of %zu bytes in parts of %zu, at byte %zu\n", what, image->count, most, at);
    exit(1);
}

/* The upper halves of the file, which most entries of the table look at, and some that are drawn. */
static void draw_image(struct image *image, const struct table *table, const uint32_t *upper, size_t uppers, size_t count) {
    image->count = count;
    for (size_t at = 0; at + 1 < count; at += 2) {
        uint32_t half = draw() % 4 == 0 ? draw() & 0xffff : upper[draw() % uppers];
        image->bytes[at] = (uint8_t)half, image->bytes[at + 1] = (uint8_t)(half >> 8);
    }
    image->last = named_by_all(table, half_at(image->bytes, count / 2 - 1));
}

/* Compares the item at a byte, in the part that begins at `start`, and returns the byte after it. */
static size_t compare_item(const struct table *table, const struct image *image, size_t most, size_t at, size_t start, uint32_t seen) {
    struct item item = item_at(table, image->bytes, image->count / 2, at / 2, image->last);
    if (seen != item_word(item, (at - start) / 2)) differs("an item", image, most, at);
    listed++;
    return 2 * item.next;
}

/* Whether the item that a part ends in is another than the whole image has there. */
static int is_decided_later(const struct table *table, const struct image *image, size_t start, uint32_t seen) {
    size_t address = kilnumber_item_address(seen);
    return seen != item_word(item_at(table, image->bytes, image->count / 2, start / 2 + address, image->last), address);
}

static void compare(const struct table *table, const struct image *image, size_t most) {
    size_t at = 0;
    for (size_t start = 0; start < image->count; parts++) {
        struct part part = list_part(table->words, table->count, table->tree, table->nodes, image->bytes, image->count, start, most, items);
        if (kilnumber_number(part.result) != 0) differs("a refusal", image, most, start);
        for (uint32_t one = 0; one < part.count; one++) at = compare_item(table, image, most, at, start, items[one]);
        if (part.next != at) differs("where the next part begins", image, most, at);
        if (part.next <= start) differs("a part without an item", image, most, at);
        if (at < image->count) decided += (uint64_t)is_decided_later(table, image, start, items[part.count]);
        start = part.next;
    }
    images++;
}

/* An odd image; and a table that ends early, whose place is no count of items. */
static void compare_refused(const struct table *table, const struct image *image, size_t most) {
    struct part part = list_part(table->words, table->count, table->tree, table->nodes, image->bytes, image->count - 1, 0, most, items);
    if (part.result != (uint64_t)16 << 32 || part.count != 0) differs("an odd image", image, most, 0);
    part = list_part(table->words, table->count - 1, table->tree, table->nodes, image->bytes, image->count, 0, most, items);
    if (kilnumber_number(part.result) != (table->count == 1 ? 1 : 2) || part.count != 0) differs("a table that ends early", image, most, 0);
}

static void try_short(const struct table *table, struct image *image, const uint32_t *upper, size_t uppers) {
    draw_image(image, table, upper, uppers, 2 * SHORT_HALVES);
    for (size_t most = 6; most <= 2 * SHORT_HALVES + 2; most += 2) {
        compare(table, image, most);
        compare_refused(table, image, most);
    }
}

/* As it stands, and with another halfword before it, so that parts end elsewhere. How many of them end in an item that is decided later. */
static uint64_t try_long(const struct table *table, struct image *image, const uint32_t *upper, size_t uppers) {
    uint64_t before = decided;
    draw_image(image, table, upper, uppers, LONG_BYTES);
    compare_refused(table, image, KILNUMBER_MOST_IMAGE_BYTES);
    compare(table, image, KILNUMBER_MOST_IMAGE_BYTES);
    memmove(image->bytes + 2, image->bytes, LONG_BYTES - 4); /* the last halfword stays */
    compare(table, image, KILNUMBER_MOST_IMAGE_BYTES);
    return decided - before;
}

int main(int arguments, char **argument) {
    static struct image image;
    if (arguments != 2) stop("usage: parts_test file");
    size_t count, at = 1, uppers;
    uint32_t *words = read_words(argument[1], &count);
    uint64_t of_long = 0;
    for (uint32_t turn = 0; turn < words[0]; turn++) {
        struct table table = table_at(words, count, &at);
        const uint32_t *upper = run_at(words, count, &at, &uppers);
        try_short(&table, &image, upper, uppers);
        if (turn % LONG_EACH == LONG_EACH - 1) of_long += try_long(&table, &image, upper, uppers);
    }
    if (at != count) stop("the file is not whole");
    printf("parts_test good: %llu images, %llu parts, %llu items; %llu parts end in an item that what follows decides, %llu of long images\n",
           (unsigned long long)images, (unsigned long long)parts, (unsigned long long)listed, (unsigned long long)decided,
           (unsigned long long)of_long);
    if (decided < 1000 || of_long < 3) stop("too few items that are decided later");
    free(words);
    return 0;
}
