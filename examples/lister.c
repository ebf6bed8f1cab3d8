/*
 * Lists a firmware image of instructions of 16 and 32 bits: where each begins, its halfwords, and its entry in the table.
 *
 *   target/bin/mktree < data/avr.table | python3 examples/tree_file.py target/avr.tree
 *   tools/build kilnumber
 *   gcc -std=c11 -O2 -Iinclude examples/lister.c target/staticlib/libkilnumber.a -o target/lister
 *   target/lister data/avr.table target/avr.tree examples/avr.image
 *
 * Table and tree are files of words, low byte first; the image is bytes as they lie in flash, each halfword low byte first.
 * `python3 data/make.py list avr` says which instruction an entry is. An image that is too long for one listing is listed in parts.
 *
 * It exits with 0 after a whole listing, with 1 if something was refused and with 2 if a file is no good, or what is printed is lost.
 */

#include <stdio.h>
#include <stdlib.h>

#include "files.h"
#include "kilnumber.h"
#include "parts.h"
#include "refusals.h"

/* The item from its address to the end of it; both count halfwords of the part that begins at byte `start`. */
static void print_item(uint32_t item, size_t end, struct bytes image, size_t start) {
    size_t address = kilnumber_item_address(item);
    const uint8_t *part = image.at + start;
    printf("%6zx:", start + 2 * address);
    for (size_t at = address; at < end; at++) printf(" %02x%02x", part[2 * at + 1], part[2 * at]);
    printf("%*s", end - address == 1 ? 7 : 2, "");
    switch (kilnumber_item_kind(item)) {
    case KILNUMBER_INSTRUCTION: printf("entry %u\n", (unsigned)kilnumber_item_entry(item)); break;
    case KILNUMBER_CUT_OFF: printf("cut off\n"); break;
    default: printf("unknown\n"); break;
    }
}

/* An item ends where the next one begins; the last one where the next part does. */
static void print_part(struct part part, const uint32_t *items, struct bytes image, size_t start) {
    for (uint32_t at = 0; at < part.count; at++)
        print_item(items[at], at + 1 < part.count ? kilnumber_item_address(items[at + 1]) : (part.next - start) / 2, image, start);
}

static int print_parts(struct words table, struct words tree, struct bytes image, uint32_t *items) {
    size_t start = 0;
    do { /* once also for an image without bytes: table and tree may be refused */
        struct part part = list_part(table.at, table.count, tree.at, tree.count, image.at, image.count, start, KILNUMBER_MOST_IMAGE_BYTES, items);
        if (is_refused(part.result, table)) return 1;
        print_part(part, items, image, start);
        start = part.next;
    } while (start < image.count);
    return 0;
}

int main(int arguments, char **argument) {
    if (arguments != 4) stop("usage", "lister table tree image");
    struct words table = read_words(argument[1]), tree = read_words(argument[2]);
    struct bytes image = read_file(argument[3]);
    size_t room = part_length(image.count, KILNUMBER_MOST_IMAGE_BYTES) / 2;
    uint32_t *items = malloc(4 * room + 1);
    if (items == NULL) stop(argument[3], "no memory");
    int refused = print_parts(table, tree, image, items);
    free(table.at);
    free(tree.at);
    free(image.at);
    free(items);
    finish_printing();
    return refused;
}
