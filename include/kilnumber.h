/*
 * Kilnumber for programs in C and C++: the walk of a decode tree, with the bits that it tests, the size of a table's tree, the check
 * of a tree against its table, the listing of an image, the cycles of an entry, how far its withdrawal reaches, the numbers and texts of
 * operands.
 *
 * docs/FORMAT.md has all that is written in bits: tables, trees, items and results, with every refusal's number and its place, and
 * the orders in which refusals are looked for. This file gives them names.
 *
 * - No pointer may be null, also with length 0. Each pointer to words (uint32_t) is aligned to 4 bytes; bytes (uint8_t) need no alignment.
 *   Lengths are in words for words and in bytes for bytes. All of what is lent can be read.
 * - `items` and `text` are buffers, as `out` of kilnumber_words is: all of each can be written too, and it overlaps nothing else that is lent.
 *   Nothing else is written.
 * - Any bytes and words may be lent: what is wrong with them is answered, never a fault. Nothing is read or written past the lengths.
 * - Threads: no call keeps, allocates or locks anything. Calls may run at the same time on the same tree, table, image and list of
 *   words, as long as nobody writes to these meanwhile; each listing needs `items` of its own, each text `text` of its own.
 * - One tree for all calls: kilnumber_walk and kilnumber_mask take a tree as it stands in a file, as bytes; kilnumber_check and
 *   kilnumber_list take words. Hold it as words (kilnumber_words makes them of a file's bytes), and walk it with
 *   kilnumber_walk_words and kilnumber_mask_words.
 */

#ifndef KILNUMBER_H
#define KILNUMBER_H

#include <stddef.h>
#include <stdint.h>

#ifdef __cplusplus
extern "C" {
#endif

/* The limits. What is over one is refused, as docs/FORMAT.md says. A tree that is walked or checked may be longer than those that are made:
 * its header counts up to 65,535 nodes. */
#define KILNUMBER_MOST_TABLE_WORDS 16384
#define KILNUMBER_MOST_ENTRIES 256 /* of a table */
#define KILNUMBER_MOST_FIELDS 8    /* of an entry */
#define KILNUMBER_MOST_TREE_WORDS 16384
#define KILNUMBER_MOST_IMAGE_BYTES 2097152

/* What kilnumber_number gives; the numbers are those of the causes in docs/FORMAT.md. */
enum kilnumber_refusal {
    KILNUMBER_NO_REFUSAL = 0,
    KILNUMBER_TABLE_START = 1,     /* the table is empty, too long, or its first word is wrong */
    KILNUMBER_TABLE_WORD = 2,      /* a head word or a cycles word is wrong, or the table ends early or late; of a field's word by
                                      itself: its kind is wrong, or a spare bit is set */
    KILNUMBER_TABLE_PATTERN = 3,   /* a mask or a value is wrong */
    KILNUMBER_TABLE_FIELD = 4,     /* a field is wrong, or an entry's bits are not covered; of a field's word by itself: its width is
                                      not 1 to 32, its form is over 2, or its fraction bits are over 16 or over its width */
    KILNUMBER_TREE_SIZE = 5,       /* the table's tree is over the limit of 16,384 words */
    KILNUMBER_AMBIGUOUS = 6,       /* some word is ambiguous by the table; kilnumber_word has it */
    KILNUMBER_HIGH_WORD = 7,       /* a word has a bit at or above the width of the tree or table */
    KILNUMBER_TREE_HEADER = 8,     /* the tree's header or its length is wrong */
    KILNUMBER_DAMAGED_NODE = 9,    /* a node on the path is damaged */
    KILNUMBER_NO_ENTRY = 11,       /* the table has no such entry */
    KILNUMBER_OUT_OF_RANGE = 12,   /* the field has no such value, or no value for such a number */
    KILNUMBER_WRONG_TREE = 14,     /* the tree is not right for the table */
    KILNUMBER_NO_IMAGE_TABLE = 15, /* the table's width is not 32, or a length is not 16 or 32 */
    KILNUMBER_BAD_IMAGE = 16,      /* the image has an odd number of bytes, or too many */
    KILNUMBER_NO_ROOM = 17,        /* more items than `items` has room for; it holds the earlier ones */
    KILNUMBER_NO_TEXT_ROOM = 18,   /* the text is longer than the room for it, and `text` is as it was */
    KILNUMBER_UNREACHED = 19       /* some entry of the table is selected by no word; kilnumber_list_place has the lowest */
};

/* The number of the refusal in any call's 64 bits, 0 without one. The other accessors say something only where they say so. */
static inline uint32_t kilnumber_number(uint64_t result) { return (uint32_t)(result >> 32 & 0xff); }

/* ------------------------------------------------------------------------------------------------------------- the walk */

/* Walks a tree with a word. The tree's bytes need no alignment. Refusals: 8, 7, 9. */
uint64_t kilnumber_walk(const uint8_t *tree, size_t tree_bytes, uint32_t word);

/* Without a refusal: whether nothing is named; else the entry that is; and how many test nodes the walk passed. In the result of a
 * size kilnumber_tests is the greatest number of tests on a path to any leaf. */
static inline int kilnumber_is_nothing(uint64_t result) { return (int)(result >> 8 & 1); }
static inline uint32_t kilnumber_entry(uint64_t result) { return (uint32_t)(result & 0xff); }
static inline uint32_t kilnumber_tests(uint64_t result) { return (uint32_t)(result >> 16 & 0xffff); }

/* After KILNUMBER_DAMAGED_NODE of a walk: the index of that node. */
static inline uint32_t kilnumber_place(uint64_t result) { return (uint32_t)(result >> 48); }

/* The mask of the bits that the walk of the word tests, none at or above the tree's width; 0 if the walk is refused. (It is 0 too
 * after a walk that tests nothing: only the walk tells a refusal.) If the walk of a word finishes, every word of the width that
 * agrees with it on its mask has the same 64 bits and the same mask. On a tree that kilnumber_check accepts, a walk has as many
 * tests as its mask has ones; other trees may test a bit twice.
 *
 * A cache keeps the 64 bits with the mask and the key: word AND mask. A later word needs no walk if its AND with that mask is the
 * key. Only words of the width may be looked up so (the mask has no higher bit, and such a word is refused), and only walks that
 * aren't refused may be kept. examples/cache.h is such a cache. */
uint32_t kilnumber_mask(const uint8_t *tree, size_t tree_bytes, uint32_t word);

/* ------------------------------------------------------------------------------------------------------------- the size */

/* The size of a table's tree, without memory for it. Lend kilnumber_nodes + 1 words for the tree that generating writes. No walk of
 * that tree tests more than kilnumber_tests says, and some word of the width tests that many. As in generating, each entry must be
 * selected by some word; the other calls do not ask for that. Refusals: 1 to 4, 5, 6, 19. */
uint64_t kilnumber_measure(const uint32_t *table, size_t table_words);

/* Without a refusal: the number of nodes. (The greatest number of tests is kilnumber_tests.) */
static inline uint32_t kilnumber_nodes(uint64_t result) { return (uint32_t)(result & 0xffff); }

/* After KILNUMBER_AMBIGUOUS: the ambiguous word; of a size it is the one that generating answers, of a list the first unfit one. */
static inline uint32_t kilnumber_word(uint64_t result) { return (uint32_t)(result & 0xffffffff); }

/* ------------------------------------------------------------------------------------------------------------- the check */

/* Checks a tree against its table. After 0 every word of the width walks to what the table selects; each tree that generating writes
 * gets 0. Call it once for a tree that comes from a file: a walk of an unfit tree that is well formed names wrong entries, and only the
 * check tells. Refusals: 1 to 4, 14. */
uint64_t kilnumber_check(const uint32_t *table, size_t table_words, const uint32_t *tree, size_t tree_words);

/* ------------------------------------------------------------------------------------------------------------- the listing */

/* Lists a whole image by a table and its tree, which is checked first. After 0 and KILNUMBER_NO_ROOM only the words of the items written are
 * changed, else none. List an image over KILNUMBER_MOST_IMAGE_BYTES in parts, as examples/parts.h does. Refusals: 1 to 4, 15, 16, 14, 17. */
uint64_t kilnumber_list(const uint32_t *table, size_t table_words, const uint32_t *tree, size_t tree_words,
                        const uint8_t *image, size_t image_bytes, uint32_t *items, size_t room);

/* Without a refusal: the number of items of a listing. */
static inline uint32_t kilnumber_items(uint64_t result) { return (uint32_t)(result & 0xffffffff); }

/* The place in any result but a walk's, which has kilnumber_place: after 1 to 4 the index of the table's word at fault, or the table's
 * length if the table ends early (0 of a field's word by itself); after KILNUMBER_NO_ROOM the halfword address of the first item left
 * out; after KILNUMBER_UNREACHED the number of the entry. */
static inline uint32_t kilnumber_list_place(uint64_t result) { return (uint32_t)(result & 0xffffffff); }

/* An item: its kind, the entry where it is an instruction, and its halfword address; twice that is its offset in bytes. */
enum kilnumber_item_kinds {
    KILNUMBER_INSTRUCTION = 12,
    KILNUMBER_UNKNOWN = 13, /* the halfword selects nothing */
    KILNUMBER_CUT_OFF = 14  /* the image's last halfword, unless all lower halves make it the same 16-bit instruction, or unknown */
};
static inline uint32_t kilnumber_item_kind(uint32_t item) { return item >> 28; }
static inline uint32_t kilnumber_item_entry(uint32_t item) { return item >> 20 & 0xff; }
static inline uint32_t kilnumber_item_address(uint32_t item) { return item & 0xfffff; }

/* ------------------------------------------------------------------------------------------------------------- the cycles */

/* The cycles that one instruction of an entry takes; 0 for each entry of a table of kind 1, which has none. A call reads the whole
 * table: a battery account calls it once for each entry, not for each item. Refusals: 1 to 4, 11. */
uint64_t kilnumber_cycles(const uint32_t *table, size_t table_words, uint32_t entry);

/* Without a refusal: the number of cycles, at most 65,535. */
static inline uint32_t kilnumber_cycle_count(uint64_t result) { return (uint32_t)(result & 0xffffffff); }

/* ------------------------------------------------------------------------------------------------------------- the withdrawal */

/* How many words of a list change their answer if one entry is withdrawn from the table: what they select is then another entry or
 * nothing, or they are ambiguous. That later entries have other numbers then is no change. Each word that selected the entry changes
 * and no other does: the count is also how many of the words selected it. A word that is in the list twice counts twice.
 *
 * A word is unfit if it is not of the width, or if it is ambiguous before the withdrawal. Words that are not in the list are not looked
 * at: the table need not be unambiguous. It is read once, and each word costs one selection. Refusals: 1 to 4, 11, then for the first
 * unfit word 7 or 6. */
uint64_t kilnumber_changed(const uint32_t *table, size_t table_words, uint32_t entry, const uint32_t *words, size_t count);

/* Without a refusal: the count. Bits 31-0 of the result are its lowest, and bits 63-40 the rest of it: it may be over 32 bits. */
static inline uint64_t kilnumber_changed_words(uint64_t result) { return result >> 40 << 32 | (result & 0xffffffff); }

/* ------------------------------------------------------------------------------------------------------------- the operands */

/* What a field's values mean: plain numbers, numbers in two's complement, or these with a point. The field's word says it, in its form
 * (bits 27-24) and its fraction bits (23-16); docs/FORMAT.md has the word. These calls take it by itself, and no table. In a table the
 * words of an entry's fields stand after the head, mask and value of the entry and, in kind 6, its cycles; bits 7-4 of the head are how
 * many there are. examples/operands.c finds them.
 *
 * `value` is the value as it is stored, without sign: the field's bits of an instruction, shifted down to bit 0. It has no bit at or
 * above the field's width, else it is refused with 12. The field's lowest bit is not looked at. After a refusal all other bits of the
 * result are zero. */

/* The signed whole number that a value means; for fixed point how many of the smallest steps it is. Refusals: 2, 4, 12. */
uint64_t kilnumber_signed(uint32_t field, uint32_t value);

/* Without a refusal: that number. Bits 31-0 of the result are its lowest, and bit 40 is set if it is below zero. */
static inline int64_t kilnumber_signed_number(uint64_t result) {
    return (int64_t)(result & 0xffffffff) - (int64_t)(result >> 40 & 1) * ((int64_t)1 << 32);
}

/* The way back: the value that is stored for a signed whole number. A number that the field has no value for is refused with 12, and
 * never cut. Refusals: 2, 4, 12. */
uint64_t kilnumber_stored(uint32_t field, int64_t number);

/* Without a refusal: the value. */
static inline uint32_t kilnumber_stored_value(uint64_t result) { return (uint32_t)(result & 0xffffffff); }

/* Writes what a value means to the start of `text`, as exact decimal text: a minus sign only below zero, no needless leading zero, at
 * least one digit before the point and as many after it as there are fraction bits, no point if there are none. 0xF8 of eight bits, four
 * of them after the point, is -0.5000. No zero byte ends the text: its length is in the result, and the bytes after it stay as they were.
 * After a refusal all of `text` does. `room` is in bytes. Refusals: 2, 4, 12, 18. */
uint64_t kilnumber_text(uint32_t field, uint32_t value, uint8_t *text, size_t room);

/* Room that is enough for every text: the longest has that many bytes. */
#define KILNUMBER_TEXT_ROOM 23

/* Without a refusal: the length of the text, in bytes. */
static inline uint32_t kilnumber_text_length(uint64_t result) { return (uint32_t)(result & 0xffffffff); }

/* ------------------------------------------------------------------------------------------------------------- bytes and words */

/* The words of a file of tables or trees: `words` words from 4 * `words` bytes, each low byte first. */
static inline void kilnumber_words(const uint8_t *bytes, size_t words, uint32_t *out) {
    for (size_t at = 0; at < words; at++, bytes += 4)
        out[at] = (uint32_t)bytes[0] | (uint32_t)bytes[1] << 8 | (uint32_t)bytes[2] << 16 | (uint32_t)bytes[3] << 24;
}

/* kilnumber_walk and kilnumber_mask for a tree that is held as words, where the machine's own order is low byte first. */
#if !defined(__BYTE_ORDER__) || __BYTE_ORDER__ == __ORDER_LITTLE_ENDIAN__
static inline uint64_t kilnumber_walk_words(const uint32_t *tree, size_t tree_words, uint32_t word) {
    return kilnumber_walk((const uint8_t *)tree, 4 * tree_words, word);
}
static inline uint32_t kilnumber_mask_words(const uint32_t *tree, size_t tree_words, uint32_t word) {
    return kilnumber_mask((const uint8_t *)tree, 4 * tree_words, word);
}
#endif

#ifdef __cplusplus
}
#endif

#endif
