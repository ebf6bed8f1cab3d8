/*
 * Hostile inputs for kilnumber_walk, kilnumber_mask, kilnumber_measure, kilnumber_check, kilnumber_list, kilnumber_cycles,
 * kilnumber_changed, kilnumber_signed, kilnumber_stored and kilnumber_text: what they answer against reference.h, and whether they touch
 * other memory.
 *
 * Usage: fuzz trees lists sizes walks listings tables asked withdrawn operands (files of tests/c/make_trees.py, make_lists.py and
 * tests/c/make_sizes.py, then how many walks, listings, sized tables, tables asked for cycles, tables with an entry withdrawn and operands).
 * Inputs are altered at random; an input that came to a new place of the reference (check, index or tests passed) is kept and
 * altered further. Everything lent lies between pages that can't be touched, and must be unchanged afterwards.
 * With -DSTAND_IN there is no library but the reference itself, wrong in the way that a tenth argument numbers.
 */

#define _DEFAULT_SOURCE
#include <stdio.h>
#include <stdlib.h>
#include <string.h>
#include <sys/mman.h>
#include <time.h>
#include <unistd.h>

#include "../c/leaves.h"
#include "kilnumber.h"
#include "reference.h"

#define MOST_TREE_BYTES 16400u   /* of an input that is altered */
#define MOST_KEPT 20000u
#define WORDS_A_TREE 8u
#define ENTRIES_A_TABLE 6u
#define LISTS_A_TABLE 4u
#define MOST_LISTED 600u
#define MOST_LIST_WORDS 4096u
#define MOST_SIZE_WORDS (MOST_TABLE_WORDS + 4)
#define MOST_ALTERED_WORDS 512u  /* of a table that is sized: the reference takes long where there are many entries */
#define MOST_KEPT_NODES 1000u
#define MOST_TEXT_ROOM 600u
#define MARK 0x5eed5eedu
#define LONG_OFTEN 100u          /* every so many-th listing lends more than 2,097,152 bytes, sized table about 16,384 words */

static void stop(const char *why) {
    printf("fuzz: %s\n", why);
    exit(1);
}

/* ------------------------------------------------------------------------- random numbers, the same in every run */

static uint64_t state = 0x2545f4914f6cdd1du;

static uint32_t any(void) {
    state ^= state << 13;
    state ^= state >> 7;
    state ^= state << 17;
    return (uint32_t)(state >> 32);
}

static uint32_t below(uint32_t limit) { return limit == 0 ? 0 : any() % limit; }

/* ------------------------------------------------------------------------- memory between pages that can't be touched */

struct area {
    uint8_t *start, *guard;
};

static struct area make_area(size_t bytes) {
    size_t page = (size_t)sysconf(_SC_PAGESIZE), room = (bytes + page - 1) / page * page;
    uint8_t *start = mmap(NULL, room + 2 * page, PROT_READ | PROT_WRITE, MAP_PRIVATE | MAP_ANONYMOUS, -1, 0);
    if (start == MAP_FAILED) stop("no memory");
    if (mprotect(start, page, PROT_NONE) != 0 || mprotect(start + page + room, page, PROT_NONE) != 0) stop("no guard pages");
    struct area area = {start + page, start + page + room};
    return area;
}

/* Directly before the upper guard page, or directly after the lower one. */
static uint8_t *lend(struct area area, const void *from, size_t bytes, int at_start) {
    uint8_t *to = at_start ? area.start : area.guard - bytes;
    if (bytes > 0) memcpy(to, from, bytes);
    return to;
}

static void require_same(const void *lent, const void *from, size_t bytes) {
    if (bytes > 0 && memcmp(lent, from, bytes) != 0) stop("what was lent has changed");
}

/* ------------------------------------------------------------------------- stand-in for the library */

static unsigned wrong; /* a check that is left out, or one of these */
enum {
    LEAF_COUNTED = NUMBER_END + 1, READS_PAST, WRITES_TREE, MASK_FROM_ONE, MASK_WHEN_REFUSED, MASK_READS_PAST,
    ITEM_AFTER, PLACE_AFTER, LIST_REACH, CUT_IS_NOTHING, CHECK_IS_YES, CHECK_PLACE, CHECK_REACH,
    SIZE_SWAPPED, SIZE_IN_WORDS, SIZE_LEAF_COUNTED, SIZE_NUMBER_ABOVE, SIZE_NO_WORD, SIZE_NO_PLACE, SIZE_NO_ENTRY, SIZE_ENTRY_COUNT,
    SIZE_ENTRY_ABOVE, SIZE_LIMIT_LOWER, SIZE_READS_PAST, SIZE_READS_BEFORE, SIZE_WRITES_TABLE,
    CYCLES_OF_FIRST, CYCLES_OF_NEXT, CYCLES_LOW_BYTE, CYCLES_ENTRY_BYTE, CYCLES_AT_COUNT, CYCLES_NUMBER_ABOVE, CYCLES_NO_PLACE,
    CYCLES_PLACE_OF_11, CYCLES_READS_PAST, CYCLES_READS_BEFORE, CYCLES_WRITES_TABLE,
    CHANGED_OTHERS, CHANGED_CLAIMED, CHANGED_FIRST_OUT, CHANGED_LAST_OUT, CHANGED_LOW_BYTE, CHANGED_ABOVE, CHANGED_ENTRY_BYTE,
    CHANGED_AT_COUNT, CHANGED_NUMBER_ABOVE, CHANGED_NO_PLACE, CHANGED_NO_WORD, CHANGED_WORD_OF_7, CHANGED_PLACE_OF_11, CHANGED_EMPTY,
    CHANGED_REACH, CHANGED_UNLISTED, CHANGED_READS_PAST, CHANGED_READS_BEFORE, CHANGED_WRITES_TABLE, LISTED_READS_PAST, LISTED_READS_BEFORE,
    LISTED_WRITES,
    SIGN_LEFT_OUT, SIGN_IN_ALL, NUMBER_ABOVE, NUMBER_PLACE, LOWEST_JUDGED, RANGE_FIRST, STORED_LOW_HALF, STORED_SIGN_IN_ALL,
    TEXT_ENDED, TEXT_BLANKS, TEXT_LENGTH_MORE, TEXT_ROOM_BYTE, TEXT_ROOM_FIRST, TEXT_ROOM_MORE, TEXT_ZEROS_REFUSED, TEXT_PAST,
    TEXT_BEFORE, LAST_WRONG
};

/* Then only sizes, only cycles, only withdrawals or only operands can differ, and only these are tried. */
static int is_wrong_size(void) { return (wrong > LIST_END && wrong < SIZE_END) || (wrong >= SIZE_SWAPPED && wrong < CYCLES_OF_FIRST); }
static int is_wrong_cycles(void) { return (wrong > SIZE_END && wrong < CYCLES_END) || (wrong >= CYCLES_OF_FIRST && wrong < CHANGED_OTHERS); }
static int is_wrong_change(void) { return (wrong > CYCLES_END && wrong < CHANGED_END) || (wrong >= CHANGED_OTHERS && wrong < SIGN_LEFT_OUT); }
static int is_wrong_operand(void) { return (wrong > CHANGED_END && wrong < NUMBER_END) || wrong >= SIGN_LEFT_OUT; }

#ifdef STAND_IN
uint64_t kilnumber_walk(const uint8_t *tree, size_t length, uint32_t word) {
    if (wrong == READS_PAST && ((const volatile uint8_t *)tree)[length] == 0) return 0;
    if (wrong == WRITES_TREE && length > 0) ((volatile uint8_t *)(uintptr_t)tree)[0] = 0;
    struct walked walked = reference_walk(tree, length, word, (enum check)wrong);
    if (wrong == LEAF_COUNTED && walked.number == 0) walked.tests++;
    return packed(walked);
}

uint32_t kilnumber_mask(const uint8_t *tree, size_t length, uint32_t word) {
    if (wrong == MASK_READS_PAST && ((const volatile uint8_t *)tree)[length] == 0) return 0;
    struct walked walked = reference_walk(tree, length, word, NONE);
    if (wrong == MASK_FROM_ONE && walked.number == 0) walked.mask |= 1;
    if (wrong == MASK_WHEN_REFUSED) walked.mask |= walked.number;
    return walked.mask;
}

uint64_t kilnumber_measure(const uint32_t *table, size_t table_words) {
    if (wrong == SIZE_READS_PAST && ((const volatile uint32_t *)table)[table_words] == 0) return 0;
    if (wrong == SIZE_READS_BEFORE && ((const volatile uint32_t *)table)[-1] == 0) return 0;
    if (wrong == SIZE_WRITES_TABLE && table_words > 0) ((volatile uint32_t *)(uintptr_t)table)[table_words - 1] ^= 1;
    struct sizing sizing = reference_size(table, table_words, (enum check)wrong);
    uint64_t result = sizing.result, number = result >> 32;
    if (wrong == SIZE_SWAPPED && number == 0) result = (uint64_t)sizing.nodes << 16 | sizing.tests;
    if (wrong == SIZE_IN_WORDS && number == 0) result++;
    if (wrong == SIZE_LEAF_COUNTED && number == 0) result += 65536;
    if (wrong == SIZE_NUMBER_ABOVE) result = number << 40 | (result & 0xffffffff);
    if (wrong == SIZE_NO_WORD && number == 6) result = number << 32;
    if (wrong == SIZE_NO_PLACE && number >= 1 && number <= 4) result = number << 32;
    if (wrong == SIZE_NO_ENTRY && number == 19) result = number << 32;
    if (wrong == SIZE_ENTRY_COUNT && number == 19) result = refused_list(19, sizing.table.entries);
    if (wrong == SIZE_ENTRY_ABOVE && number == 19) result = number << 32 | (result & 0xff) << 48;
    if (wrong == SIZE_LIMIT_LOWER && sizing.nodes + 1 >= MOST_TREE_WORDS) result = refused_list(5, 0);
    return result;
}

uint64_t kilnumber_check(const uint32_t *table, size_t table_words, const uint32_t *tree, size_t tree_words) {
    uint64_t result = reference_check(table, table_words, tree, tree_words, (enum check)wrong);
    if (wrong == CHECK_IS_YES && result >> 32 == 14) result = 0;
    if (wrong == CHECK_PLACE && result >> 32 <= 4) result = result >> 32 << 32;
    if (wrong == CHECK_REACH && result == 0 && leaves_one_out(table, tree)) result = refused_list(19, 0);
    return result;
}

uint64_t kilnumber_list(const uint32_t *table, size_t table_words, const uint32_t *tree, size_t tree_words, const uint8_t *image,
                        size_t image_bytes, uint32_t *items, size_t room) {
    struct lent lent = {table, tree, image, table_words, tree_words, image_bytes, room};
    enum check stopped_by;
    uint64_t result = reference_list(lent, items, (enum check)wrong, &stopped_by);
    if (wrong == ITEM_AFTER && result >> 32 == 0 && result < room) items[result] = 0;
    if (wrong == PLACE_AFTER && result >> 32 == 17) result++;
    if (wrong == LIST_REACH && result >> 32 == 0 && leaves_one_out(table, tree)) result = refused_list(19, 0);
    if (wrong == CUT_IS_NOTHING && result >> 32 == 0 && result > 0 && items[result - 1] >> 28 == 14) items[result - 1] -= 1u << 28;
    return result;
}

uint64_t kilnumber_cycles(const uint32_t *table, size_t table_words, uint32_t entry) {
    if (wrong == CYCLES_READS_PAST && ((const volatile uint32_t *)table)[table_words] == 0) return 0;
    if (wrong == CYCLES_READS_BEFORE && ((const volatile uint32_t *)table)[-1] == 0) return 0;
    if (wrong == CYCLES_WRITES_TABLE && table_words > 0) ((volatile uint32_t *)(uintptr_t)table)[table_words - 1] ^= 1;
    uint32_t entries = table_words == 0 ? 0 : table[0] >> 16 & 0xfff;
    if (wrong == CYCLES_OF_FIRST && entry < entries) entry = 0;
    if (wrong == CYCLES_OF_NEXT && entry + 1 < entries) entry++;
    if (wrong == CYCLES_ENTRY_BYTE) entry &= 0xff;
    if (wrong == CYCLES_AT_COUNT && entry == entries && entries > 0) entry--;
    struct table read = table_of(table, table_words, (enum check)wrong);
    uint64_t result = reference_cycles(&read, entry), number = result >> 32;
    if (wrong == CYCLES_LOW_BYTE && number == 0) result &= 0xff;
    if (wrong == CYCLES_NUMBER_ABOVE) result = number << 40 | (result & 0xffffffff);
    if (wrong == CYCLES_NO_PLACE) result = number == 0 ? result : number << 32;
    if (wrong == CYCLES_PLACE_OF_11 && number == 11) result |= entry;
    return result;
}

/* How many words an entry claims. */
static uint64_t claimed_of(const struct table *table, uint32_t entry, const uint32_t *words, size_t count) {
    uint64_t claimed = 0;
    for (size_t at = 0; at < count; at++) {
        struct cell cell = {0xffffffff, words[at]};
        claimed += entry_status(table, cell, entry_at(table, entry)) == SURE;
    }
    return claimed;
}

static uint64_t sizing_number(const uint32_t *table, size_t count) { return reference_size(table, count, NONE).result >> 32; }

/* What the reference says of the entry and the part of the list that a wrong one takes. */
static uint64_t changed_of(struct table *table, uint32_t entry, const uint32_t *words, size_t count) {
    uint32_t entries = table->count == 0 ? 0 : table->words[0] >> 16 & 0xfff;
    if (wrong == CHANGED_ENTRY_BYTE) entry &= 0xff;
    if (wrong == CHANGED_AT_COUNT && entry == entries && entries > 0) entry--;
    if (wrong == CHANGED_FIRST_OUT && count > 0) words++, count--;
    if (wrong == CHANGED_LAST_OUT && count > 0) count--;
    uint64_t result = reference_changed(table, entry, words, count);
    if (result >> 32 != 0) return result;
    if (wrong == CHANGED_OTHERS) return count - result;
    return wrong == CHANGED_CLAIMED ? claimed_of(table, entry, words, count) : result;
}

uint64_t kilnumber_changed(const uint32_t *table, size_t table_words, uint32_t entry, const uint32_t *words, size_t count) {
    if (wrong == CHANGED_EMPTY && count == 0) return 0;
    if (wrong == CHANGED_READS_PAST && ((const volatile uint32_t *)table)[table_words] == 0) return 0;
    if (wrong == CHANGED_READS_BEFORE && ((const volatile uint32_t *)table)[-1] == 0) return 0;
    if (wrong == CHANGED_WRITES_TABLE && table_words > 0) ((volatile uint32_t *)(uintptr_t)table)[table_words - 1] ^= 1;
    if (wrong == LISTED_READS_PAST && ((const volatile uint32_t *)words)[count] == 0) return 0;
    if (wrong == LISTED_READS_BEFORE && ((const volatile uint32_t *)words)[-1] == 0) return 0;
    if (wrong == LISTED_WRITES && count > 0) ((volatile uint32_t *)(uintptr_t)words)[count - 1] ^= 1;
    struct table read = table_of(table, table_words, (enum check)wrong);
    uint64_t result = changed_of(&read, entry, words, count), number = result >> 32;
    if (wrong == CHANGED_REACH && number == 0 && sizing_number(table, table_words) == 19) return refused_list(19, 0);
    if (wrong == CHANGED_UNLISTED && number == 0 && sizing_number(table, table_words) == 6) return refused_list(6, 0);
    if (wrong == CHANGED_LOW_BYTE && number == 0) result &= 0xff;
    if (wrong == CHANGED_ABOVE && number == 0) result <<= 40;
    if (wrong == CHANGED_NUMBER_ABOVE) result = number << 40 | (result & 0xffffffff);
    if (wrong == CHANGED_NO_PLACE && number >= 1 && number <= 4) result = number << 32;
    if (wrong == CHANGED_NO_WORD && number == 6) result = number << 32;
    if (wrong == CHANGED_WORD_OF_7 && number == 7) result |= words[0];
    if (wrong == CHANGED_PLACE_OF_11 && number == 11) result |= entry;
    return result;
}

/* The word's own fault, where a wrong one finds another than the reference. */
static struct operand wrong_operand(uint32_t field, uint32_t value) {
    struct operand operand = operand_of(field, (enum check)wrong);
    if (wrong == LOWEST_JUDGED && operand.number == 0 && (field >> 8 & 0xff) + operand.width > 32) operand.number = 4;
    if (wrong == RANGE_FIRST && value >= (uint64_t)1 << operand.width) operand.number = 12;
    return operand;
}

static uint64_t wrong_refusal(uint64_t result, uint32_t field) {
    uint64_t number = result >> 32 & 0xff;
    if (wrong == NUMBER_ABOVE && number != 0) return number << 48;
    if (wrong == NUMBER_PLACE && number != 0) return number << 32 | field;
    return result;
}

uint64_t kilnumber_signed(uint32_t field, uint32_t value) {
    struct operand operand = wrong_operand(field, value);
    uint64_t result = reference_signed(&operand, value);
    int below_zero = (result >> 40 & 1) != 0;
    if (wrong == SIGN_LEFT_OUT && below_zero) result &= 0xffffffff;
    if (wrong == SIGN_IN_ALL && below_zero) result |= 0xffffffff00000000;
    return wrong_refusal(result, field);
}

uint64_t kilnumber_stored(uint32_t field, int64_t number) {
    struct operand operand = wrong_operand(field, 0);
    if (wrong == STORED_LOW_HALF) number = (int64_t)((uint64_t)number & 0xffffffff);
    uint64_t result = reference_stored(&operand, number);
    if (wrong == STORED_SIGN_IN_ALL && result >> 32 == 0) result = (uint32_t)number;
    return wrong_refusal(result, field);
}

uint64_t kilnumber_text(uint32_t field, uint32_t value, uint8_t *text, size_t room) {
    struct operand operand = wrong_operand(field, value);
    if (wrong == TEXT_ROOM_BYTE) room &= 0xff;
    if (wrong == TEXT_ROOM_FIRST && room == 0) return refused_list(18, 0);
    if (wrong == TEXT_ROOM_MORE) room -= room > 0;
    if (wrong == TEXT_PAST) ((volatile uint8_t *)text)[room] ^= 0;
    if (wrong == TEXT_BEFORE) ((volatile uint8_t *)text)[-1] ^= 0;
    uint64_t result = reference_text(&operand, value, text, room);
    int written = result >> 32 == 0;
    if (wrong == TEXT_ZEROS_REFUSED && !written) memset(text, 0, room);
    if (wrong == TEXT_ENDED && written && result < room) text[result] = 0;
    if (wrong == TEXT_BLANKS && written) memset(text + result, ' ', room - result);
    if (wrong == TEXT_LENGTH_MORE && written) result++;
    return wrong_refusal(result, field);
}
#endif

/* ------------------------------------------------------------------------- inputs that are kept */

struct input {
    uint8_t *bytes;
    size_t length;
};

static struct input kept[MOST_KEPT];
static size_t kept_count;
static uint64_t walks, listings, sizes, asked, withdrawn, by_number[10], by_list_number[18], by_check_number[18], by_size_number[20],
    by_cycles_number[12], by_changed_number[12], with_changes, operands, by_operand_number[19], by_check[NUMBER_END + 1], listed_of_6,
    sized_of_6, listed_with_form, sized_with_form, listed_unreached; /* the last five: without refusal, of kind 6, with a form, with an
                                                                        entry that no word selects */

static void keep(const uint8_t *bytes, size_t length) {
    if (kept_count == MOST_KEPT) return;
    struct input input = {malloc(length + 1), length};
    if (input.bytes == NULL) stop("no memory");
    memcpy(input.bytes, bytes, length);
    kept[kept_count++] = input;
}

/* Whether the reference came to this for the first time. */
static int is_new(uint32_t check, uint32_t one, uint32_t other) {
    static uint8_t seen[CHANGED_END + 1][128][64];
    uint8_t *place = &seen[check][one < 127 ? one : 127][other < 63 ? other : 63];
    int new = *place == 0;
    *place = 1;
    return new;
}

/* ------------------------------------------------------------------------- altering a tree's bytes */

static void put_word(uint8_t *to, uint32_t word) {
    for (int byte = 0; byte < 4; byte++) to[byte] = (uint8_t)(word >> 8 * byte);
}

static uint32_t some_node(uint32_t index, uint32_t nodes) {
    switch (below(6)) {
    case 0: return 9u << 28 | below(256);
    case 1: return 10u << 28;
    case 2: return any();
    case 3: return 8u << 28 | below(32) << 23 | ((index + below(4)) & 0xffff);
    case 4: return 8u << 28 | below(32) << 23 | ((nodes + below(3) - 1) & 0xffff);
    default: return 8u << 28 | below(32) << 23 | (index + 2 + below(8));
    }
}

static void alter_header(uint8_t *bytes, size_t words) {
    uint32_t header = word_at(bytes, 0);
    switch (below(4)) {
    case 0: header = (header & ~0xffffu) | (((uint32_t)words - 1) & 0xffff); break;
    case 1: header = (header & ~(63u << 16)) | below(40) << 16; break;
    case 2: header = 7u << 28 | (1 + below(32)) << 16 | (((uint32_t)words + below(3) - 2) & 0xffff); break;
    default: header ^= 1u << below(32); break;
    }
    put_word(bytes, header);
}

/* The new length. */
static size_t alter_bytes(uint8_t *bytes, size_t length) {
    size_t words = length / 4;
    uint32_t index = words < 2 ? 0 : 1 + below(below(2) == 0 ? (uint32_t)words - 1 : words < 9 ? (uint32_t)words - 1 : 8);
    switch (below(10)) {
    case 0: if (length > 0) bytes[below((uint32_t)length)] ^= (uint8_t)(1 << below(8)); return length;
    case 1: if (length > 0) bytes[below((uint32_t)length)] = (uint8_t)any(); return length;
    case 2: if (words > 0) alter_header(bytes, words); return length;
    case 3: return below(2) == 0 ? below((uint32_t)length + 1) : length - (length < 8 ? 0 : below(8));
    case 4: /* longer */
        for (uint32_t more = 1 + below(9); more > 0 && length < MOST_TREE_BYTES; more--) bytes[length++] = (uint8_t)any();
        return length;
    case 5: { /* a part of another input */
        struct input other = kept[below((uint32_t)kept_count)];
        size_t count = other.length / 4 < words ? other.length / 4 : words;
        if (count > 1) {
            size_t from = 1 + below((uint32_t)count - 1), size = 1 + below((uint32_t)(count - from));
            memcpy(bytes + 4 * from, other.bytes + 4 * from, 4 * size);
        }
        return length;
    }
    default:
        if (index > 0) put_word(bytes + 4 * index, some_node(index, (uint32_t)words - 1));
        return length;
    }
}

/* ------------------------------------------------------------------------- walks */

static uint32_t some_word(const uint8_t *tree, size_t length) {
    uint32_t word = any(), width = length < 4 ? 32 : word_at(tree, 0) >> 16 & 63;
    if (below(4) == 0) word &= any() & any();
    return width >= 32 || below(16) == 0 ? word : word & (uint32_t)(((uint64_t)1 << width) - 1);
}

static int walk_and_compare(const uint8_t *tree, size_t length, uint32_t word) {
    struct walked walked = reference_walk(tree, length, word, NONE);
    uint64_t expected = packed(walked), seen = kilnumber_walk(tree, length, word);
    if (seen != expected) {
        printf("fuzz: a walk of %zu bytes, word %08x: expected %016llx, seen %016llx\n", length, (unsigned)word,
               (unsigned long long)expected, (unsigned long long)seen);
        exit(1);
    }
    uint32_t mask = kilnumber_mask(tree, length, word);
    if (mask != walked.mask) {
        printf("fuzz: a walk of %zu bytes, word %08x: expected the mask %08x, seen %08x\n", length, (unsigned)word,
               (unsigned)walked.mask, (unsigned)mask);
        exit(1);
    }
    walks++;
    by_number[walked.number]++;
    by_check[walked.stopped_by]++;
    return is_new(walked.stopped_by, walked.place + (walked.stopped_by == NONE) * walked.tests, walked.nothing + walked.entry / 8);
}

static void walk_one_input(struct area area, const uint8_t *bytes, size_t length) {
    uint8_t *tree = lend(area, bytes, length, below(4) == 0);
    int new = 0;
    for (uint32_t turn = 0; turn < WORDS_A_TREE; turn++) new |= walk_and_compare(tree, length, some_word(bytes, length));
    require_same(tree, bytes, length);
    if (new) keep(bytes, length);
}

static void fuzz_walks(uint64_t count) {
    static uint8_t bytes[MOST_TREE_BYTES];
    struct area area = make_area(MOST_TREE_BYTES);
    while (walks < count) {
        struct input from = kept[below((uint32_t)kept_count)];
        size_t length = from.length;
        memcpy(bytes, from.bytes, length);
        for (uint32_t turn = 1 + below(4); turn > 0; turn--) length = alter_bytes(bytes, length);
        walk_one_input(area, bytes, length);
    }
}

/* ------------------------------------------------------------------------- listings */

struct listing {
    uint32_t table[MOST_LIST_WORDS], tree[MOST_LIST_WORDS];
    uint8_t image[MOST_LIST_WORDS];
    struct lent lent;
};

static struct listing **lists;
static size_t list_count;

static void keep_listing(const struct listing *from) {
    if (list_count == MOST_KEPT / 20) return; /* each is 36 KB */
    struct listing *listing = malloc(sizeof *listing);
    if (listing == NULL) stop("no memory");
    *listing = *from;
    lists[list_count++] = listing;
}

static uint32_t some_table_word(void) {
    static const uint32_t heads[] = {0x10010020, 0x10020020, 0x60010020, 0x60020020, 0x20001000, 0x20002010, 0x20002090, 0x20001019,
                                     0x30000010, 0x40000000, 0x40000001, 0x40000009, 0x50000000};
    return below(3) == 0 ? any() : heads[below(sizeof heads / sizeof heads[0])] ^ (below(3) == 0 ? 1u << below(32) : 0);
}

static size_t alter_words(uint32_t *words, size_t count, int tree) {
    uint32_t index = below((uint32_t)count);
    switch (below(6)) {
    case 0: if (count > 0) words[index] ^= 1u << below(32); return count;
    case 1: if (count > 0) words[index] = tree ? some_node(index, (uint32_t)count - 1) : some_table_word(); return count;
    case 2: return below(2) == 0 ? index : count - (count > 0);
    case 3: if (count < MOST_LIST_WORDS) words[count++] = any(); return count;
    case 4: if (count > 1) words[index] = words[below((uint32_t)count)]; return count;
    default: /* now and then only the kind: 6 for 1, 1 for 6 */
        if (count > 0) words[0] ^= !tree && below(4) == 0 ? 7u << 28 : 1u << below(32);
        return count;
    }
}

/* Makes one of kind 6, without fault too, of a table of kind 1 without fault. The new count. */
static size_t add_cycles(uint32_t *words, struct table table, size_t most) {
    size_t count = table.count;
    if (count + table.entries > most) return count;
    words[0] ^= 7u << 28;
    for (uint32_t entry = table.entries; entry-- > 0; count++) { /* from the last one, so that the earlier ones stay where they are */
        size_t at = table.places[entry] + 3;
        memmove(words + at + 1, words + at, 4 * (count - at));
        words[at] = below(4) == 0 ? below(2) * MOST_CYCLES : below(MOST_CYCLES + 1);
    }
    return count;
}

/* Alters the cycles of a table without fault: gives it some; or it alters a cycles word, leaves it out, or ends the table before it. The
 * new count. */
static size_t alter_cycles(uint32_t *words, size_t count, size_t most) {
    static const uint32_t edges[] = {0, 1, 255, 256, MOST_CYCLES, MOST_CYCLES + 1, 0x80000000, 0xffff0000, 0xffffffff};
    struct table table = table_of(words, count, NONE);
    if (!read_table(&table) || table.entries == 0) return count;
    if (!table.has_cycles) return add_cycles(words, table, most);
    size_t at = table.places[below(table.entries)] + 3;
    switch (below(4)) {
    case 0: memmove(words + at, words + at + 1, 4 * (count - at - 1)); return count - 1;
    case 1: return at;
    case 2: words[at] ^= 1u << below(32); return count;
    default: words[at] = edges[below(sizeof edges / sizeof edges[0])]; return count;
    }
}

/* Gives a field of a table without fault another form: one that it may have, mostly, or one that is at fault. */
static void alter_form(uint32_t *words, size_t count) {
    struct table table = table_of(words, count, NONE);
    if (!read_table(&table) || table.entries == 0) return;
    const uint32_t *entry = entry_at(&table, below(table.entries));
    uint32_t fields = entry[0] >> 4 & 15;
    if (fields == 0) return;
    uint32_t *field = words + (entry - table.words) + 3 + table.has_cycles + below(fields), size = *field & 0xff;
    uint32_t edges[] = {0, 1, size, size + 1, 16, 17, below(size + 1), below(256)}, edge = edges[below(8)];
    uint32_t fraction = below(3) == 0 ? edge : at_most(edge, at_most(size, 16));
    uint32_t form = below(8) == 0 ? below(16) : below(3);
    *field = (*field & 0xf000ffff) | form << 24 | (form == 2 || below(8) == 0 ? fraction : 0) << 16;
}

/* Whether a table without fault has a field with a form. */
static int has_form(const uint32_t *words, size_t count) {
    struct table table = table_of(words, count, NONE);
    read_table(&table);
    for (uint32_t turn = 0; turn < table.entries; turn++) {
        const uint32_t *entry = entry_at(&table, turn);
        for (uint32_t at = 0; at < (entry[0] >> 4 & 15); at++)
            if ((entry[3 + table.has_cycles + at] >> 16 & 0xfff) != 0) return 1;
    }
    return 0;
}

/* Puts a word in at an index from 1 on and moves the later ones; the tests still lead to where they led. The new count. */
static size_t put_in(uint32_t *tree, size_t count, size_t index, uint32_t word) {
    if (count + 1 > MOST_LIST_WORDS || index > count || count < 2) return count;
    for (size_t at = 1; at < count; at++)
        if (tree[at] >> 28 == 8 && (tree[at] & 0xffff) >= index) tree[at]++;
    memmove(tree + index + 1, tree + index, 4 * (count - index));
    tree[index] = word;
    tree[0]++;
    return count + 1;
}

/* Alters a tree so that single flips never do: only one part of the checker's rule is broken, or none. The new count. */
static size_t alter_shape(uint32_t *tree, size_t count) {
    if (count < 2 || (tree[0] & 0xffff) != count - 1) return count;
    size_t index = 1 + below((uint32_t)count - 1);
    uint32_t node = tree[index];
    switch (below(4)) {
    case 0: return put_in(tree, count, count, below(2) == 0 ? 10u << 28 : 9u << 28); /* a node that no path comes to */
    case 1: tree[0] = (tree[0] & ~(63u << 16)) | (1 + below(40)) << 16; return count;
    case 2: /* a gap before a one side */
        return node >> 28 == 8 ? put_in(tree, count, node & 0xffff, 10u << 28) : count;
    default: /* a leaf twice, and a test before it: of a bit that is tested already, or not */
        if (node >> 28 == 8) return count;
        count = put_in(tree, count, index + 1, node);
        count = put_in(tree, count, index + 1, node);
        tree[index] = 8u << 28 | below(32) << 23 | (uint32_t)(index + 2);
        return count;
    }
}

static void alter_listing(struct listing *listing) {
    struct lent *lent = &listing->lent;
    switch (below(11)) {
    case 5:
    case 6: lent->tree_words = alter_shape(listing->tree, lent->tree_words); break;
    case 8: alter_form(listing->table, lent->table_words); break;
    case 7: lent->table_words = alter_cycles(listing->table, lent->table_words, MOST_LIST_WORDS); break;
    case 0: lent->table_words = alter_words(listing->table, lent->table_words, 0); break;
    case 1: lent->tree_words = alter_words(listing->tree, lent->tree_words, 1); break;
    case 2: { /* the tree of another table */
        const struct listing *other = lists[below((uint32_t)list_count)];
        memcpy(listing->tree, other->tree, sizeof listing->tree);
        lent->tree_words = other->lent.tree_words;
        break;
    }
    case 3: lent->image_bytes = below(MOST_LIST_WORDS / 32); break;
    case 4: lent->room = below(4) == 0 ? below(4) : below(40); break;
    default:
        for (uint32_t turn = 0; turn < 8; turn++) listing->image[below((uint32_t)lent->image_bytes + 2)] = (uint8_t)any();
    }
}

static struct area table_area, tree_area, image_area, items_area;

static void compare_check(struct lent lent) {
    uint64_t expected = reference_check(lent.table, lent.table_words, lent.tree, lent.tree_words, NONE);
    uint64_t seen = kilnumber_check(lent.table, lent.table_words, lent.tree, lent.tree_words);
    if (seen != expected) {
        printf("fuzz: a check (%zu table words, %zu tree words): expected %016llx, seen %016llx\n", lent.table_words, lent.tree_words,
               (unsigned long long)expected, (unsigned long long)seen);
        exit(1);
    }
    by_check_number[expected >> 32]++;
}

static void compare_listing(struct listing *listing, int too_long) {
    static uint32_t wanted[MOST_LIST_WORDS], marked[MOST_LIST_WORDS];
    struct lent lent = listing->lent;
    size_t room = lent.room;
    for (size_t at = 0; at < room; at++) wanted[at] = marked[at] = MARK;
    lent.table = (const uint32_t *)(const void *)lend(table_area, listing->table, 4 * lent.table_words, 0);
    lent.tree = (const uint32_t *)(const void *)lend(tree_area, listing->tree, 4 * lent.tree_words, 0);
    uint32_t *items = (uint32_t *)(void *)lend(items_area, marked, 4 * room, 0);
    lent.image = lend(image_area, listing->image, lent.image_bytes, below(4) == 0);
    if (too_long) {
        lent.image_bytes = MOST_IMAGE_BYTES + 1 + below(4);
        lent.image = image_area.guard - lent.image_bytes;
    }
    enum check stopped_by;
    uint64_t expected = reference_list(lent, wanted, NONE, &stopped_by);
    uint64_t seen = kilnumber_list(lent.table, lent.table_words, lent.tree, lent.tree_words, lent.image, lent.image_bytes, items, room);
    if (seen != expected || memcmp(items, wanted, 4 * room) != 0) {
        printf("fuzz: a listing (%zu table words, %zu tree words, %zu bytes, room %zu): expected %016llx, seen %016llx%s\n",
               lent.table_words, lent.tree_words, lent.image_bytes, room, (unsigned long long)expected, (unsigned long long)seen,
               seen == expected ? ", other items" : "");
        exit(1);
    }
    compare_check(lent);
    require_same(lent.table, listing->table, 4 * lent.table_words);
    require_same(lent.tree, listing->tree, 4 * lent.tree_words);
    if (!too_long) require_same(lent.image, listing->image, lent.image_bytes);
    listings++;
    by_list_number[expected >> 32]++;
    listed_of_6 += expected >> 32 == 0 && lent.table[0] >> 28 == 6;
    listed_with_form += expected >> 32 == 0 && has_form(lent.table, lent.table_words);
    listed_unreached += expected >> 32 == 0 && leaves_one_out(lent.table, lent.tree);
    by_check[stopped_by]++;
    /* What is altered further of a table at fault is mostly at the same fault. */
    int good_table = expected >> 32 == 0 || expected >> 32 >= 14;
    if (!too_long && good_table && is_new(stopped_by, (uint32_t)expected, (uint32_t)lent.room)) keep_listing(listing);
}

static void fuzz_listings(uint64_t count) {
    static struct listing listing;
    table_area = make_area(4 * MOST_LIST_WORDS);
    tree_area = make_area(4 * MOST_LIST_WORDS);
    image_area = make_area(MOST_IMAGE_BYTES + 8);
    items_area = make_area(4 * MOST_LIST_WORDS);
    while (listings < count) {
        listing = *lists[below((uint32_t)list_count)];
        for (uint32_t turn = below(4); turn > 0; turn--) alter_listing(&listing);
        compare_listing(&listing, below(LONG_OFTEN) == 0);
    }
}

/* ------------------------------------------------------------------------- sizes */

struct words {
    uint32_t *words;
    size_t count;
};

static struct words tables[MOST_KEPT];
static size_t table_count;

static void keep_table(const uint32_t *words, size_t count) {
    if (table_count == MOST_KEPT) return;
    struct words table = {malloc(4 * count + 4), count};
    if (table.words == NULL) stop("no memory");
    if (count > 0) memcpy(table.words, words, 4 * count);
    tables[table_count++] = table;
}

/* The mask of a pattern in an entry without fault: the opcode's, or one in a condition. Its value is the next word. */
static uint32_t *some_pattern(const struct table *table, uint32_t *entry) {
    uint32_t *condition = entry + before_conditions(table, entry), conditions = entry[0] & 15;
    if (conditions == 0 || below(3) == 0) return entry + 1;
    for (uint32_t turn = below(conditions); turn > 0; turn--) condition += 3 + 3 * (condition[0] & 15);
    return condition + 1 + 3 * below(1 + (condition[0] & 15));
}

/* Alters a table without fault so that mostly it has none afterwards: another value, another mask in a condition, an entry less, twice,
 * or those of another table of the kind; its cycles, or a form. The new count. */
static size_t alter_table(uint32_t *words, size_t count) {
    struct table table = table_of(words, count, NONE);
    if (!read_table(&table) || table.entries == 0) return alter_words(words, count, 0);
    uint32_t chosen = below(table.entries);
    uint32_t *entry = words + table.places[chosen], *pattern = some_pattern(&table, entry);
    size_t from = table.places[chosen], end = chosen + 1 < table.entries ? table.places[chosen + 1] : count;
    switch (below(8)) {
    case 0:
    case 1: pattern[1] ^= pattern[0] & any() & any(); return count;
    case 2: /* a condition's mask may be any of the own bits */
        if (pattern == entry + 1) return count;
        pattern[0] ^= any() & any() & span(table.width - (entry[0] >> 8 & 0xff), entry[0] >> 8 & 0xff);
        pattern[1] &= pattern[0];
        return count;
    case 3:
        memmove(entry, words + end, 4 * (count - end));
        words[0] -= 0x10000;
        return count - (end - from);
    case 4:
        if (count + (end - from) > MOST_ALTERED_WORDS) return count;
        memcpy(words + count, entry, 4 * (end - from));
        words[0] += 0x10000;
        return count + (end - from);
    case 5: return alter_cycles(words, count, MOST_ALTERED_WORDS);
    case 6: alter_form(words, count); return count;
    default: { /* all the entries of another table of the kind and width */
        struct words other = tables[below((uint32_t)table_count)];
        if (other.count < 2 || ((other.words[0] ^ words[0]) & 0xf00000ff) != 0 || count + other.count - 1 > MOST_ALTERED_WORDS) return count;
        memcpy(words + count, other.words + 1, 4 * (other.count - 1));
        words[0] += other.words[0] & 0xfff0000;
        return count + other.count - 1;
    }
    }
}

/* Words that begin like a table. */
static size_t random_table(uint32_t *words) {
    size_t count = below(24);
    for (size_t at = 0; at < count; at++) words[at] = some_table_word();
    if (count > 0 && below(8) != 0) words[0] = (below(2) == 0 ? 1u : 6u) << 28 | below(4) << 16 | (1 + below(32));
    return count;
}

/* A table that was kept, altered; now and then random words, or one about as long as the longest. Its length. */
static size_t some_table(uint32_t *words) {
    struct words from = tables[below((uint32_t)table_count)];
    size_t length = from.count;
    if (length > 0) memcpy(words, from.words, 4 * length);
    for (uint32_t turn = below(4); turn > 0; turn--)
        length = below(3) == 0 ? alter_words(words, length, 0) : alter_table(words, length);
    if (below(16) == 0) length = random_table(words);
    if (below(LONG_OFTEN) == 0) {
        size_t more = MOST_TABLE_WORDS - 2 + below(5);
        for (; length < more; length++) words[length] = some_table_word();
    }
    return length;
}

static uint32_t digits_of(uint32_t number) {
    uint32_t digits = 0;
    for (; number > 0; number /= 2) digits++;
    return digits;
}

static struct area words_area; /* of a table that is sized, asked for cycles or loses an entry */

static void compare_size(const uint32_t *words, size_t count) {
    const uint32_t *lent = (const uint32_t *)(const void *)lend(words_area, words, 4 * count, below(4) == 0);
    struct sizing sizing = reference_size(words, count, NONE);
    uint64_t expected = sizing.result, seen = kilnumber_measure(lent, count);
    if (seen != expected) {
        printf("fuzz: a size (%zu table words): expected %016llx, seen %016llx\n", count, (unsigned long long)expected,
               (unsigned long long)seen);
        exit(1);
    }
    require_same(lent, words, 4 * count);
    sizes++;
    by_size_number[expected >> 32]++;
    sized_of_6 += expected >> 32 == 0 && words[0] >> 28 == 6;
    sized_with_form += expected >> 32 == 0 && has_form(words, count);
    for (int check = LIST_END + 1; check < SIZE_END; check++) by_check[check] += sizing.table.came >> (check - WALK_END) & 1;
    /* As with listings, a table at fault is not altered further. Nor is one with a large tree, which takes long. */
    uint64_t number = expected >> 32;
    if ((number != 0 && number < 6) || sizing.nodes > MOST_KEPT_NODES) return;
    enum check end = number == 0 ? SIZE_END : number == 6 ? CONFLICT : UNREACHED;
    if (is_new(end, 4 * sizing.tests + sizing.table.entries % 4, digits_of(sizing.nodes))) keep_table(words, count);
}

static void fuzz_sizes(uint64_t count) {
    static uint32_t words[MOST_SIZE_WORDS];
    size_t given = table_count;
    for (size_t at = 0; at < given; at++) compare_size(tables[at].words, tables[at].count);
    while (sizes < count) compare_size(words, some_table(words));
}

/* ------------------------------------------------------------------------- cycles */

/* Mostly one that is there, or the first that is not; else one that a part of a number would take for another. */
static uint32_t some_entry(uint32_t entries) {
    uint32_t entry = below(entries);
    switch (below(6)) {
    case 0: return entries + below(2);
    case 1: return entry | 256u << below(24);
    case 2: return any();
    default: return entry;
    }
}

static void compare_cycles(const uint32_t *words, size_t count) {
    const uint32_t *lent = (const uint32_t *)(const void *)lend(words_area, words, 4 * count, below(4) == 0);
    int new = 0;
    for (uint32_t turn = 0; turn < ENTRIES_A_TABLE; turn++) {
        struct table table = table_of(words, count, NONE);
        uint32_t entry = some_entry(count == 0 ? 0 : words[0] >> 16 & 0xfff);
        uint64_t expected = reference_cycles(&table, entry), seen = kilnumber_cycles(lent, count, entry);
        if (seen != expected) {
            printf("fuzz: cycles (%zu table words, entry %u): expected %016llx, seen %016llx\n", count, (unsigned)entry,
                   (unsigned long long)expected, (unsigned long long)seen);
            exit(1);
        }
        by_cycles_number[expected >> 32]++;
        for (int check = SIZE_END + 1; check < CYCLES_END; check++) by_check[check] += table.came >> (check - WALK_END) & 1;
        if (expected >> 32 == 0) new |= is_new(CYCLES_END, table.entries, 2 * digits_of((uint32_t)expected) + table.has_cycles);
    }
    require_same(lent, words, 4 * count);
    asked++;
    if (new && count <= MOST_ALTERED_WORDS) keep_table(words, count);
}

static void fuzz_cycles(uint64_t count) {
    static uint32_t words[MOST_SIZE_WORDS];
    while (asked < count) compare_cycles(words, some_table(words));
}

/* ------------------------------------------------------------------------- withdrawals */

/* A word that entries have an opinion on, this one often. */
static uint32_t some_listed(const struct table *table, uint32_t *words, uint32_t entry) {
    uint32_t word = any() & span(0, table->width);
    for (uint32_t turn = table->entries == 0 ? 0 : below(4); turn > 0; turn--) {
        uint32_t chosen = entry < table->entries && below(2) == 0 ? entry : below(table->entries);
        const uint32_t *pattern = some_pattern(table, words + table->places[chosen]);
        word = (word & ~pattern[0]) | pattern[1];
    }
    return word;
}

/* Mostly few words, some of them twice, now and then not of the width. How many. */
static size_t some_list(struct table table, uint32_t *words, uint32_t entry, uint32_t *listed) {
    int good = read_table(&table), many = table.entries < 16 && below(64) == 0;
    size_t count = many ? below(MOST_LISTED) : below(9);
    for (size_t at = 0; at < count; at++) {
        int again = at > 0 && below(many ? 2 : 8) == 0;
        listed[at] = again ? listed[below((uint32_t)at)] : good ? some_listed(&table, words, entry) : any();
    }
    for (uint32_t turn = count > 0 && table.width < 32 && below(6) == 0 ? 1 + below(2) : 0; turn > 0; turn--)
        listed[below((uint32_t)count)] |= 1u << (table.width + below(32 - table.width));
    return count;
}

static void compare_changed(uint32_t *words, size_t count, struct area area) {
    static uint32_t listed[MOST_LISTED];
    const uint32_t *lent = (const uint32_t *)(const void *)lend(words_area, words, 4 * count, below(4) == 0);
    int new = 0;
    for (uint32_t turn = 0; turn < LISTS_A_TABLE; turn++) {
        struct table table = table_of(words, count, NONE);
        uint32_t entry = some_entry(count == 0 ? 0 : words[0] >> 16 & 0xfff);
        size_t length = some_list(table, words, entry, listed);
        const uint32_t *lent_list = (const uint32_t *)(const void *)lend(area, listed, 4 * length, below(4) == 0);
        uint64_t expected = reference_changed(&table, entry, listed, length);
        uint64_t seen = kilnumber_changed(lent, count, entry, lent_list, length);
        if (seen != expected) {
            printf("fuzz: a withdrawal (%zu table words, entry %u, %zu words): expected %016llx, seen %016llx\n", count, (unsigned)entry,
                   length, (unsigned long long)expected, (unsigned long long)seen);
            exit(1);
        }
        require_same(lent_list, listed, 4 * length);
        by_changed_number[expected >> 32]++;
        with_changes += expected > 0 && expected >> 32 == 0;
        for (int check = CYCLES_END + 1; check < CHANGED_END; check++) by_check[check] += table.came >> (check - WALK_END) & 1;
        if (expected >> 32 == 0) new |= is_new(CHANGED_END, table.entries, (uint32_t)expected);
    }
    require_same(lent, words, 4 * count);
    withdrawn++;
    if (new && count <= MOST_ALTERED_WORDS) keep_table(words, count);
}

static void fuzz_changed(uint64_t count) {
    static uint32_t words[MOST_SIZE_WORDS];
    struct area area = make_area(4 * MOST_LISTED);
    while (withdrawn < count) compare_changed(words, some_table(words), area);
}

/* ------------------------------------------------------------------------- operands */

/* A field's word that has no fault or nearly none, or any word. */
static uint32_t some_field(void) {
    static const uint32_t widths[] = {0, 1, 2, 15, 16, 17, 31, 32, 33, 64, 255};
    uint32_t width = below(4) == 0 ? widths[below(sizeof widths / sizeof widths[0])] : 1 + below(32), form = below(3);
    uint32_t most = at_most(width, 16) + 2 * (below(4) == 0), fraction = form == 2 ? below(most + 1) : 0;
    uint32_t field = 3u << 28 | form << 24 | fraction << 16 | below(below(2) == 0 ? 256 : 32) << 8 | width;
    if (below(16) == 0) return any();
    return below(4) == 0 ? field ^ 1u << below(32) : field;
}

/* Mostly one of the field's values, or one near the ends of its range. */
static uint32_t some_value(uint32_t field) {
    uint32_t width = at_most(field & 0xff, 32), value = (uint32_t)(any() & (((uint64_t)1 << width) - 1));
    switch (below(6)) {
    case 0: return any();
    case 1: return (uint32_t)(((uint64_t)1 << width) + below(3) - 1);
    case 2: return (uint32_t)((((uint64_t)1 << width) >> 1) + below(3) - 1);
    case 3: return below(3);
    default: return value;
    }
}

/* Mostly one of the field's numbers; one near the ends of their range; or one that is another in its lower bits. */
static int64_t some_number(uint32_t field) {
    int64_t width = at_most(field & 0xff, 32), end = (int64_t)1 << width, sign = below(2) == 0 ? 1 : -1, near = (int64_t)below(3) - 1;
    switch (below(8)) {
    case 0: return sign * (int64_t)((uint64_t)any() * any() / 2);
    case 1: return sign * end + near;
    case 2: return sign * (end / 2) + near;
    case 3: return sign * ((int64_t)1 << 32) + (int64_t)some_value(field);
    case 4: return below(2) == 0 ? INT64_MAX : INT64_MIN;
    case 5: return sign * (int64_t)some_value(field);
    default: return (int64_t)some_value(field) - (below(2) == 0 ? end : 0);
    }
}

static void operand_difference(const char *what, uint32_t field, int64_t given, uint64_t expected, uint64_t seen) {
    printf("fuzz: %s of field %08x, %lld: expected %016llx, seen %016llx\n", what, (unsigned)field, (long long)given,
           (unsigned long long)expected, (unsigned long long)seen);
    exit(1);
}

static void count_operand(struct operand operand) {
    by_operand_number[operand.number]++;
    for (int check = CHANGED_END + 1; check < NUMBER_END; check++) by_check[check] += operand.came >> (check - CHANGED_END) & 1;
}

static void compare_text(uint32_t field, uint32_t value, struct area area) {
    static uint8_t wanted[MOST_TEXT_ROOM], before[MOST_TEXT_ROOM];
    size_t room = below(8) == 0 ? below(MOST_TEXT_ROOM) : below(30);
    for (size_t at = 0; at < room; at++) wanted[at] = before[at] = (uint8_t)(0x80 | at % 128);
    uint8_t *lent = lend(area, before, room, below(4) == 0);
    struct operand operand = operand_of(field, NONE);
    uint64_t expected = reference_text(&operand, value, wanted, room), seen = kilnumber_text(field, value, lent, room);
    if (seen != expected) operand_difference("the text", field, value, expected, seen);
    if (memcmp(lent, wanted, room) != 0) operand_difference("the bytes of the text", field, value, expected, seen);
    count_operand(operand);
}

static void fuzz_operands(uint64_t count) {
    struct area area = make_area(MOST_TEXT_ROOM);
    for (; operands < count; operands++) {
        uint32_t field = some_field(), value = some_value(field);
        int64_t number = some_number(field);
        struct operand one = operand_of(field, NONE), other = one;
        uint64_t expected = reference_signed(&one, value), seen = kilnumber_signed(field, value);
        if (seen != expected) operand_difference("the number", field, value, expected, seen);
        expected = reference_stored(&other, number);
        seen = kilnumber_stored(field, number);
        if (seen != expected) operand_difference("the value", field, number, expected, seen);
        count_operand(one);
        count_operand(other);
        compare_text(field, value, area);
    }
}

/* ------------------------------------------------------------------------- files */

static uint32_t *read_words(const char *name, size_t *count) {
    FILE *file = fopen(name, "rb");
    if (file == NULL || fseek(file, 0, SEEK_END) != 0) stop(name);
    size_t length = (size_t)ftell(file);
    rewind(file);
    uint8_t *bytes = malloc(length + 4);
    uint32_t *words = malloc(length + 4);
    if (length < 4 || bytes == NULL || words == NULL || fread(bytes, 1, length, file) != length) stop(name);
    *count = length / 4;
    for (size_t at = 0; at < *count; at++) words[at] = word_at(bytes, at);
    free(bytes);
    fclose(file);
    return words;
}

static void read_trees(const char *name) {
    static uint8_t bytes[MOST_TREE_BYTES];
    size_t count, at = 1;
    uint32_t *words = read_words(name, &count);
    for (uint32_t turn = 0; turn < words[0] && at < count; turn++, at += 1 + words[at]) {
        if (4 * words[at] > MOST_TREE_BYTES) continue;
        for (size_t word = 0; word < words[at]; word++) put_word(bytes + 4 * word, words[at + 1 + word]);
        keep(bytes, 4 * words[at]);
    }
    if (at != count || kept_count < 100) stop("the file of trees is not whole");
    free(words);
}

static void read_lists(const char *name) {
    static struct listing listing;
    size_t count, at = 1;
    uint32_t *words = read_words(name, &count);
    lists = calloc(MOST_KEPT, sizeof *lists);
    if (lists == NULL) stop("no memory");
    for (uint32_t turn = 0; turn < words[0] && at < count; turn++) {
        uint32_t sizes[3];
        for (int part = 0; part < 3; part++, at += 1 + sizes[part - 1]) {
            sizes[part] = words[at];
            if (sizes[part] > (part == 2 ? 32 : MOST_LIST_WORDS)) stop("a list is too large");
            for (uint32_t word = 0; word < sizes[part]; word++) {
                if (part == 2) put_word(listing.image + 4 * word, words[at + 1 + word]);
                else (part == 0 ? listing.table : listing.tree)[word] = words[at + 1 + word];
            }
        }
        struct lent lent = {NULL, NULL, NULL, sizes[0], sizes[1], 4 * sizes[2], 64};
        listing.lent = lent;
        keep_listing(&listing);
    }
    if (at != count || list_count == 0) stop("the file of lists is not whole");
    free(words);
}

/* The tables without fault. */
static void read_sizes(const char *name) {
    size_t count, at = 1;
    uint32_t *words = read_words(name, &count);
    for (uint32_t turn = 0; turn < words[0] && at + 11 < count; turn++, at += 12 + words[at + 11]) {
        uint32_t number = words[at + 1], table_words = words[at + 11];
        if ((number == 0 || number >= 5) && table_words <= MOST_ALTERED_WORDS) keep_table(words + at + 12, table_words);
    }
    if (at != count || table_count < 500) stop("the file of sizes is not whole");
    free(words);
}

static double seconds(void) {
    struct timespec now;
    clock_gettime(CLOCK_MONOTONIC, &now);
    return (double)now.tv_sec + 1e-9 * (double)now.tv_nsec;
}

/* A fuzz that no longer comes to a check says nothing of it. */
static void require_each(uint64_t least) {
    static const char *const names[] = {"finished",
#define NAME(check) #check,
        WALK_CHECKS(NAME) "", LIST_CHECKS(NAME) "ends early", SIZE_CHECKS(NAME) "", CYCLES_CHECKS(NAME) "", CHANGED_CHECKS(NAME) "",
        NUMBER_CHECKS(NAME) ""};
#undef NAME
    for (int check = NONE; check < NUMBER_END; check++)
        if (check != WALK_END && check != SIZE_END && check != CYCLES_END && check != CHANGED_END && by_check[check] < least) {
            printf("fuzz: only %llu inputs came to %s\n", (unsigned long long)by_check[check], names[check]);
            exit(1);
        }
    for (int number = 0; number <= 14; number = number == 4 ? 14 : number + 1)
        if (by_check_number[number] < least) stop("too few checks of a number");
    for (int number = 0; number <= 19; number = number == 6 ? 19 : number + 1)
        if (by_size_number[number] < least) stop("too few sizes of a number");
    for (int number = 0; number <= 11; number = number == 4 ? 11 : number + 1)
        if (by_cycles_number[number] < least) stop("too few cycles of a number");
    static const int changed_numbers[] = {0, 1, 2, 3, 4, 6, 7, 11};
    for (int at = 0; at < 8; at++)
        if (by_changed_number[changed_numbers[at]] < 10 * least) stop("too few withdrawals of a number");
    if (with_changes < 100 * least) stop("too few withdrawals with changes");
    static const int operand_numbers[] = {0, 2, 4, 12, 18};
    for (int at = 0; at < 5; at++)
        if (by_operand_number[operand_numbers[at]] < 100 * least) stop("too few operands of a number");
    if (listed_of_6 < 10 * least || sized_of_6 < 10 * least) stop("too few tables of kind 6");
    if (listed_with_form < 10 * least || sized_with_form < 10 * least) stop("too few tables with a form");
    if (listed_unreached < 10 * least || by_size_number[19] < 10 * least) stop("too few tables with an entry that is not reached");
}

int main(int arguments, char **argument) {
    if (arguments < 10) stop("usage: fuzz trees lists sizes walks listings tables asked withdrawn operands");
    wrong = arguments > 10 ? (unsigned)atoi(argument[10]) : 0;
    if (wrong >= LAST_WRONG) return 3;                                                  /* the end of the row */
    if (wrong == WALK_END || wrong == LIST_END || wrong == SIZE_END || wrong == CYCLES_END || wrong == CHANGED_END || wrong == NUMBER_END)
        return 4;                                                                       /* no way to be wrong */
    read_trees(argument[1]);
    read_lists(argument[2]);
    read_sizes(argument[3]);
    words_area = make_area(4 * MOST_SIZE_WORDS);
    size_t given = kept_count, given_lists = list_count, given_tables = table_count;
    int others = !is_wrong_size() && !is_wrong_cycles() && !is_wrong_change() && !is_wrong_operand();
    double start = seconds();
    if (others) fuzz_walks(strtoull(argument[4], NULL, 10));
    double walked = seconds();
    if (others) fuzz_listings(strtoull(argument[5], NULL, 10));
    double listed = seconds();
    if (wrong == 0 || is_wrong_size()) fuzz_sizes(strtoull(argument[6], NULL, 10));
    double sized = seconds();
    if (wrong == 0 || is_wrong_cycles()) fuzz_cycles(strtoull(argument[7], NULL, 10));
    double answered = seconds();
    if (wrong == 0 || is_wrong_change()) fuzz_changed(strtoull(argument[8], NULL, 10));
    double changed = seconds();
    if (wrong == 0 || is_wrong_operand()) fuzz_operands(strtoull(argument[9], NULL, 10));
    double ended = seconds();
    if (arguments < 11) require_each(10);
    printf("fuzz: walks finished: %llu, number 7: %llu, 8: %llu, 9: %llu; listings whole: %llu (of kind 6: %llu, with a form: %llu, "
           "with an entry not reached: %llu), number 1 to 4: %llu, 14: %llu, 15: %llu, 16: %llu, 17: %llu\n",
           (unsigned long long)by_number[0], (unsigned long long)by_number[7], (unsigned long long)by_number[8],
           (unsigned long long)by_number[9], (unsigned long long)by_list_number[0],
           (unsigned long long)listed_of_6, (unsigned long long)listed_with_form, (unsigned long long)listed_unreached,
           (unsigned long long)(by_list_number[1] + by_list_number[2] + by_list_number[3] + by_list_number[4]),
           (unsigned long long)by_list_number[14], (unsigned long long)by_list_number[15], (unsigned long long)by_list_number[16],
           (unsigned long long)by_list_number[17]);
    printf("fuzz: sizes: %llu (of kind 6: %llu, with a form: %llu), number 1 to 4: %llu, 5: %llu, 6: %llu, 19: %llu; cycles: %llu, "
           "number 1 to 4: %llu, 11: %llu\n",
           (unsigned long long)by_size_number[0], (unsigned long long)sized_of_6, (unsigned long long)sized_with_form,
           (unsigned long long)(by_size_number[1] + by_size_number[2] + by_size_number[3] + by_size_number[4]),
           (unsigned long long)by_size_number[5], (unsigned long long)by_size_number[6], (unsigned long long)by_size_number[19],
           (unsigned long long)by_cycles_number[0],
           (unsigned long long)(by_cycles_number[1] + by_cycles_number[2] + by_cycles_number[3] + by_cycles_number[4]),
           (unsigned long long)by_cycles_number[11]);
    printf("fuzz: withdrawals: %llu (with changes: %llu), number 1 to 4: %llu, 6: %llu, 7: %llu, 11: %llu\n",
           (unsigned long long)by_changed_number[0], (unsigned long long)with_changes,
           (unsigned long long)(by_changed_number[1] + by_changed_number[2] + by_changed_number[3] + by_changed_number[4]),
           (unsigned long long)by_changed_number[6], (unsigned long long)by_changed_number[7], (unsigned long long)by_changed_number[11]);
    printf("fuzz: operands: %llu, number 2: %llu, 4: %llu, 12: %llu, 18: %llu\n", (unsigned long long)by_operand_number[0],
           (unsigned long long)by_operand_number[2], (unsigned long long)by_operand_number[4], (unsigned long long)by_operand_number[12],
           (unsigned long long)by_operand_number[18]);
    printf("fuzz good: %llu walks and masks in %.1f s, %llu listings and as many checks in %.1f s, %llu tables sized in %.1f s, "
           "%llu asked for cycles in %.1f s, %llu with an entry withdrawn in %.1f s, %llu operands in %.1f s; differences 0, faults 0; "
           "kept %zu trees over %zu given, %zu listings over %zu, %zu tables over %zu\n",
           (unsigned long long)walks, walked - start, (unsigned long long)listings, listed - walked, (unsigned long long)sizes, sized - listed,
           (unsigned long long)asked, answered - sized, (unsigned long long)withdrawn, changed - answered, (unsigned long long)operands,
           ended - changed,
           kept_count - given, given, list_count - given_lists, given_lists, table_count - given_tables, given_tables);
    return 0;
}
