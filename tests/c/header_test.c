/*
 * The header's names, accessors and helpers; compiled as C and as C++, linked with the library. Every number here is from
 * documents 01 and 02, and not taken from the header; where sizes, cycles, withdrawals and operands have their parts is from
 * docs/FORMAT.md.
 *
 * The table: width 32, entry 0 of 16 bits `1...`, entry 1 of 32 bits `01..`. Its tree tests bit 31, then bit 30. The one with cycles:
 * the same, 77 and 65,535 of them.
 * The ambiguous one: width 3, `1--` and `--1`. The large one: width 32, one entry whose condition looks at every bit. The covered one:
 * width 1, `0`, `-` and `1`, so that no word selects entry 1.
 */

#include <stdio.h>
#include <stdlib.h>
#include <string.h>

#include "kilnumber.h"

static const uint32_t table[] = {0x10020020, 0x20001010, 0x80000000, 0x80000000, 0x3000100f,
                                 0x20012010, 0xc0000000, 0x40000000, 0x3000001e};
static const uint8_t tree_bytes[] = {5, 0, 0x20, 0x70, 5, 0, 0x80, 0x8f, 4, 0, 0, 0x8f, 0, 0, 0, 0xa0, 1, 0, 0, 0x90, 0, 0, 0, 0x90};
static const uint32_t with_cycles[] = {0x60020020, 0x20001010, 0x80000000, 0x80000000, 77, 0x3000100f,
                                       0x20012010, 0xc0000000, 0x40000000, 65535, 0x3000001e};
#define TREE_WORDS (sizeof tree_bytes / 4)
static const uint32_t ambiguous[] = {0x10020003, 0x20000310, 4, 4, 0x30000002, 0x20000310, 1, 1, 0x30000102};
static const uint32_t covered[] = {0x10030001, 0x20000100, 1, 0, 0x20000110, 0, 0, 0x30000001, 0x20000100, 1, 1};
static const uint32_t covered_tree[] = {0x70010003, 0x80000003, 0x90000000, 0x90000002};
static const uint32_t large[] = {0x10010020, 0x20002011, 0, 0, 0x30000020, 0x40000002, 1, 0, 0x50000000, 1, 0, 0x50000000, 0xffffffff, 1};

static unsigned compared;

static void expect(const char *what, uint64_t seen, uint64_t wanted) {
    compared++;
    if (seen == wanted) return;
    printf("difference: %s is %llx, and not %llx\n", what, (unsigned long long)seen, (unsigned long long)wanted);
    exit(1);
}

static void names(void) {
    static const int refusals[] = {KILNUMBER_NO_REFUSAL, KILNUMBER_TABLE_START, KILNUMBER_TABLE_WORD, KILNUMBER_TABLE_PATTERN,
                                   KILNUMBER_TABLE_FIELD, KILNUMBER_TREE_SIZE, KILNUMBER_AMBIGUOUS, KILNUMBER_HIGH_WORD,
                                   KILNUMBER_TREE_HEADER, KILNUMBER_DAMAGED_NODE, KILNUMBER_NO_ENTRY, KILNUMBER_OUT_OF_RANGE,
                                   KILNUMBER_WRONG_TREE, KILNUMBER_NO_IMAGE_TABLE, KILNUMBER_BAD_IMAGE, KILNUMBER_NO_ROOM,
                                   KILNUMBER_NO_TEXT_ROOM, KILNUMBER_UNREACHED};
    static const int numbers[] = {0, 1, 2, 3, 4, 5, 6, 7, 8, 9, 11, 12, 14, 15, 16, 17, 18, 19};
    for (size_t at = 0; at < sizeof numbers / sizeof numbers[0]; at++)
        expect("a refusal's number", (uint64_t)refusals[at], (uint64_t)numbers[at]);
    expect("an item's kind", kilnumber_item_kind(0xc2a00005), KILNUMBER_INSTRUCTION);
    expect("an item's entry", kilnumber_item_entry(0xcff00005), 255);
    expect("an item's address", kilnumber_item_address(0xc2afffff), 0xfffff);
    expect("kind 13", kilnumber_item_kind(0xd0000000), KILNUMBER_UNKNOWN);
    expect("kind 14", kilnumber_item_kind(0xe0000000), KILNUMBER_CUT_OFF);
}

static void one_tree(uint32_t *tree) {
    kilnumber_words(tree_bytes, TREE_WORDS, tree);
    expect("the first word", tree[0], 0x70200005);
    expect("the last word", tree[TREE_WORDS - 1], 0x90000000);
    for (uint32_t top = 0; top < 16; top++)
        expect("a walk by words", kilnumber_walk_words(tree, TREE_WORDS, top << 28), kilnumber_walk(tree_bytes, sizeof tree_bytes, top << 28));
    uint64_t result = kilnumber_walk_words(tree, TREE_WORDS, 0x40000000);
    expect("entry 1", kilnumber_entry(result), 1);
    expect("two tests", kilnumber_tests(result), 2);
    expect("nothing", (uint64_t)kilnumber_is_nothing(kilnumber_walk_words(tree, TREE_WORDS, 0)), 1);
    expect("number 8", kilnumber_number(kilnumber_walk(tree_bytes, 7, 0)), KILNUMBER_TREE_HEADER);
}

static void masks(const uint32_t *tree) {
    expect("one bit tested", kilnumber_mask(tree_bytes, sizeof tree_bytes, 0xffffffff), 0x80000000);
    expect("two bits tested", kilnumber_mask(tree_bytes, sizeof tree_bytes, 0x00000001), 0xc0000000);
    expect("the mask of a refused walk", kilnumber_mask(tree_bytes, sizeof tree_bytes - 1, 0), 0);
    for (uint32_t top = 0; top < 16; top++)
        expect("a mask by words", kilnumber_mask_words(tree, TREE_WORDS, top << 28), top < 8 ? 0xc0000000 : 0x80000000);
    expect("a mask of too few words", kilnumber_mask_words(tree, TREE_WORDS - 1, 0), 0);
}

static void size(void) {
    uint64_t result = kilnumber_measure(table, 9);
    expect("a size", result, 0x20005);
    expect("the words of the tree", kilnumber_nodes(result) + 1, TREE_WORDS);
    expect("the tests of its deepest leaf", kilnumber_tests(result), 2);
    expect("the most nodes", kilnumber_nodes(0x203fff), 16383);
    expect("the most tests", kilnumber_tests(0x203fff), 32);
    result = kilnumber_measure(ambiguous, 9);
    expect("number 6", kilnumber_number(result), KILNUMBER_AMBIGUOUS);
    expect("the ambiguous word", kilnumber_word(result), 5);
    expect("the highest word", kilnumber_word((uint64_t)6 << 32 | 0xffffffff), 0xffffffff);
    expect("number 5 alone", kilnumber_measure(large, 14), (uint64_t)KILNUMBER_TREE_SIZE << 32);
    result = kilnumber_measure(table, 8);
    expect("a table that ends early", kilnumber_number(result), KILNUMBER_TABLE_WORD);
    expect("its place", kilnumber_list_place(result), 8);
    result = kilnumber_measure(covered, 11);
    expect("number 19", kilnumber_number(result), KILNUMBER_UNREACHED);
    expect("the entry that no word selects", kilnumber_list_place(result), 1);
}

static void check(const uint32_t *tree) {
    uint32_t other[TREE_WORDS];
    memcpy(other, tree, sizeof other);
    other[5] = 0x90000001; /* well formed, but words with bit 31 select entry 0 */
    expect("yes", kilnumber_check(table, 9, tree, TREE_WORDS), 0);
    expect("yes, though an entry is selected by no word", kilnumber_check(covered, 11, covered_tree, 4), 0);
    expect("no", kilnumber_number(kilnumber_check(table, 9, other, TREE_WORDS)), KILNUMBER_WRONG_TREE);
    expect("the walk of it goes on", kilnumber_walk_words(other, TREE_WORDS, 0x80000000), 0x10001);
    uint64_t cut = kilnumber_check(table, 8, tree, TREE_WORDS);
    expect("a table that ends early", kilnumber_number(cut), KILNUMBER_TABLE_WORD);
    expect("its place", kilnumber_list_place(cut), 8);
}

static void list(const uint32_t *tree) {
    static const uint8_t image[] = {0, 0x80, 0, 0, 0, 0x40, 1, 0, 0, 0x40}; /* 8000, 0000, 4000 0001, 4000 */
    uint32_t items[4] = {0, 0, 0, 0};
    uint64_t result = kilnumber_list(table, 9, tree, TREE_WORDS, image, sizeof image, items, 4);
    expect("four items", result, 4);
    expect("the number of items", kilnumber_items(result), 4);
    expect("an instruction", items[0], 0xc0000000);
    expect("an unknown halfword", items[1], 0xd0000001);
    expect("an instruction of two", items[2], 0xc0100002);
    expect("one that is cut off", items[3], 0xe0000004);
    result = kilnumber_list(table, 9, tree, TREE_WORDS, image, sizeof image, items, 2);
    expect("no room", kilnumber_number(result), KILNUMBER_NO_ROOM);
    expect("the first left out", kilnumber_list_place(result), 2);
}

static void cycles(const uint32_t *tree) {
    uint32_t other[11], high = 256;
    memcpy(other, with_cycles, sizeof other);
    other[9] = 65536;
    uint64_t result = kilnumber_cycles(with_cycles, 11, 0);
    expect("the cycles of entry 0", result, 77);
    expect("how many they are", kilnumber_cycle_count(result), 77);
    expect("the most cycles", kilnumber_cycle_count(kilnumber_cycles(with_cycles, 11, 1)), 65535);
    expect("the cycles in a table without them", kilnumber_cycles(table, 9, 1), 0);
    expect("number 11 alone", kilnumber_cycles(with_cycles, 11, 2), (uint64_t)KILNUMBER_NO_ENTRY << 32);
    expect("an entry of more than eight bits", kilnumber_number(kilnumber_cycles(with_cycles, 11, high)), 11);
    result = kilnumber_cycles(other, 11, 0);
    expect("too many cycles", kilnumber_number(result), KILNUMBER_TABLE_WORD);
    expect("their place", kilnumber_list_place(result), 9);
    expect("the size of the tree does not depend on them", kilnumber_measure(with_cycles, 11), kilnumber_measure(table, 9));
    expect("nor does the tree", kilnumber_check(with_cycles, 11, tree, TREE_WORDS), 0);
}

static void withdrawals(void) {
    static const uint32_t words[] = {0x80000000, 0x40000000, 0xffffffff, 0, 0x80000000}, of_width_3[] = {4, 5, 8}, zeros[300] = {0};
    uint32_t high = 256;
    size_t many = sizeof zeros / 4;
    uint64_t result = kilnumber_changed(table, 9, 0, words, 5);
    expect("three words of five", result, 3);
    expect("how many they are", kilnumber_changed_words(result), 3);
    expect("those of the other entry", kilnumber_changed(table, 9, 1, words, 5), 1);
    expect("those of an empty list", kilnumber_changed(table, 9, 1, words, 0), 0);
    expect("a table with an ambiguous word that is not listed", kilnumber_changed(ambiguous, 9, 0, of_width_3, 1), 1);
    result = kilnumber_changed(ambiguous, 9, 0, of_width_3, 3);
    expect("an ambiguous word", kilnumber_number(result), KILNUMBER_AMBIGUOUS);
    expect("as itself", kilnumber_word(result), 5);
    expect("number 7 alone", kilnumber_changed(ambiguous, 9, 0, of_width_3 + 2, 1), (uint64_t)KILNUMBER_HIGH_WORD << 32);
    expect("number 11 alone", kilnumber_changed(ambiguous, 9, 2, of_width_3, 3), (uint64_t)KILNUMBER_NO_ENTRY << 32);
    expect("an entry of more than eight bits", kilnumber_number(kilnumber_changed(table, 9, high, words, 5)), 11);
    expect("an entry that no word selects", kilnumber_changed(covered, 11, 1, zeros, many), 0);
    expect("a list of more than 255 words", kilnumber_changed(covered, 11, 0, zeros, many), 300);
    result = kilnumber_changed(table, 8, 0, words, 5);
    expect("a table that ends early", kilnumber_number(result), KILNUMBER_TABLE_WORD);
    expect("its place", kilnumber_list_place(result), 8);
    expect("a count of 32 bits", kilnumber_changed_words(0xffffffff), 0xffffffff);
    expect("the count of all words", kilnumber_changed_words((uint64_t)1 << 40), (uint64_t)1 << 32);
    expect("a count of 56 bits", kilnumber_changed_words(0xabcdef0089abcdef), 0xabcdef89abcdef);
}

/* The limits, at them and one over: 256 entries `-` of width 1, an entry of 8 fields, an image of zeros. */
static void limits(const uint32_t *tree) {
    static uint32_t words[1 + 4 * 257], items[1];
    static uint8_t image[2097154];
    uint32_t fields[13] = {0x10010009, 0x20000980, 0x100, 0};
    expect("the most words of a table", KILNUMBER_MOST_TABLE_WORDS, 16384);
    expect("the most words of a tree", KILNUMBER_MOST_TREE_WORDS, 16384);
    expect("the most entries", KILNUMBER_MOST_ENTRIES, 256);
    expect("the most fields", KILNUMBER_MOST_FIELDS, 8);
    expect("the most bytes of an image", KILNUMBER_MOST_IMAGE_BYTES, 2097152);
    for (uint32_t entry = 0; entry < 257; entry++) words[1 + 4 * entry] = 0x20000110, words[4 + 4 * entry] = 0x30000001;
    words[0] = 0x10000001 | KILNUMBER_MOST_ENTRIES << 16;
    expect("as many entries", kilnumber_number(kilnumber_cycles(words, 1 + 4 * KILNUMBER_MOST_ENTRIES, 255)), 0);
    words[0] += 1 << 16;
    expect("an entry more", kilnumber_number(kilnumber_cycles(words, 1 + 4 * 257, 0)), KILNUMBER_TABLE_START);
    for (uint32_t field = 0; field < 8; field++) fields[4 + field] = 0x30000001 | field << 8;
    expect("as many fields", kilnumber_number(kilnumber_cycles(fields, 4 + KILNUMBER_MOST_FIELDS, 0)), 0);
    fields[1] += 0x10;
    expect("a field more", kilnumber_number(kilnumber_cycles(fields, 13, 0)), KILNUMBER_TABLE_WORD);
    expect("as many bytes", kilnumber_number(kilnumber_list(table, 9, tree, TREE_WORDS, image, KILNUMBER_MOST_IMAGE_BYTES, items, 1)), 17);
    expect("two bytes more", kilnumber_number(kilnumber_list(table, 9, tree, TREE_WORDS, image, KILNUMBER_MOST_IMAGE_BYTES + 2, items, 1)), 16);
}

/* A table as long as may be, and a word longer: no entries, and words left over. */
static void longest_table(void) {
    static uint32_t words[16385] = {0x10000001};
    expect("as many words", kilnumber_cycles(words, KILNUMBER_MOST_TABLE_WORDS, 0), (uint64_t)KILNUMBER_TABLE_WORD << 32 | 1);
    expect("a word more", kilnumber_cycles(words, KILNUMBER_MOST_TABLE_WORDS + 1, 0), (uint64_t)KILNUMBER_TABLE_START << 32);
}

/* Fields by themselves. Plain, signed and fixed point with 16 fraction bits, each of 32 bits; of eight bits, four of them after the point;
 * a spare bit, and a form that there is not. */
static const uint32_t plain = 0x30000020, two_s = 0x31000020, point = 0x32100020, gain = 0x32040008;
static const uint32_t spare = 0x31010008, form_3 = 0x33000008;
static const uint32_t top_bit = 0x80000000, all_bits = 0xffffffff;
static const int64_t over = (int64_t)1 << 32;

static void whole_numbers(void) {
    uint64_t result = kilnumber_signed(gain, 0xf8);
    expect("a number below zero", result, 0x100fffffff8);
    expect("as itself", (uint64_t)kilnumber_signed_number(result), (uint64_t)-8);
    expect("without refusal", kilnumber_number(result), 0);
    expect("the lowest number", (uint64_t)kilnumber_signed_number(kilnumber_signed(two_s, top_bit)), (uint64_t)-2147483648LL);
    expect("the highest number", (uint64_t)kilnumber_signed_number(kilnumber_signed(plain, all_bits)), 0xffffffff);
    expect("12 alone", kilnumber_signed(gain, 0x100), (uint64_t)KILNUMBER_OUT_OF_RANGE << 32);
    expect("a spare bit", kilnumber_signed(spare, 0), (uint64_t)KILNUMBER_TABLE_WORD << 32);
    expect("a form over 2", kilnumber_signed(form_3, 0), (uint64_t)KILNUMBER_TABLE_FIELD << 32);
    expect("its place", kilnumber_list_place(kilnumber_signed(form_3, 0)), 0);
    expect("a value", kilnumber_stored(gain, -8), 0xf8);
    expect("the highest value", kilnumber_stored_value(kilnumber_stored(two_s, -1)), 0xffffffff);
    expect("a number over 32 bits", kilnumber_number(kilnumber_stored(plain, over)), 12);
    expect("a number far below zero", kilnumber_number(kilnumber_stored(two_s, -over)), 12);
}

static void texts(void) {
    uint8_t text[256];
    size_t room = sizeof text;
    memset(text, '*', sizeof text);
    uint64_t result = kilnumber_text(gain, 0xf8, text, room);
    expect("the length of a text", result, 7);
    expect("how long it is", kilnumber_text_length(result), 7);
    expect("the text, and the byte after it", (uint64_t)memcmp(text, "-0.5000*", 8), 0);
    expect("room for every text", KILNUMBER_TEXT_ROOM, 23);
    expect("the longest text", kilnumber_text(point, top_bit, text, KILNUMBER_TEXT_ROOM), 23);
    expect("its bytes", (uint64_t)memcmp(text, "-32768.0000000000000000*", 24), 0);
    expect("18 alone", kilnumber_text(point, top_bit, text, 22), (uint64_t)KILNUMBER_NO_TEXT_ROOM << 32);
    expect("a length of all 32 bits", kilnumber_text_length(0x12345678), 0x12345678);
}

int main(void) {
    uint32_t tree[TREE_WORDS];
    names();
    one_tree(tree);
    masks(tree);
    size();
    check(tree);
    list(tree);
    cycles(tree);
    withdrawals();
    limits(tree);
    longest_table();
    whole_numbers();
    texts();
    printf("header good: %u compared\n", compared);
    return 0;
}
