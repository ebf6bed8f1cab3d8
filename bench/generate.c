/*
 * mktree in plain C: the same algorithm, the same input, the same lines. A measure for how long generating takes.
 *
 * Usage: generate < table. As the proved program it looks at all entries in each cell, counts the votes of each bit, and writes a
 * test once its zero side is made. Sentences in quotes are document 01's; what is said of cycles and of entries that are not reached
 * is document 02's.
 *
 *   gcc -std=c11 -O2 bench/generate.c -o generate
 *
 * With -DWRONG=1 and so on it is wrong in one way, to show that the comparison of the lines notices.
 */

#include <stdint.h>
#include <stdio.h>
#include <stdlib.h>
#include <string.h>

#ifndef WRONG
#define WRONG 0
#endif

#define MOST_BYTES 65536u
#define MOST_WORDS 16384u
#define MOST_ENTRIES 256u
#define MOST_CYCLES 65535u
#define MOST_LINE 16u /* "16383 80000000" and a newline */

enum status { DEAD, SURE, OPEN };

static uint32_t table[MOST_WORDS], places[MOST_ENTRIES], tree[MOST_WORDS];
static size_t table_words;
static uint32_t width, entries, cycles_words; /* the last: 1 in a table of kind 6, 0 in one of kind 1 */
static int clash_seen;
static uint32_t clash_word;
static uint8_t named[MOST_ENTRIES]; /* 1 for each entry that a leaf names */

static void print_refusal(uint32_t number, size_t place, uint32_t word) {
    printf("refused %u %zu %08x\n", (unsigned)number, place, (unsigned)word);
    exit(0);
}

/* ------------------------------------------------------------------------- reading the table: 1 to 4 */

static uint32_t span(uint32_t lowest, uint32_t size) {
    return (uint32_t)(((uint64_t)1 << size) - 1) << lowest;
}

static void need(size_t at) {
    if (at >= table_words) print_refusal(2, table_words, 0);
}

/* "a mask only once its value is there" */
static size_t read_pattern(size_t at, uint32_t own) {
    need(at);
    need(at + 1);
    if ((table[at] & ~own) != 0 || (table[at + 1] & ~table[at]) != 0) print_refusal(3, at, 0);
    return at + 2;
}

static size_t read_field(size_t at, uint32_t own, uint32_t *covered) {
    need(at);
    uint32_t head = table[at], lowest = head >> 8 & 0xff, size = head & 0xff;
    if (head >> 16 != 0x3000) print_refusal(2, at, 0);
    if (size == 0 || lowest + size > 32) print_refusal(4, at, 0);
    uint32_t its = span(lowest, size);
    if ((its & ~own) != 0 || (its & *covered) != 0) print_refusal(4, at, 0);
    *covered |= its;
    return at + 1;
}

static size_t read_condition(size_t at, uint32_t own) {
    need(at);
    uint32_t head = table[at], count = head & 15;
    if (head >> 4 != 0x4000000 || count > 8) print_refusal(2, at, 0);
    at = read_pattern(at + 1, own);
    for (uint32_t turn = 0; turn < count; turn++) {
        need(at);
        if (table[at] != 0x50000000) print_refusal(2, at, 0);
        at = read_pattern(at + 1, own);
    }
    return at;
}

static size_t read_entry(size_t at) {
    need(at);
    size_t place = at;
    uint32_t head = table[at], length = head >> 8 & 0xff, fields = head >> 4 & 15, conditions = head & 15;
    if (head >> 28 != 2 || length < 1 || length > width || fields > 8 || conditions > 8) print_refusal(2, at, 0);
    uint32_t own = span(width - length, length);
    at = read_pattern(at + 1, own);
    if (cycles_words > 0) {
        need(at);
        if (table[at] > MOST_CYCLES) print_refusal(2, at, 0);
        at++;
    }
    uint32_t covered = table[place + 1];
    for (uint32_t turn = 0; turn < fields; turn++) at = read_field(at, own, &covered);
    if (covered != own) print_refusal(4, place, 0);
    for (uint32_t turn = 0; turn < conditions; turn++) at = read_condition(at, own);
    return at;
}

static void read_table(void) {
    if (table_words == 0) print_refusal(1, 0, 0);
    entries = table[0] >> 16 & 0xfff;
    width = table[0] & 0xff;
    cycles_words = table[0] >> 28 == 6;
    if ((table[0] >> 28 != 1 && cycles_words == 0) || (table[0] >> 8 & 0xff) != 0 || entries > MOST_ENTRIES || width < 1 || width > 32)
        print_refusal(1, 0, 0);
    size_t at = 1;
    for (uint32_t entry = 0; entry < entries; entry++) {
        places[entry] = (uint32_t)at;
        at = read_entry(at);
    }
    if (at < table_words) print_refusal(2, at, 0);
}

/* ------------------------------------------------------------------------- what entries are in a cell */

/* "It implies a pattern when the fixed bits include its mask and agree with it" */
static inline int implies(const uint32_t *pattern, uint32_t fixed, uint32_t bits) {
    return (fixed & pattern[0]) == pattern[0] && (bits & pattern[0]) == pattern[1];
}

/* "and clashes when some fixed bit in the mask differs." */
static inline int clashes(const uint32_t *pattern, uint32_t fixed, uint32_t bits) {
    return ((bits ^ pattern[1]) & fixed & pattern[0]) != 0;
}

static int holds(const uint32_t *condition, uint32_t fixed, uint32_t bits) {
    if (!implies(condition + 1, fixed, bits)) return 0;
    for (uint32_t turn = 0; turn < (condition[0] & 15); turn++)
        if (!clashes(condition + 4 + 3 * turn, fixed, bits)) return 0;
    return 1;
}

static int fails(const uint32_t *condition, uint32_t fixed, uint32_t bits) {
    if (clashes(condition + 1, fixed, bits)) return 1;
    for (uint32_t turn = 0; turn < (condition[0] & 15); turn++)
        if (implies(condition + 4 + 3 * turn, fixed, bits)) return 1;
    return 0;
}

static inline const uint32_t *first_condition(const uint32_t *entry) {
    uint32_t before = WRONG == 4 ? 3 : 3 + cycles_words; /* 4: a field is taken for a condition where there are cycles */
    return entry + before + (entry[0] >> 4 & 15);
}
static inline const uint32_t *next_condition(const uint32_t *condition) { return condition + 3 + 3 * (condition[0] & 15); }

static enum status status_of(const uint32_t *entry, uint32_t fixed, uint32_t bits) {
    if (clashes(entry + 1, fixed, bits)) return DEAD;
    uint32_t conditions = entry[0] & 15;
    const uint32_t *condition = first_condition(entry);
    for (uint32_t turn = 0; turn < conditions; turn++, condition = next_condition(condition))
        if (holds(condition, fixed, bits)) return DEAD;
    if (!implies(entry + 1, fixed, bits)) return OPEN;
    if (WRONG == 1) return SURE; /* 1: "a leaf for a lone entry still open" */
    condition = first_condition(entry);
    for (uint32_t turn = 0; turn < conditions; turn++, condition = next_condition(condition))
        if (!fails(condition, fixed, bits)) return OPEN;
    return SURE;
}

static int more_specific(const uint32_t *e, const uint32_t *f) {
    if (WRONG == 2) return __builtin_popcount(e[1]) > __builtin_popcount(f[1]); /* 2: "more mask bits counted as more specific" */
    return (e[1] & f[1]) == f[1] && e[1] != f[1] && (e[2] & f[1]) == f[2];
}

/* "1. A sure entry more specific than every other live one" */
static int wins(const enum status *status, uint32_t entry) {
    if (status[entry] != SURE) return 0;
    for (uint32_t other = 0; other < entries; other++)
        if (other != entry && status[other] != DEAD && !more_specific(table + places[entry], table + places[other])) return 0;
    return 1;
}

/* ------------------------------------------------------------------------- "4. Test a bit" */

static uint32_t condition_bits(const uint32_t *entry, uint32_t fixed, uint32_t bits) {
    uint32_t found = 0;
    const uint32_t *condition = first_condition(entry);
    for (uint32_t turn = 0; turn < (entry[0] & 15); turn++, condition = next_condition(condition)) {
        if (holds(condition, fixed, bits) || fails(condition, fixed, bits)) continue;
        found |= condition[1];
        for (uint32_t more = 0; more < (condition[0] & 15); more++) found |= condition[4 + 3 * more];
    }
    return found;
}

/* "The bit is the unfixed one in the opcode masks of the most open entries, highest on a tie." */
static uint32_t bit_to_test(const enum status *status, uint32_t fixed, uint32_t bits) {
    uint32_t masks[MOST_ENTRIES], best = 0, most = 0;
    for (uint32_t entry = 0; entry < entries; entry++) masks[entry] = status[entry] == OPEN ? table[places[entry] + 1] : 0;
    for (uint32_t bit = 0; bit < width; bit++) {
        if ((fixed >> bit & 1) != 0) continue;
        uint32_t votes = 0;
        for (uint32_t entry = 0; entry < entries; entry++) votes += masks[entry] >> bit & 1;
        if (votes > 0 && (WRONG == 3 ? votes > most : votes >= most)) { /* 3: lowest on a tie */
            best = bit;
            most = votes;
        }
    }
    if (most > 0) return best;
    /* "the highest unfixed bit in any pattern of an open condition of an open entry" */
    uint32_t found = 0;
    for (uint32_t entry = 0; entry < entries; entry++)
        if (status[entry] == OPEN) found |= condition_bits(table + places[entry], fixed, bits);
    return 31 - (uint32_t)__builtin_clz(found & ~fixed);
}

/* ------------------------------------------------------------------------- making the tree */

static void decide(uint32_t fixed, uint32_t bits, uint32_t *leaf, int *conflict, uint32_t *bit) {
    enum status status[MOST_ENTRIES];
    int live = 0, open = 0;
    for (uint32_t entry = 0; entry < entries; entry++) {
        status[entry] = status_of(table + places[entry], fixed, bits);
        live |= status[entry] != DEAD;
        open |= status[entry] == OPEN;
    }
    for (uint32_t entry = 0; entry < entries; entry++)
        if (wins(status, entry)) {
            *leaf = 9u << 28 | entry;
            return;
        }
    *leaf = live && open ? 0 : 10u << 28;
    *conflict = live && !open;
    if (*leaf == 0) *bit = bit_to_test(status, fixed, bits);
}

/* The index after the subtree; 0 where it does not fit. */
static size_t make(uint32_t fixed, uint32_t bits, size_t at) {
    if (at >= MOST_WORDS) return 0;
    uint32_t leaf, bit = 0;
    int conflict = 0;
    decide(fixed, bits, &leaf, &conflict, &bit);
    if (conflict && !clash_seen) {
        clash_seen = 1;
        clash_word = bits;
    }
    if (leaf != 0) {
        if (leaf >> 28 == 9) named[leaf & 0xff] = 1;
        tree[at] = leaf;
        return at + 1;
    }
    fixed |= 1u << bit;
    size_t one_side = make(fixed, bits, at + 1);
    if (one_side == 0) return 0;
    tree[at] = 8u << 28 | bit << 23 | (uint32_t)one_side;
    return make(fixed, bits | 1u << bit, one_side);
}

/* A leaf names an entry exactly when some word selects it. The lowest entry that none selects, or the number of entries. */
static uint32_t lowest_unreached(void) {
    uint32_t entry = 0;
    while (entry < entries && named[entry]) entry++;
    return entry;
}

/* ------------------------------------------------------------------------- lines */

/* Digits by hand: printf would be the larger part of the time. */
static char *put_line(char *to, size_t index, uint32_t word) {
    char digits[8];
    int count = 0;
    do digits[count++] = (char)('0' + index % 10);
    while ((index /= 10) != 0);
    while (count > 0) *to++ = digits[--count];
    *to++ = ' ';
    for (int shift = 28; shift >= 0; shift -= 4) *to++ = "0123456789abcdef"[word >> shift & 15];
    *to++ = '\n';
    return to;
}

static void print_tree(size_t words) {
    static char lines[MOST_WORDS * MOST_LINE];
    char *to = lines;
    for (size_t index = 0; index < words; index++) to = put_line(to, index, tree[index]);
    fwrite(lines, 1, (size_t)(to - lines), stdout);
}

int main(void) {
    static uint8_t bytes[MOST_BYTES + 1];
    size_t got = fread(bytes, 1, sizeof bytes, stdin);
    if (got > MOST_BYTES || got % 4 != 0) print_refusal(1, 0, 0);
    table_words = got / 4;
    for (size_t at = 0; at < table_words; at++) {
        const uint8_t *from = bytes + 4 * at;
        table[at] = (uint32_t)from[0] | (uint32_t)from[1] << 8 | (uint32_t)from[2] << 16 | (uint32_t)from[3] << 24;
    }
    read_table();
    size_t end = make(0, 0, 1);
    if (end == 0) print_refusal(5, 0, 0);
    uint32_t unreached = WRONG == 5 ? entries : lowest_unreached();                             /* 5: 19 is not looked for */
    if (clash_seen && (WRONG != 6 || unreached == entries)) print_refusal(6, 0, clash_word);    /* 6: 19 before 6 */
    if (unreached < entries) print_refusal(19, WRONG == 7 ? entries : unreached, 0);            /* 7: another place */
    tree[0] = 7u << 28 | width << 16 | (uint32_t)(end - 1);
    print_tree(end);
    return 0;
}
