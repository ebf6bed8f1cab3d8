/*
 * The walk, the check and the listing of document 01, and the mask, the size, the cycles, the withdrawal and the operands of document 02,
 * written from these papers alone, for fuzz.c. Sentences in quotes are the papers'.
 *
 * Each check has a name, and a check is left out where its name is `without`: so the same text is the reference (NONE) and a row of
 * wrong ones, and the checks that a walk came by say how far an input got. For a size, for cycles, for a withdrawal and for operands the
 * names are parts of the rule.
 */

#ifndef REFERENCE_H
#define REFERENCE_H

#include <stddef.h>
#include <stdint.h>
#include <string.h>

#define WALK_CHECKS(X)                                                                                                       \
    X(LENGTH_OF_FOUR) X(HEADER_KIND) X(HEADER_SPARE) X(WIDTH_LEAST) X(WIDTH_MOST) X(NODES_LEAST) X(NODES_MOST) X(WORD_HIGH)    \
    X(NODE_KIND) X(TEST_SPARE) X(TEST_BIT) X(ONE_SIDE_LEAST) X(ONE_SIDE_MOST) X(ENTRY_SPARE) X(NOTHING_SPARE)
#define LIST_CHECKS(X)                                                                                                       \
    X(TABLE_FIRST) X(TABLE_KIND) X(TABLE_COUNT) X(TABLE_LENGTH) X(PATTERN_OWN) X(PATTERN_VALUE) X(FIELD_SPARE) X(FIELD_FORM)   \
    X(FIELD_FRACTION) X(FRACTION_OVER) X(FIELD_PLACE) X(FIELD_OVERLAP) X(COVER) X(LEFT_OVER) X(IMAGE_WIDTH) X(IMAGE_LENGTH)    \
    X(IMAGE_ODD) X(IMAGE_LONG) X(TREE_WIDTH) X(TREE_DAMAGED)                                                                 \
    X(BIT_TWICE) X(ONE_SIDE_BEGINS) X(ALL_USED) X(NAMED_STEP) X(NOTHING_STEP) X(NO_ROOM) X(LAST_HALF) X(LAST_LENGTH)
#define SIZE_CHECKS(X)                                                                                                       \
    X(TREE_LIMIT) X(FIT_FIRST) X(CONFLICT) X(FIRST_CONFLICT) X(DEEPEST) X(HIGHEST_ON_TIE) X(MOST_MASKS) X(HIGHEST_UNFIXED)      \
    X(UNMATCHING_TOO) X(CYCLES_ASIDE) X(UNREACHED) X(CONFLICT_FIRST) X(LOWEST_UNREACHED)
#define CYCLES_CHECKS(X)                                                                                                     \
    X(CYCLES_HIGH) X(AFTER_VALUE) X(BEFORE_FIELDS) X(KIND_ONE_ZERO) X(NO_SUCH_ENTRY) X(FAULTS_FIRST)
#define CHANGED_CHECKS(X)                                                                                                    \
    X(WITHDRAWN_THERE) X(AFTER_FAULTS) X(BEFORE_WORDS) X(LISTED_HIGH) X(LISTED_AMBIGUOUS) X(BEFORE_WITHDRAWAL) X(FIRST_UNFIT)   \
    X(OLD_NUMBERS) X(TO_NOTHING) X(TO_OTHER) X(TO_AMBIGUOUS) X(EACH_TIME)
#define NUMBER_CHECKS(X)                                                                                                     \
    X(WORD_KIND) X(WORD_SPARE) X(WORD_WIDTH_LEAST) X(WORD_WIDTH_MOST) X(WORD_FORM) X(WORD_FRACTION) X(WORD_FRACTION_OVER)      \
    X(VALUE_HIGH) X(NUMBER_LEAST) X(NUMBER_MOST) X(SIGNED_SIGN) X(POINT_SIGN) X(MINUS) X(NO_LEADING) X(ONE_DIGIT) X(ALL_DIGITS) \
    X(NO_POINT) X(TEXT_ROOM)

enum check {
    NONE,
#define NAME(check) check,
    WALK_CHECKS(NAME) WALK_END,
    LIST_CHECKS(NAME) LIST_END,
    SIZE_CHECKS(NAME) SIZE_END,
    CYCLES_CHECKS(NAME) CYCLES_END,
    CHANGED_CHECKS(NAME) CHANGED_END,
    NUMBER_CHECKS(NAME) NUMBER_END
#undef NAME
};
_Static_assert(CHANGED_END - WALK_END < 64, "the checks have a bit each in a table's `came`");

#define MOST_STEPS 200000u /* only a wrong walk, which may go round in circles, comes to it */
#define MOST_TABLE_WORDS 16384u
#define MOST_TREE_WORDS 16384u
#define MOST_CYCLES 65535u
#define MOST_IMAGE_BYTES 2097152u
#define MOST_ASKED_WIDTH 8u /* of a table whose words are all asked what they select */

static uint32_t word_at(const uint8_t *bytes, size_t index) {
    const uint8_t *at = bytes + 4 * index;
    return (uint32_t)at[0] | (uint32_t)at[1] << 8 | (uint32_t)at[2] << 16 | (uint32_t)at[3] << 24;
}

/* ------------------------------------------------------------------------- the walk */

struct walked {
    uint32_t number, place, entry, nothing, tests, mask;
    enum check stopped_by; /* NONE if it finished */
};

static inline struct walked walk_stopped(enum check by, uint32_t number, uint32_t place) {
    struct walked walked = {number, place, 0, 0, 0, 0, by};
    return walked;
}

/* "tree header: length 0, kind, spare bit, width not 1-32, no nodes, more nodes than words after it" */
static inline enum check header_fault(uint32_t header, size_t words, enum check without) {
    uint32_t width = header >> 16 & 63, nodes = header & 0xffff;
    if (header >> 28 != 7 && without != HEADER_KIND) return HEADER_KIND;
    if ((header >> 22 & 63) != 0 && without != HEADER_SPARE) return HEADER_SPARE;
    if (width < 1 && without != WIDTH_LEAST) return WIDTH_LEAST;
    if (width > 32 && without != WIDTH_MOST) return WIDTH_MOST;
    if (nodes == 0 && without != NODES_LEAST) return NODES_LEAST;
    if (nodes > words - 1 && without != NODES_MOST) return NODES_MOST;
    return NONE;
}

/* "A path node is damaged if its kind is not 8-10, a spare bit is set, the tested bit is at or above the width, or the one side's
 * index is below its own + 2 or above the number of nodes." */
static inline enum check node_fault(uint32_t node, uint32_t index, uint32_t width, uint32_t nodes, enum check without) {
    switch (node >> 28) {
    case 8:
        if ((node >> 16 & 0x7f) != 0 && without != TEST_SPARE) return TEST_SPARE;
        if ((node >> 23 & 31) >= width && without != TEST_BIT) return TEST_BIT;
        if ((node & 0xffff) < index + 2 && without != ONE_SIDE_LEAST) return ONE_SIDE_LEAST;
        return (node & 0xffff) > nodes && without != ONE_SIDE_MOST ? ONE_SIDE_MOST : NONE;
    case 9:
        return (node & 0x0fffff00) != 0 && without != ENTRY_SPARE ? ENTRY_SPARE : NONE;
    case 10:
        return (node & 0x0fffffff) != 0 && without != NOTHING_SPARE ? NOTHING_SPARE : NONE;
    default:
        return without != NODE_KIND ? NODE_KIND : NONE; /* without: taken for nothing */
    }
}

static inline struct walked reference_walk(const uint8_t *tree, size_t length, uint32_t word, enum check without) {
    /* "a length not a multiple of four gives 8" */
    if (length < 4 || (length % 4 != 0 && without != LENGTH_OF_FOUR)) return walk_stopped(LENGTH_OF_FOUR, 8, 0);
    uint32_t width = word_at(tree, 0) >> 16 & 63, nodes = word_at(tree, 0) & 0xffff, index = 1;
    enum check fault = header_fault(word_at(tree, 0), length / 4, without);
    if (fault != NONE) return walk_stopped(fault, 8, 0);
    if (width < 32 && word >> width != 0 && without != WORD_HIGH) return walk_stopped(WORD_HIGH, 7, 0);
    struct walked walked = {0, 0, 0, 0, 0, 0, NONE};
    for (uint32_t step = 0; step < MOST_STEPS && index < length / 4; step++) {
        uint32_t node = word_at(tree, index);
        fault = node_fault(node, index, width, nodes, without);
        if (fault != NONE) return walk_stopped(fault, 9, index);
        if (node >> 28 != 8) {
            walked.nothing = node >> 28 != 9;
            walked.entry = walked.nothing ? 0 : node & 0xff;
            return walked;
        }
        walked.tests++;
        walked.mask |= (uint32_t)1 << (node >> 23 & 31); /* "a 32-bit mask of the bits tested", "0 when refused" */
        index = (word >> (node >> 23 & 31) & 1) == 0 ? index + 1 : node & 0xffff;
    }
    return walk_stopped(WALK_END, 255, 0); /* the right walk never comes here */
}

/* "entry in 7-0, bit 8 for nothing, count in 31-16, number in 39-32 (0 if none), place in 63-48, the rest zero" */
static inline uint64_t packed(struct walked walked) {
    return (uint64_t)walked.entry | (uint64_t)walked.nothing << 8 | (uint64_t)walked.tests << 16 | (uint64_t)walked.number << 32 |
           (uint64_t)walked.place << 48;
}

/* ------------------------------------------------------------------------- reading a table: 1 to 4 */

struct table {
    const uint32_t *words;
    size_t count, next; /* the word that is read next */
    uint32_t width, entries, has_cycles, number;
    size_t place, places[256];
    enum check stopped_by, without;
    uint64_t came; /* a bit for each part of a rule that the input came by, from WALK_END on */
};

static struct table table_of(const uint32_t *words, size_t count, enum check without) {
    struct table table = {.words = words, .count = count, .without = without};
    return table;
}

/* Whether this part of a rule is kept. */
static int keeps(struct table *table, enum check part) {
    table->came |= (uint64_t)1 << (part - WALK_END);
    return table->without != part;
}

static int table_fault(struct table *table, enum check by, uint32_t number, size_t place) {
    if (!keeps(table, by)) return 0;
    table->stopped_by = by;
    table->number = number;
    table->place = place;
    return 1;
}

/* "table ends early": no wrong reader leaves that out, because it would read past the end. */
static int ends_early(struct table *table) {
    if (table->next < table->count) return 0;
    table->stopped_by = LIST_END;
    table->number = 2;
    table->place = table->count;
    return 1;
}

static uint32_t span(uint32_t lowest, uint32_t size) { return (uint32_t)((((uint64_t)1 << size) - 1) << lowest); }

static int read_pattern(struct table *table, uint32_t own) {
    size_t place = table->next;
    for (int turn = 0; turn < 2; turn++, table->next++)
        if (ends_early(table)) return 0;
    uint32_t mask = table->words[place], value = table->words[place + 1];
    if ((mask & ~own) != 0 && table_fault(table, PATTERN_OWN, 3, place)) return 0;
    if ((value & ~mask) != 0 && table_fault(table, PATTERN_VALUE, 3, place)) return 0;
    return 1;
}

/* Document 02, No. 7: "bits 23-16 stay spare for all other forms" than 2; "A form over 2, or fraction bits over 16 or over the field's
 * width, gives 4." */
static int read_form(struct table *table, uint32_t head, size_t place) {
    uint32_t form = head >> 24 & 15, fraction = head >> 16 & 0xff;
    if (form != 2 && fraction != 0 && table_fault(table, FIELD_SPARE, 2, place)) return 0;
    if (form > 2 && table_fault(table, FIELD_FORM, 4, place)) return 0;
    if (fraction > 16 && table_fault(table, FIELD_FRACTION, 4, place)) return 0;
    return fraction <= (head & 0xff) || !table_fault(table, FRACTION_OVER, 4, place);
}

static int read_field(struct table *table, uint32_t own, uint32_t *covered) {
    if (ends_early(table)) return 0;
    size_t place = table->next++;
    uint32_t head = table->words[place], lowest = head >> 8 & 0xff, size = head & 0xff;
    if (head >> 28 != 3 && table_fault(table, TABLE_KIND, 2, place)) return 0;
    if (!read_form(table, head, place)) return 0;
    if (size == 0 || lowest + size > 32 || (span(lowest, size) & ~own) != 0) {
        if (table_fault(table, FIELD_PLACE, 4, place)) return 0;
        return 1;
    }
    if ((span(lowest, size) & *covered) != 0 && table_fault(table, FIELD_OVERLAP, 4, place)) return 0;
    *covered |= span(lowest, size);
    return 1;
}

static int read_condition(struct table *table, uint32_t own) {
    if (ends_early(table)) return 0;
    size_t place = table->next++;
    uint32_t head = table->words[place];
    if (head >> 4 != 0x4000000 && table_fault(table, TABLE_KIND, 2, place)) return 0;
    if ((head & 15) > 8 && table_fault(table, TABLE_COUNT, 2, place)) return 0;
    if (!read_pattern(table, own)) return 0;
    for (uint32_t turn = 0; turn < (head & 15); turn++) {
        if (ends_early(table)) return 0;
        place = table->next++;
        if (table->words[place] != 0x50000000 && table_fault(table, TABLE_KIND, 2, place)) return 0;
        if (!read_pattern(table, own)) return 0;
    }
    return 1;
}

static int read_entry(struct table *table) {
    if (ends_early(table)) return 0;
    size_t place = table->next++;
    uint32_t head = table->words[place], length = head >> 8 & 0xff, fields = head >> 4 & 15, conditions = head & 15;
    if (head >> 28 != 2 && table_fault(table, TABLE_KIND, 2, place)) return 0;
    if ((fields > 8 || conditions > 8) && table_fault(table, TABLE_COUNT, 2, place)) return 0;
    if (length < 1 || length > table->width) {
        if (table_fault(table, TABLE_LENGTH, 2, place)) return 0;
        length = table->width;
    }
    uint32_t own = span(table->width - length, length);
    /* "after each entry's value word, a word with its cycles, 0 to 65,535, upper bits zero, else number 2" */
    size_t cycles = place + 3;
    int high = table->has_cycles && cycles < table->count && table->words[cycles] > MOST_CYCLES;
    if (high && !keeps(table, AFTER_VALUE) && table_fault(table, CYCLES_HIGH, 2, cycles)) return 0;
    if (!read_pattern(table, own)) return 0;
    if (table->has_cycles && ends_early(table)) return 0;
    table->next += table->has_cycles;
    if (high && keeps(table, BEFORE_FIELDS) && table_fault(table, CYCLES_HIGH, 2, cycles)) return 0;
    uint32_t covered = table->words[place + 1];
    for (uint32_t turn = 0; turn < fields; turn++)
        if (!read_field(table, own, &covered)) return 0;
    if (covered != own && table_fault(table, COVER, 4, place)) return 0;
    if (high && !keeps(table, BEFORE_FIELDS) && table_fault(table, CYCLES_HIGH, 2, cycles)) return 0;
    for (uint32_t turn = 0; turn < conditions; turn++)
        if (!read_condition(table, own)) return 0;
    return 1;
}

static int read_table(struct table *table) {
    uint32_t first = table->count == 0 ? 0 : table->words[0];
    table->entries = first >> 16 & 0xfff;
    table->width = first & 0xff;
    table->has_cycles = first >> 28 == 6; /* "A table that begins with kind 6 in place of kind 1" */
    table->next = 1;
    /* No wrong reader leaves these three out: they keep the arrays whole. */
    if (table->count == 0 || table->count > MOST_TABLE_WORDS || table->entries > 256 || table->width < 1 || table->width > 32) {
        table->number = 1;
        return 0;
    }
    if (((first >> 28 != 1 && !table->has_cycles) || (first >> 8 & 0xff) != 0) && table_fault(table, TABLE_FIRST, 1, 0)) return 0;
    for (uint32_t entry = 0; entry < table->entries; entry++) {
        table->places[entry] = table->next;
        if (!read_entry(table)) return 0;
    }
    return table->next == table->count || !table_fault(table, LEFT_OVER, 2, table->next);
}

static const uint32_t *entry_at(const struct table *table, uint32_t entry) { return table->words + table->places[entry]; }

/* How many words of an entry come before its conditions: head, opcode, cycles, fields. */
static size_t before_conditions(const struct table *table, const uint32_t *entry) { return 3 + table->has_cycles + (entry[0] >> 4 & 15); }

/* ------------------------------------------------------------------------- cells; a word is a cell with all bits fixed */

struct cell {
    uint32_t fixed, bits;
};

enum status { DEAD, SURE, OPEN };

static int implies(struct cell cell, const uint32_t *pattern) {
    return (pattern[0] & ~cell.fixed) == 0 && (cell.bits & pattern[0]) == pattern[1];
}

static int clashes(struct cell cell, const uint32_t *pattern) { return ((cell.bits ^ pattern[1]) & pattern[0] & cell.fixed) != 0; }

/* "A condition holds in a cell that implies its matching pattern and clashes with all its unmatching ones; it fails where the cell
 * clashes with the matching pattern or implies an unmatching one; else it is open." DEAD for holds, SURE for fails. */
static enum status condition_status(struct cell cell, const uint32_t *condition) {
    int all_clash = 1, one_implied = 0;
    for (uint32_t turn = 0; turn < (condition[0] & 15); turn++) {
        all_clash &= clashes(cell, condition + 4 + 3 * turn);
        one_implied |= implies(cell, condition + 4 + 3 * turn);
    }
    if (implies(cell, condition + 1) && all_clash) return DEAD;
    return clashes(cell, condition + 1) || one_implied ? SURE : OPEN;
}

/* "An entry is dead if its opcode pattern clashes or a condition holds; sure if the pattern is implied and every condition fails;
 * else open." */
static enum status entry_status(const struct table *table, struct cell cell, const uint32_t *entry) {
    if (clashes(cell, entry + 1)) return DEAD;
    enum status status = implies(cell, entry + 1) ? SURE : OPEN;
    const uint32_t *condition = entry + before_conditions(table, entry);
    for (uint32_t turn = 0; turn < (entry[0] & 15); turn++, condition += 3 + 3 * (condition[0] & 15)) {
        enum status its = condition_status(cell, condition);
        if (its == DEAD) return DEAD;
        if (its == OPEN) status = OPEN;
    }
    return status;
}

static int more_specific(const uint32_t *e, const uint32_t *f) {
    return (f[1] & ~e[1]) == 0 && e[1] != f[1] && ((e[2] ^ f[2]) & f[1]) == 0;
}

#define NO_ENTRY 256u
#define NEITHER 257u

/* The entry of step 1 in the cell, NO_ENTRY for step 2, or NEITHER. For a word: the selected entry. */
static uint32_t first_step(const struct table *table, struct cell cell) {
    enum status status[256];
    uint32_t live = 0;
    for (uint32_t entry = 0; entry < table->entries; entry++) {
        status[entry] = entry_status(table, cell, entry_at(table, entry));
        live += status[entry] != DEAD;
    }
    for (uint32_t entry = 0; entry < table->entries; entry++) {
        uint32_t beaten = 0;
        for (uint32_t other = 0; other < table->entries; other++)
            beaten += other != entry && status[other] != DEAD && more_specific(entry_at(table, entry), entry_at(table, other));
        if (status[entry] == SURE && beaten == live - 1) return entry;
    }
    return live == 0 ? NO_ENTRY : NEITHER;
}

/* ------------------------------------------------------------------------- the checker */

struct checking {
    const struct table *table;
    const uint32_t *tree;
    uint32_t nodes, steps;
    enum check without, stopped_by;
};

static uint32_t wrong_part(struct checking *checking, enum check by) {
    checking->stopped_by = by;
    return 0;
}

/* The index after the subtree that begins at `at`, 0 if a part is wrong. */
static uint32_t check_from(struct checking *checking, struct cell cell, uint32_t at) {
    enum check without = checking->without;
    if (at > checking->nodes || checking->steps++ > MOST_STEPS) return wrong_part(checking, TREE_DAMAGED);
    uint32_t node = checking->tree[at], bit = node >> 23 & 31, width = checking->table->width;
    /* A wrong checker may let spare bits through, but must stay inside the tree. */
    if (node_fault(node, at, width, checking->nodes, without == TREE_DAMAGED ? ENTRY_SPARE : NONE) != NONE)
        return wrong_part(checking, TREE_DAMAGED);
    if (node >> 28 != 8) {
        uint32_t wanted = node >> 28 == 9 ? node & 0xff : NO_ENTRY;
        enum check part = node >> 28 == 9 ? NAMED_STEP : NOTHING_STEP;
        if (first_step(checking->table, cell) != wanted && without != part) return wrong_part(checking, part);
        return at + 1;
    }
    if ((cell.fixed >> bit & 1) != 0 && without != BIT_TWICE) return wrong_part(checking, BIT_TWICE);
    struct cell zero = {cell.fixed | 1u << bit, cell.bits}, one = {cell.fixed | 1u << bit, cell.bits | 1u << bit};
    uint32_t end = check_from(checking, zero, at + 1);
    if (end == 0) return 0;
    if ((node & 0xffff) != end && without != ONE_SIDE_BEGINS) return wrong_part(checking, ONE_SIDE_BEGINS);
    return check_from(checking, one, node & 0xffff);
}

static int accepts(struct table *table, const uint32_t *tree, size_t tree_words, enum check without) {
    struct checking checking = {table, tree, 0, 0, without, NONE};
    table->stopped_by = TREE_WIDTH;
    if (tree_words == 0 || header_fault(tree[0], tree_words, NONE) != NONE) return 0;
    if ((tree[0] >> 16 & 63) != table->width && without != TREE_WIDTH) return 0;
    checking.nodes = tree[0] & 0xffff;
    struct cell none = {0, 0};
    uint32_t end = check_from(&checking, none, 1);
    table->stopped_by = checking.stopped_by != NONE ? checking.stopped_by : ALL_USED;
    return end != 0 && (end == checking.nodes + 1 || without == ALL_USED);
}

static uint64_t refused_list(uint32_t number, size_t place) { return (uint64_t)number << 32 | (uint64_t)place; }

/* "After 1-4 it says yes exactly when: ..; otherwise its answer is 14." */
static uint64_t reference_check(const uint32_t *words, size_t count, const uint32_t *tree, size_t tree_words, enum check without) {
    struct table table = table_of(words, count, without);
    if (!read_table(&table)) return refused_list(table.number, table.place);
    return accepts(&table, tree, tree_words, without) ? 0 : refused_list(14, 0);
}

/* ------------------------------------------------------------------------- the size of a tree */

struct sizing {
    struct table table;
    uint32_t nodes, tests, conflicts, word;
    uint8_t selected[256]; /* 1 for each entry that some word selects */
    int full;
    uint64_t result;
};

/* The unfixed bits "in any pattern of an open condition of an open entry". */
static uint32_t condition_bits(struct sizing *sizing, struct cell cell) {
    uint32_t bits = 0;
    for (uint32_t turn = 0; turn < sizing->table.entries; turn++) {
        const uint32_t *entry = entry_at(&sizing->table, turn), *condition = entry + before_conditions(&sizing->table, entry);
        uint32_t left = entry_status(&sizing->table, cell, entry) == OPEN ? entry[0] & 15 : 0;
        for (; left > 0; left--, condition += 3 + 3 * (condition[0] & 15)) {
            if (condition_status(cell, condition) != OPEN) continue;
            bits |= condition[1];
            for (uint32_t more = 1; more <= (condition[0] & 15); more++)
                if (keeps(&sizing->table, UNMATCHING_TOO)) bits |= condition[1 + 3 * more];
        }
    }
    return bits & ~cell.fixed;
}

/* The bit that step 4 tests, 32 if there is none, because no entry is open: step 3. */
static uint32_t tested_bit(struct sizing *sizing, struct cell cell) {
    uint32_t masks[32] = {0}, best = 32;
    for (uint32_t turn = 0; turn < sizing->table.entries; turn++) {
        const uint32_t *entry = entry_at(&sizing->table, turn);
        if (entry_status(&sizing->table, cell, entry) != OPEN) continue;
        for (uint32_t bit = 0; bit < 32; bit++) masks[bit] += (entry[1] & ~cell.fixed) >> bit & 1;
    }
    /* "The bit is the unfixed one in the opcode masks of the most open entries, highest on a tie." */
    for (uint32_t bit = 0; bit < 32; bit++) {
        if (masks[bit] == 0) continue;
        if (best == 32 || masks[bit] > masks[best]) best = bit;
        else if (masks[bit] == masks[best] ? keeps(&sizing->table, HIGHEST_ON_TIE) : !keeps(&sizing->table, MOST_MASKS)) best = bit;
    }
    /* "If no such mask has an unfixed bit, it is the highest unfixed bit in any pattern of an open condition of an open entry." */
    uint32_t others = best == 32 ? condition_bits(sizing, cell) : 0;
    for (uint32_t bit = 0; bit < 32; bit++)
        if ((others >> bit & 1) != 0 && (best == 32 || keeps(&sizing->table, HIGHEST_UNFIXED))) best = bit;
    return best;
}

/* Counts the nodes of a cell, "zero side first", as far as they fit. */
static void size_from(struct sizing *sizing, struct cell cell, uint32_t tests) {
    /* Without the limit: up to what the sixteen bits of a header count. */
    uint32_t most = sizing->nodes + 2 > MOST_TREE_WORDS && !keeps(&sizing->table, TREE_LIMIT) ? 65536 : MOST_TREE_WORDS;
    sizing->full |= sizing->nodes + 2 > most;
    if (sizing->full) return;
    sizing->nodes++;
    uint32_t step = first_step(&sizing->table, cell);
    if (step < NO_ENTRY) sizing->selected[step] = 1; /* what a leaf names all words of its cell select */
    int leaf = step != NEITHER;
    uint32_t bit = leaf ? 32 : tested_bit(sizing, cell);
    if (bit == 32) {
        if (tests > sizing->tests || (tests < sizing->tests && !keeps(&sizing->table, DEEPEST))) sizing->tests = tests;
        /* "Selection, tree and fields do not depend on cycles": without, they decide a conflict. */
        if (leaf || (sizing->table.has_cycles && !keeps(&sizing->table, CYCLES_ASIDE))) return;
        /* "that of the first conflict cell in node order, free bits zero" */
        if (sizing->conflicts++ == 0 || !keeps(&sizing->table, FIRST_CONFLICT)) sizing->word = cell.bits;
        return;
    }
    struct cell zero = {cell.fixed | 1u << bit, cell.bits}, one = {cell.fixed | 1u << bit, cell.bits | 1u << bit};
    size_from(sizing, zero, tests + 1);
    size_from(sizing, one, tests + 1);
}

/* Document 02, No. 8: "some entry is selected by no word of the width". How many are: where the words are few, each of them is asked;
 * else the leaves have told, which together have all words. */
static uint32_t count_unreached(struct sizing *sizing) {
    uint32_t width = sizing->table.width, count = 0;
    if (width <= MOST_ASKED_WIDTH) memset(sizing->selected, 0, sizeof sizing->selected);
    for (uint32_t word = 0; width <= MOST_ASKED_WIDTH && word >> width == 0; word++) {
        struct cell cell = {span(0, width), word};
        uint32_t entry = first_step(&sizing->table, cell);
        if (entry < NO_ENTRY) sizing->selected[entry] = 1;
    }
    for (uint32_t entry = 0; entry < sizing->table.entries; entry++) count += !sizing->selected[entry];
    return count;
}

/* "the lowest such entry". There is one. */
static uint32_t unreached_entry(struct sizing *sizing) {
    uint32_t entries = sizing->table.entries, found = entries;
    for (uint32_t entry = 0; entry < entries; entry++)
        if (!sizing->selected[entry] && (found == entries || !keeps(&sizing->table, LOWEST_UNREACHED))) found = entry;
    return found;
}

/* "A tree fits when nodes + 1 is .. at most 16,384; conflict leaves count. Fit is decided before ambiguity." No. 8: "19, .. after 6". */
static struct sizing reference_size(const uint32_t *words, size_t count, enum check without) {
    struct sizing sizing = {.table = table_of(words, count, without)};
    int good = read_table(&sizing.table);
    sizing.result = refused_list(sizing.table.number, sizing.table.place);
    if (!good) return sizing;
    struct cell none = {0, 0};
    size_from(&sizing, none, 0);
    uint32_t unreached = count_unreached(&sizing);
    if (sizing.full && (sizing.conflicts == 0 || keeps(&sizing.table, FIT_FIRST))) sizing.result = refused_list(5, 0);
    else if (sizing.conflicts > 0 && keeps(&sizing.table, CONFLICT) && (unreached == 0 || keeps(&sizing.table, CONFLICT_FIRST)))
        sizing.result = refused_list(6, sizing.word);
    else if (unreached > 0 && keeps(&sizing.table, UNREACHED)) sizing.result = refused_list(19, unreached_entry(&sizing));
    else sizing.result = (uint64_t)sizing.tests << 16 | sizing.nodes;
    return sizing;
}

/* ------------------------------------------------------------------------- the cycles */

/* "Kind 1 tables are still read, with cycles 0. .. A new call gives an entry's cycles, or after the table's faults 11 for no such entry."
 * The table is read here; its `came` is for fuzz.c. */
static uint64_t reference_cycles(struct table *table, uint32_t entry) {
    int good = read_table(table), there = entry < table->entries;
    if (!there && !good && !keeps(table, FAULTS_FIRST)) return refused_list(11, 0);
    if (!good) return refused_list(table->number, table->place);
    if (!there) return keeps(table, NO_SUCH_ENTRY) ? refused_list(11, 0) : 0;
    /* A wrong one takes the word after the value for cycles, where there is one. */
    int has_cycles = table->has_cycles || (!keeps(table, KIND_ONE_ZERO) && table->places[entry] + 3 < table->count);
    return has_cycles ? entry_at(table, entry)[3] : 0;
}

/* ------------------------------------------------------------------------- the withdrawal */

/* "the one that lacks a single entry" */
static struct table table_without(const struct table *table, uint32_t entry) {
    struct table less = *table;
    less.entries--;
    memmove(less.places + entry, less.places + entry + 1, (less.entries - entry) * sizeof less.places[0]);
    return less;
}

/* The entry that a word selects, NO_ENTRY for nothing, NEITHER if it is ambiguous. */
static uint32_t selected_by(const struct table *table, uint32_t word) {
    struct cell cell = {0xffffffff, word};
    return first_step(table, cell);
}

/* The refusal of a word of the list: "7, or 6 if it was ambiguous before the withdrawal"; 0 if it is fit. */
static uint64_t unfit(struct table *table, const struct table *less, uint32_t word) {
    if (table->width < 32 && word >> table->width != 0 && keeps(table, LISTED_HIGH)) return refused_list(7, 0);
    int before = selected_by(table, word) == NEITHER, after = selected_by(less, word) == NEITHER;
    int is_unfit = before == after || keeps(table, BEFORE_WITHDRAWAL) ? before : after;
    return is_unfit && keeps(table, LISTED_AMBIGUOUS) ? refused_list(6, word) : 0;
}

/* "for the first unfit word of the list" */
static uint64_t unfit_in(struct table *table, const struct table *less, const uint32_t *words, size_t count) {
    uint64_t found = 0;
    for (size_t at = 0; at < count; at++) {
        uint64_t its = unfit(table, less, words[at]);
        if (its != 0 && (found == 0 || !keeps(table, FIRST_UNFIT))) found = its;
    }
    return found;
}

/* Whether a word changes its answer, "turning ambiguous included, renumbering not". */
static int changes(struct table *table, const struct table *less, uint32_t entry, uint32_t word) {
    uint32_t before = selected_by(table, word), after = selected_by(less, word);
    if (after < NO_ENTRY && after >= entry && keeps(table, OLD_NUMBERS)) after++;
    if (before == after) return 0;
    return keeps(table, after == NEITHER ? TO_AMBIGUOUS : after == NO_ENTRY ? TO_NOTHING : TO_OTHER);
}

static int is_earlier(const uint32_t *words, size_t at) {
    for (size_t earlier = 0; earlier < at; earlier++)
        if (words[earlier] == words[at]) return 1;
    return 0;
}

/* "After the table's faults it gives 11 for no such entry, then" what is unfit in the list. Both tables are asked, and not which entry a
 * word selected. */
static uint64_t reference_changed(struct table *table, uint32_t entry, const uint32_t *words, size_t count) {
    int good = read_table(table), there = entry < table->entries;
    if (!there && !good && !keeps(table, AFTER_FAULTS)) return refused_list(11, 0);
    if (!good) return refused_list(table->number, table->place);
    struct table less = there ? table_without(table, entry) : *table;
    uint64_t refusal = unfit_in(table, &less, words, count), total = 0;
    int is_later = !there && refusal != 0 && !keeps(table, BEFORE_WORDS);
    if (!there && !is_later && keeps(table, WITHDRAWN_THERE)) return refused_list(11, 0);
    if (refusal != 0) return refusal;
    for (size_t at = 0; at < count; at++)
        total += changes(table, &less, entry, words[at]) && (!is_earlier(words, at) || keeps(table, EACH_TIME));
    return total;
}

/* ------------------------------------------------------------------------- operands */

#define MOST_WRONG_BITS 40u /* what a wrong one takes of a width or of fraction bits, so that it stays inside its numbers */
#define MOST_DIGITS (10u + MOST_WRONG_BITS)

/* What a field's word by itself says, or the number of its fault. */
struct operand {
    uint32_t number, form, fraction, width;
    int has_sign;
    enum check without;
    uint64_t came; /* as a table's, from CHANGED_END on */
};

static int number_keeps(struct operand *operand, enum check part) {
    operand->came |= (uint64_t)1 << (part - CHANGED_END);
    return operand->without != part;
}

/* Whether the fault is there and this check of it is not left out. */
static int word_fault(struct operand *operand, int there, enum check by, uint32_t number) {
    if (operand->number != 0 || !there || !number_keeps(operand, by)) return 0;
    operand->number = number;
    return 1;
}

static uint32_t at_most(uint32_t number, uint32_t most) { return number < most ? number : most; }

/* "a wrong kind or spare bit gives 2, then a width outside 1-32 or a form fault as above 4, .. the lowest bit not judged" */
static struct operand operand_of(uint32_t field, enum check without) {
    struct operand operand = {.form = field >> 24 & 15, .fraction = field >> 16 & 0xff, .width = field & 0xff, .without = without};
    word_fault(&operand, field >> 28 != 3, WORD_KIND, 2);
    word_fault(&operand, operand.form != 2 && operand.fraction != 0, WORD_SPARE, 2);
    word_fault(&operand, operand.width < 1, WORD_WIDTH_LEAST, 4);
    word_fault(&operand, operand.width > 32, WORD_WIDTH_MOST, 4);
    word_fault(&operand, operand.form > 2, WORD_FORM, 4);
    word_fault(&operand, operand.fraction > 16, WORD_FRACTION, 4);
    word_fault(&operand, operand.fraction > operand.width, WORD_FRACTION_OVER, 4);
    operand.width = at_most(operand.width, MOST_WRONG_BITS);
    operand.fraction = at_most(operand.fraction, MOST_WRONG_BITS);
    /* "1 two's complement, 2 fixed point"; "Form 2 is two's complement too". */
    if (operand.number == 0 && operand.form == 1) operand.has_sign = number_keeps(&operand, SIGNED_SIGN);
    if (operand.number == 0 && operand.form == 2) operand.has_sign = number_keeps(&operand, POINT_SIGN);
    return operand;
}

/* "then a value out of range 12"; without a refusal the number of the value. */
static int64_t whole_of(struct operand *operand, uint32_t value) {
    int64_t end = (int64_t)1 << operand->width, whole = value;
    word_fault(operand, whole >= end, VALUE_HIGH, 12);
    return operand->has_sign && 2 * whole >= end ? whole - end : whole;
}

/* "a signed whole number (for form 2 the count of its smallest steps)" */
static uint64_t reference_signed(struct operand *operand, uint32_t value) {
    int64_t whole = whole_of(operand, value);
    if (operand->number != 0) return refused_list(operand->number, 0);
    return (uint64_t)(whole < 0) << 40 | ((uint64_t)whole & 0xffffffff);
}

/* "and back": the value of a number in range, else 12. */
static uint64_t reference_stored(struct operand *operand, int64_t number) {
    int64_t end = (int64_t)1 << operand->width, least = operand->has_sign ? -(end / 2) : 0;
    word_fault(operand, number < least, NUMBER_LEAST, 12);
    word_fault(operand, number >= least + end, NUMBER_MOST, 12);
    return operand->number != 0 ? refused_list(operand->number, 0) : ((uint64_t)number & (uint64_t)(end - 1) & 0xffffffff);
}

/* The digits of steps / 2^fraction, of which the last `fraction` are after the point: those of steps with as many zeros behind, halved
 * one time after another. How many there are. */
static uint32_t halved_digits(uint64_t steps, uint32_t fraction, uint8_t *digits) {
    uint32_t count = 10 + fraction;
    memset(digits, 0, count);
    for (uint32_t at = 10; at-- > 0; steps /= 10) digits[at] = (uint8_t)(steps % 10);
    for (uint32_t turn = 0; turn < fraction; turn++)
        for (uint32_t at = 0, left = 0; at < count; at++) {
            uint32_t both = 10 * left + digits[at];
            digits[at] = (uint8_t)(both / 2);
            left = both % 2;
        }
    return count;
}

/* "a minus sign only below zero, no needless leading zero, at least one digit before the point, and after it exactly as many digits as
 * fraction bits, with no point where there are none". Its length. */
static uint32_t put_text(struct operand *operand, int64_t whole, uint8_t *text) {
    uint8_t digits[MOST_DIGITS];
    uint32_t count = halved_digits((uint64_t)(whole < 0 ? -whole : whole), operand->fraction, digits), at = 0, length = 0;
    if (whole < 0 && number_keeps(operand, MINUS)) text[length++] = '-';
    while (at < 9 && digits[at] == 0 && (at > 0 || number_keeps(operand, NO_LEADING))) at++;
    if (at == 9 && digits[9] == 0 && operand->fraction > 0 && !number_keeps(operand, ONE_DIGIT)) at = 10;
    while (at < 10) text[length++] = (uint8_t)('0' + digits[at++]);
    while (count > 10 && digits[count - 1] == 0 && !number_keeps(operand, ALL_DIGITS)) count--;
    if (operand->fraction > 0 || !number_keeps(operand, NO_POINT)) text[length++] = '.';
    while (at < count) text[length++] = (uint8_t)('0' + digits[at++]);
    return length;
}

/* "write a stored value as exact decimal text to the start of a buffer, returning its length in bytes"; "18, the text buffer is too
 * short, checked after 2, 4 and 12, buffer unchanged". One that leaves 18 out writes as much as there is room for. */
static uint64_t reference_text(struct operand *operand, uint32_t value, uint8_t *out, size_t room) {
    uint8_t text[MOST_DIGITS + 2];
    int64_t whole = whole_of(operand, value);
    if (operand->number != 0) return refused_list(operand->number, 0);
    uint32_t length = put_text(operand, whole, text);
    if (word_fault(operand, room < length, TEXT_ROOM, 18)) return refused_list(18, 0);
    memcpy(out, text, room < length ? room : length);
    return length;
}

/* ------------------------------------------------------------------------- the listing */

struct lent {
    const uint32_t *table, *tree;
    const uint8_t *image;
    size_t table_words, tree_words, image_bytes, room;
};

static int no_image_table(const struct table *table, enum check without) {
    if (table->width != 32 && without != IMAGE_WIDTH) return 1;
    for (uint32_t entry = 0; entry < table->entries; entry++) {
        uint32_t length = entry_at(table, entry)[0] >> 8 & 0xff;
        if (length != 16 && length != 32 && without != IMAGE_LENGTH) return 1;
    }
    return 0;
}

/* The bits of the lower half in the patterns of the entries whose opcode the upper half does not clash with. The others are in no pattern
 * that a lower half could match or miss: what is selected does not depend on them, and they need not be tried. */
static uint32_t bits_to_try(const struct table *table, uint32_t upper) {
    struct cell cell = {0xffff0000, upper << 16};
    uint32_t bits = 0;
    for (uint32_t turn = 0; turn < table->entries; turn++) {
        const uint32_t *entry = entry_at(table, turn), *condition = entry + before_conditions(table, entry);
        if (clashes(cell, entry + 1)) continue;
        bits |= entry[1];
        for (uint32_t left = entry[0] & 15; left > 0; left--, condition += 3 + 3 * (condition[0] & 15))
            for (uint32_t pattern = 0; pattern <= (condition[0] & 15); pattern++) bits |= condition[1 + 3 * pattern];
    }
    return bits & 0xffff;
}

#define NOT_THE_SAME 258u

/* What "all 65,536 lower halves select" with this upper half, NOT_THE_SAME if two of them differ. Without LAST_HALF zeros below decide. */
static uint32_t selected_by_all(const struct table *table, uint32_t upper, enum check without) {
    struct cell cell = {0xffffffff, upper << 16};
    uint32_t bits = without == LAST_HALF ? 0 : bits_to_try(table, upper), lower = 0, first = first_step(table, cell);
    while ((lower = (lower - bits) & bits) != 0) { /* each choice of these bits, and at the end none */
        cell.bits = upper << 16 | lower;
        if (first_step(table, cell) != first) return NOT_THE_SAME;
    }
    return first;
}

/* "With the lower half missing, the item is now kind 12 exactly if all 65,536 lower halves select the same entry of length 16, kind 13 if
 * all of them select nothing, and kind 14 otherwise." */
static uint32_t last_item(const struct table *table, uint32_t upper, uint32_t address, enum check without, enum check *stopped_by) {
    uint32_t entry = selected_by_all(table, upper, without);
    if (entry == NOT_THE_SAME) {
        *stopped_by = LAST_HALF;
        return 14u << 28 | address;
    }
    if (entry >= NO_ENTRY) return 13u << 28 | address;
    if ((entry_at(table, entry)[0] >> 8 & 0xff) == 32) {
        *stopped_by = LAST_LENGTH;
        if (without != LAST_LENGTH) return 14u << 28 | address;
    }
    return 12u << 28 | entry << 20 | address;
}

/* "listing 15, 16, 14, 17". What a word selects is looked up in the table; the tree is only checked. */
static uint64_t reference_list(struct lent lent, uint32_t *items, enum check without, enum check *stopped_by) {
    struct table table = table_of(lent.table, lent.table_words, without);
    int good = read_table(&table);
    *stopped_by = table.stopped_by;
    if (!good) return refused_list(table.number, table.place);
    *stopped_by = table.width != 32 ? IMAGE_WIDTH : IMAGE_LENGTH;
    if (no_image_table(&table, without)) return refused_list(15, 0);
    *stopped_by = lent.image_bytes % 2 != 0 ? IMAGE_ODD : IMAGE_LONG;
    if (lent.image_bytes % 2 != 0 && without != IMAGE_ODD) return refused_list(16, 0);
    if (lent.image_bytes > MOST_IMAGE_BYTES && without != IMAGE_LONG) return refused_list(16, 0);
    good = accepts(&table, lent.tree, lent.tree_words, without);
    *stopped_by = table.stopped_by;
    if (!good) return refused_list(14, 0);
    *stopped_by = NONE;
    size_t halves = lent.image_bytes / 2, address = 0, count = 0;
    while (address < halves) {
        if (count == lent.room) {
            *stopped_by = NO_ROOM;
            return without == NO_ROOM ? refused_list(0, count) : refused_list(17, address);
        }
        const uint8_t *at = lent.image + 2 * address;
        uint32_t upper = (uint32_t)at[0] | (uint32_t)at[1] << 8;
        if (address + 1 == halves) {
            items[count++] = last_item(&table, upper, (uint32_t)address++, without, stopped_by);
            continue;
        }
        struct cell cell = {0xffffffff, upper << 16 | (uint32_t)at[2] | (uint32_t)at[3] << 8};
        uint32_t entry = first_step(&table, cell);
        if (entry >= NO_ENTRY) {
            items[count++] = 13u << 28 | (uint32_t)address++;
            continue;
        }
        items[count++] = 12u << 28 | entry << 20 | (uint32_t)address;
        address += (entry_at(&table, entry)[0] >> 8 & 0xff) / 16;
    }
    return count;
}

#endif
