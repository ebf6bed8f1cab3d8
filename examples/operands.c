/*
 * Prints the operands of an instruction, each as its field means it: plain, with a sign, or with a point.
 *
 *   tools/build kilnumber
 *   gcc -std=c11 -O2 -Iinclude examples/operands.c target/staticlib/libkilnumber.a -o target/operands
 *   target/operands data/buoy.table 23 e412f800
 *
 * The table is a file of words, low byte first; the entry's number is decimal, the word hexadecimal. A line for each field, in the order
 * of the table. Whether the word selects that entry is not asked: a walk tells (examples/simulator.c).
 *
 * It exits with 0 after all operands, with 1 if something was refused and with 2 if a file or a number is no good, or what is printed is lost.
 */

#include <stdio.h>
#include <stdlib.h>

#include "files.h"
#include "kilnumber.h"
#include "numbers.h"
#include "refusals.h"

static uint32_t number_in(struct text text, uint32_t base, const char *what) {
    uint32_t number = 0;
    if (!take_number(&text, base, 0xffffffff, &number) || text.at != text.end)
        stop(what, base == 16 ? "a hexadecimal number of 32 bits is wanted" : "a decimal number of 32 bits is wanted");
    return number;
}

static struct text without_prefix(struct text text) {
    if (text.end - text.at > 2 && text.at[0] == '0' && text.at[1] == 'x') text.at += 2;
    return text;
}

/* An entry is its head, mask and value; in a table of kind 6 its cycles; its fields; its conditions (docs/FORMAT.md). */
static size_t fields_of(struct words table, size_t head) { return head + (table.at[0] >> 28 == 6 ? 4 : 3); }
static uint32_t field_count(uint32_t head) { return head >> 4 & 15; }

/* A condition is its head, mask and value, and as many words again for each unmatching pattern. */
static size_t next_entry(struct words table, size_t head) {
    size_t at = fields_of(table, head) + field_count(table.at[head]);
    for (uint32_t left = table.at[head] & 15; left > 0; left--) at += 3 + 3 * (table.at[at] & 15);
    return at;
}

/* The width is in bits 7-0 of a good table's first word. */
static int is_too_wide(struct words table, uint32_t word) {
    uint32_t width = table.at[0] & 0xff;
    return width < 32 && word >> width != 0;
}

/* The field's bits of the word: the value that is stored for the operand. */
static uint32_t value_in(uint32_t word, uint32_t lowest, uint32_t width) {
    return word >> lowest & (uint32_t)(((uint64_t)1 << width) - 1);
}

/* The field is a good table's, the value has no other bits, and there is room for every text: nothing is refused. */
static void print_operand(uint32_t field, uint32_t word) {
    uint32_t lowest = field >> 8 & 0xff, width = field & 0xff;
    uint8_t text[KILNUMBER_TEXT_ROOM];
    uint64_t result = kilnumber_text(field, value_in(word, lowest, width), text, sizeof text);
    printf("bits %u-%u: %.*s\n", (unsigned)(lowest + width - 1), (unsigned)lowest, (int)kilnumber_text_length(result), (const char *)text);
}

static void print_operands(struct words table, uint32_t entry, uint32_t word) {
    size_t head = 1;
    for (; entry > 0; entry--) head = next_entry(table, head);
    for (uint32_t at = 0; at < field_count(table.at[head]); at++) print_operand(table.at[fields_of(table, head) + at], word);
}

int main(int arguments, char **argument) {
    if (arguments != 4) stop("usage", "operands table entry word");
    uint32_t entry = number_in(text_of(argument[2]), 10, "entry"), word = number_in(without_prefix(text_of(argument[3])), 16, "word");
    struct words table = read_words(argument[1]);
    /* The cycles don't matter here. But a table for which they are not refused is without fault, and has the entry: then its words may be
     * gone through without looking for the end. */
    int failed = is_refused(kilnumber_cycles(table.at, table.count, entry), table);
    if (!failed && is_too_wide(table, word)) stop("word", "it has a bit at or above the table's width");
    if (!failed) print_operands(table, entry, word);
    free(table.at);
    finish_printing();
    return failed;
}
