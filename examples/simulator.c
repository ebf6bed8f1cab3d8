/*
 * A simulator's account of a firmware image: which instruction each word is, and what current it draws.
 *
 *   target/bin/mktree < examples/worked.table | python3 examples/tree_file.py target/worked.tree
 *   tools/build kilnumber
 *   gcc -std=c11 -O2 -Iinclude examples/simulator.c target/staticlib/libkilnumber.a -o target/account
 *   target/account examples/worked.table target/worked.tree examples/worked.currents examples/worked.image
 *
 * Table and tree are files of words, low byte first. The file of currents has a line for each entry: its number, and the
 * microamperes that it draws for its one cycle (those of the example are made up). The image holds one word after another, low
 * byte first, each of as many bytes as the tree's width needs: 1, 2 or 4.
 *
 * It exits with 0 after a whole account, with 1 if something was refused or an entry that is met has no current, and with 2 if what is
 * printed is lost or a file is no good: then it names the file, and of the currents the line. (examples/lister.c has the other way:
 * instructions of 16 and 32 bits, listed at once.)
 */

#include <stdio.h>
#include <stdlib.h>
#include <string.h>

#include "files.h"
#include "kilnumber.h"
#include "numbers.h"
#include "refusals.h"

#define MOST_CURRENT 999999999 /* microamperes; more is a slip */

struct account {
    unsigned long long current[KILNUMBER_MOST_ENTRIES], count[KILNUMBER_MOST_ENTRIES], unknown, refused;
    int has_current[KILNUMBER_MOST_ENTRIES];
};

/* An entry and its current; what is wrong with the line, or NULL. A blank line has none. */
static const char *read_current(struct text line, struct account *account) {
    uint32_t entry = 0, current = 0;
    if (skip_blanks(&line)) return NULL;
    if (!take_number(&line, 10, KILNUMBER_MOST_ENTRIES - 1, &entry)) return "no entry's number at its start";
    skip_blanks(&line);
    if (!take_number(&line, 10, MOST_CURRENT, &current)) return "no current after the entry";
    if (!skip_blanks(&line)) return "more than an entry and its current";
    if (account->has_current[entry]) return "the entry has a current already";
    account->current[entry] = current;
    account->has_current[entry] = 1;
    return NULL;
}

static void read_currents(const char *name, struct account *account) {
    struct bytes file = read_file(name);
    const char *at = (const char *)file.at, *end = at + file.count;
    for (size_t number = 1; at < end; number++) {
        const char *newline = memchr(at, '\n', (size_t)(end - at));
        struct text line = {at, newline == NULL ? end : newline};
        const char *wrong = read_current(line, account);
        if (wrong != NULL) {
            fprintf(stderr, "%s:%zu: %s (a line has an entry, 0 to %d, and its current, 0 to %d microamperes)\n", name, number, wrong,
                    KILNUMBER_MOST_ENTRIES - 1, MOST_CURRENT);
            exit(2);
        }
        at = newline == NULL ? end : newline + 1;
    }
    free(file.at);
}

/* The width is in bits 21-16 of a good tree's first word. */
static size_t bytes_a_word(struct words tree) {
    unsigned width = tree.at[0] >> 16 & 63;
    return width <= 8 ? 1 : width <= 16 ? 2 : 4;
}

static uint32_t word_at(const uint8_t *at, size_t size) {
    uint32_t word = 0;
    for (size_t byte = 0; byte < size; byte++) word |= (uint32_t)at[byte] << 8 * byte;
    return word;
}

/* Of a walk. The tree was checked, so that only the word can be at fault: the account goes on, and the exit status tells. */
static void print_refused_word(uint32_t number, size_t offset, uint32_t word) {
    printf("refused %u: byte %zu: the word %08x %s\n", (unsigned)number, offset, (unsigned)word,
           number == KILNUMBER_HIGH_WORD ? "has a bit at or above the tree's width" : "meets a damaged tree");
}

/* Charges one instruction; 1 if the account can't go on. */
static int charge(struct account *account, struct words tree, uint32_t word, size_t offset) {
    uint64_t result = kilnumber_walk_words(tree.at, tree.count, word);
    if (kilnumber_number(result) != 0) { /* any refusal: its bits for the entry are zero, and would be charged to entry 0 */
        print_refused_word(kilnumber_number(result), offset, word);
        account->refused++;
        return 0;
    }
    if (kilnumber_is_nothing(result)) {
        account->unknown++;
        return 0;
    }
    uint32_t entry = kilnumber_entry(result);
    if (!account->has_current[entry]) {
        printf("byte %zu: entry %u has no current\n", offset, (unsigned)entry);
        return 1;
    }
    account->count[entry]++;
    return 0;
}

static void print_account(const struct account *account) {
    unsigned long long count = 0, charge = 0;
    for (unsigned entry = 0; entry < KILNUMBER_MOST_ENTRIES; entry++) {
        if (account->count[entry] == 0) continue;
        unsigned long long its = account->count[entry] * account->current[entry];
        printf("entry %3u: %8llu times %6llu uA = %12llu\n", entry, account->count[entry], account->current[entry], its);
        count += account->count[entry];
        charge += its;
    }
    printf("total:     %8llu words           = %12llu microampere cycles\n", count, charge);
    printf("unknown words: %llu\n", account->unknown);
    if (account->refused != 0) printf("refused words: %llu\n", account->refused);
}

int main(int arguments, char **argument) {
    if (arguments != 5) stop("usage", "simulator table tree currents image");
    static struct account account;
    struct words table = read_words(argument[1]), tree = read_words(argument[2]);
    struct bytes image = read_file(argument[4]);
    read_currents(argument[3], &account);
    /* Once, before the first walk: with another table's tree, walks would go through and name wrong entries. */
    int ended = is_refused(kilnumber_check(table.at, table.count, tree.at, tree.count), table);
    size_t size = ended ? 1 : bytes_a_word(tree);
    if (image.count % size != 0) stop(argument[4], "the last word is not whole");
    for (size_t offset = 0; offset < image.count && !ended; offset += size)
        ended = charge(&account, tree, word_at(image.at + offset, size), offset);
    if (!ended) print_account(&account);
    free(table.at);
    free(tree.at);
    free(image.at);
    finish_printing();
    return ended || account.refused != 0;
}
