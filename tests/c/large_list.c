/*
 * A list of more words than 32 bits count: kilnumber_changed for 2^32 + 2^20 words that all select the one entry. It takes half a minute
 * or more, and 16 GB of addresses but little memory: one small file is mapped again and again.
 *
 *   gcc -std=c11 -O2 -Iinclude tests/c/large_list.c libkilnumber.a -o large_list
 */

#define _GNU_SOURCE
#include <stdio.h>
#include <stdlib.h>
#include <sys/mman.h>
#include <unistd.h>

#include "kilnumber.h"

#define PART_WORDS ((size_t)1 << 20)
#define PARTS 4097u

/* Width 32, one entry that claims every word. */
static const uint32_t table[] = {0x10010020, 0x20002010, 0, 0, 0x30000020};

static void stop(const char *why) {
    printf("large_list: %s\n", why);
    exit(2);
}

static const uint32_t *make_list(void) {
    size_t part = 4 * PART_WORDS;
    int file = memfd_create("words", 0);
    uint8_t *list = mmap(NULL, PARTS * part, PROT_NONE, MAP_PRIVATE | MAP_ANONYMOUS | MAP_NORESERVE, -1, 0);
    if (file < 0 || ftruncate(file, (off_t)part) != 0 || list == MAP_FAILED) stop("no file, or no addresses");
    for (size_t at = 0; at < PARTS; at++)
        if (mmap(list + at * part, part, PROT_READ | PROT_WRITE, MAP_SHARED | MAP_FIXED, file, 0) == MAP_FAILED) stop("no mapping");
    uint32_t *words = (uint32_t *)(void *)list;
    for (size_t at = 0; at < PART_WORDS; at++) words[at] = (uint32_t)at * 0x9e3779b9;
    return words;
}

int main(void) {
    size_t count = PARTS * PART_WORDS;
    uint64_t seen = kilnumber_changed(table, 5, 0, make_list(), count), expected = (uint64_t)1 << 40 | PART_WORDS;
    if (seen != expected || kilnumber_changed_words(seen) != count) {
        printf("difference: %zu words: expected %016llx, seen %016llx\n", count, (unsigned long long)expected, (unsigned long long)seen);
        return 1;
    }
    printf("large_list good: all of %zu words\n", count);
    return 0;
}
