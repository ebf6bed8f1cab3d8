/* Trees for the tests in C: those of make_trees.py's file, others made here, and damage to either. And random numbers, the same
 * in every run. */

#ifndef TREES_H
#define TREES_H

#include <stdio.h>
#include <stdlib.h>
#include <string.h>

#include "walker.h"

#define MOST_WORDS 65600u

static uint64_t state = 0x9e3779b97f4a7c15u;

static inline uint32_t any(void) {
    state ^= state << 13;
    state ^= state >> 7;
    state ^= state << 17;
    return (uint32_t)(state >> 32);
}

static inline uint32_t below(uint32_t limit) { return any() % limit; }

static uint32_t lent[MOST_WORDS]; /* the words at work */

static inline uint32_t foreign_node(uint32_t index, uint32_t width, uint32_t nodes) {
    if (index + 2 <= nodes && below(4) != 0) {
        uint32_t last = below(4) != 0 && index + 12 < nodes ? index + 12 : nodes;
        return 8u << 28 | below(width) << 23 | (index + 2 + below(last - index - 1));
    }
    return below(3) == 0 ? 10u << 28 : 9u << 28 | below(256);
}

/* Nodes that are each good by themselves, and random words after them; the number of words with them. */
static inline size_t make_foreign(uint32_t width, uint32_t nodes, uint32_t after) {
    lent[0] = 7u << 28 | width << 16 | nodes;
    for (uint32_t index = 1; index <= nodes; index++) lent[index] = foreign_node(index, width, nodes);
    for (uint32_t index = 0; index < after; index++) lent[nodes + 1 + index] = any();
    return nodes + 1 + after;
}

/* One node that is wrong in one way, or good in another. The header may say fewer nodes than there are words. */
static inline void alter_node(uint32_t index, uint32_t nodes) {
    uint32_t node = lent[index];
    switch (below(8)) {
    case 0: node = (node & 0x0fffffff) | below(16) << 28; break;
    case 1: node ^= (uint32_t)1 << below(32); break;
    case 2: node = (node & ~(31u << 23)) | below(32) << 23; break;
    case 3: node = (node & ~0xffffu) | (index + below(3)); break;
    case 4: node = (node & ~0xffffu) | ((nodes + below(3)) & 0xffff); break;
    case 5: node = (node & ~0xffffu) | below(65536); break;
    case 6: node = 8u << 28 | below(32) << 23 | ((index + below(4)) & 0xffff); break;
    default: node = any(); break;
    }
    lent[index] = node;
}

static inline void alter_header(size_t words) {
    uint32_t header = lent[0];
    switch (below(6)) {
    case 0: header = (header & 0x0fffffff) | below(16) << 28; break;
    case 1: header |= (uint32_t)1 << (22 + below(6)); break;
    case 2: header = (header & ~(63u << 16)) | below(64) << 16; break;
    case 3: header = (header & ~0xffffu) | (((uint32_t)words + below(4) - 2) & 0xffff); break;
    case 4: header = (header & ~0xffffu) | below(65536); break;
    default: header &= ~0xffffu; break;
    }
    lent[0] = header;
}

/* A word of the tree's width, now and then one with a bit at or above it. */
static inline uint32_t some_word(uint32_t header) {
    uint32_t width = header >> 16 & 63;
    uint32_t word = any();
    if (width == 0 || width >= 32 || below(24) == 0) return word;
    word &= ((uint32_t)1 << width) - 1;
    return below(24) == 0 ? word | (uint32_t)1 << width : word;
}

static inline uint32_t *read_file(const char *name, size_t *size) {
    FILE *file = fopen(name, "rb");
    if (file == NULL || fseek(file, 0, SEEK_END) != 0) {
        perror(name);
        exit(2);
    }
    size_t length = (size_t)ftell(file);
    rewind(file);
    uint8_t *bytes = malloc(length + 4);
    uint32_t *words = malloc(length + 4);
    if (length < 4 || bytes == NULL || words == NULL || fread(bytes, 1, length, file) != length) {
        printf("can't read %s\n", name);
        exit(2);
    }
    *size = length / 4;
    for (size_t at = 0; at < *size; at++) words[at] = word_at(bytes, at);
    free(bytes);
    fclose(file);
    return words;
}

/* The generated trees of a file, one after the other. */
struct trees {
    uint32_t *file;
    size_t size, at;
    uint32_t left;
};

static inline struct trees open_trees(const char *name) {
    struct trees trees = {NULL, 0, 1, 0};
    trees.file = read_file(name, &trees.size);
    trees.left = trees.file[0];
    return trees;
}

/* Puts the next tree into `lent`, and gives its number of words, 0 after the last one. */
static inline size_t next_tree(struct trees *trees) {
    if (trees->left == 0) {
        free(trees->file);
        return 0;
    }
    size_t words = trees->at < trees->size ? trees->file[trees->at] : 0;
    if (words == 0 || words > 20000 || trees->at + 1 + words > trees->size) {
        printf("the file of trees is not whole\n");
        exit(2);
    }
    memcpy(lent, trees->file + trees->at + 1, 4 * words);
    trees->at += 1 + words;
    trees->left--;
    return words;
}

static inline void require(uint64_t count, uint64_t least, const char *what) {
    if (count >= least) return;
    printf("only %llu of: %s; at least %llu are needed\n", (unsigned long long)count, what, (unsigned long long)least);
    exit(1);
}

#endif
