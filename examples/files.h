/* How the examples read their files, and print: whole, or the program ends with status 2. */

#ifndef FILES_H
#define FILES_H

#include <stdio.h>
#include <stdlib.h>

#include "kilnumber.h"

struct bytes {
    uint8_t *at;
    size_t count;
};

struct words {
    uint32_t *at;
    size_t count;
};

static void stop(const char *name, const char *why) {
    fprintf(stderr, "%s: %s\n", name, why);
    exit(2);
}

/* Before the end: what was printed may still be lost, on a full device say. */
static void finish_printing(void) {
    if (fflush(stdout) != 0 || ferror(stdout)) stop("standard output", "can't be written");
}

static struct bytes read_file(const char *name) {
    FILE *file = fopen(name, "rb");
    if (file == NULL) stop(name, "can't be opened");
    long length = fseek(file, 0, SEEK_END) == 0 ? ftell(file) : -1;
    if (length < 0 || fseek(file, 0, SEEK_SET) != 0) stop(name, "can't be read");
    struct bytes bytes = {malloc((size_t)length + 1), (size_t)length}; /* never null, also without a byte: the calls want a pointer */
    if (bytes.at == NULL || fread(bytes.at, 1, bytes.count, file) != bytes.count) stop(name, "can't be read");
    fclose(file);
    return bytes;
}

static struct words read_words(const char *name) {
    struct bytes bytes = read_file(name);
    if (bytes.count % 4 != 0) stop(name, "not whole words");
    struct words words = {malloc(bytes.count + 1), bytes.count / 4};
    if (words.at == NULL) stop(name, "no memory");
    kilnumber_words(bytes.at, words.count, words.at);
    free(bytes.at);
    return words;
}

#endif
