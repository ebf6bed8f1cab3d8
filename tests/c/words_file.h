/*
 * The words of a file that a script has written for a test, which has its name in TEST; and the end of a test that can't go on.
 */

#ifndef WORDS_FILE_H
#define WORDS_FILE_H

#include <stdio.h>
#include <stdlib.h>

#include "kilnumber.h"

static void stop(const char *why) {
    printf("%s: %s\n", TEST, why);
    exit(2);
}

static uint32_t *read_words(const char *name, size_t *count) {
    FILE *file = fopen(name, "rb");
    if (file == NULL || fseek(file, 0, SEEK_END) != 0) stop(name);
    long length = ftell(file);
    if (length < 4 || length % 4 != 0) stop("not whole words");
    rewind(file);
    uint8_t *bytes = malloc((size_t)length);
    uint32_t *words = malloc((size_t)length);
    if (bytes == NULL || words == NULL || fread(bytes, 1, (size_t)length, file) != (size_t)length) stop(name);
    *count = (size_t)length / 4;
    kilnumber_words(bytes, *count, words);
    free(bytes);
    fclose(file);
    return words;
}

#endif
