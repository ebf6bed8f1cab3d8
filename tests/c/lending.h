/*
 * Lends words or bytes to a call: directly before a page that can't be touched, or directly after one. Whoever includes it
 * defines _DEFAULT_SOURCE before its first #include, and includes words_file.h before it.
 */

#ifndef LENDING_H
#define LENDING_H

#include <signal.h>
#include <string.h>
#include <sys/mman.h>
#include <unistd.h>

#define MOST_WORDS 16400u

struct room {
    uint8_t *start, *guard;
};

static void touched(int number) {
    static const char text[] = "difference: memory outside what is lent is touched\n";
    (void)number;
    _exit(write(STDOUT_FILENO, text, sizeof text - 1) < 0 ? 2 : 1);
}

static struct room make_room_for(size_t words) {
    size_t page = (size_t)sysconf(_SC_PAGESIZE), size = (4 * words + page - 1) / page * page;
    uint8_t *from = (uint8_t *)mmap(NULL, size + 2 * page, PROT_READ | PROT_WRITE, MAP_PRIVATE | MAP_ANONYMOUS, -1, 0);
    if (from == MAP_FAILED || mprotect(from, page, PROT_NONE) != 0 || mprotect(from + page + size, page, PROT_NONE) != 0) stop("no memory");
    if (signal(SIGSEGV, touched) == SIG_ERR) stop("no handler");
    struct room room = {from + page, from + page + size};
    return room;
}

static struct room make_room(void) { return make_room_for(MOST_WORDS); }

static uint8_t *lend_bytes(struct room room, const void *bytes, size_t count, int at_start) {
    uint8_t *to = at_start ? room.start : room.guard - count;
    if (count > 0) memcpy(to, bytes, count);
    return to;
}

static inline const uint32_t *lend(struct room room, const uint32_t *words, size_t count, int at_start) {
    return (const uint32_t *)(const void *)lend_bytes(room, words, 4 * count, at_start);
}

static inline void require_unchanged(const uint32_t *lent, const uint32_t *words, size_t count) {
    if (count == 0 || memcmp(lent, words, 4 * count) == 0) return;
    printf("difference: %zu words were lent, and they have changed\n", count);
    exit(1);
}

#endif
