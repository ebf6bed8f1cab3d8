/* How the benchmarks take times: the sides take turns, REPEATS times, and the best, the middle and the worst turn are said.
 * Whoever includes it defines _POSIX_C_SOURCE before its first #include, for clock_gettime. */

#ifndef TIMES_H
#define TIMES_H

#include <stdlib.h>
#include <time.h>

#ifndef REPEATS
#define REPEATS 15
#endif

struct times {
    double best, median, worst;
};

static double seconds(void) {
    struct timespec now;
    clock_gettime(CLOCK_MONOTONIC, &now);
    return (double)now.tv_sec + 1e-9 * (double)now.tv_nsec;
}

static int by_size(const void *one, const void *other) {
    double a = *(const double *)one, b = *(const double *)other;
    return (a > b) - (a < b);
}

static struct times times_of(double taken[REPEATS]) {
    qsort(taken, REPEATS, sizeof taken[0], by_size);
    struct times times = {taken[0], taken[REPEATS / 2], taken[REPEATS - 1]};
    return times;
}

#endif
