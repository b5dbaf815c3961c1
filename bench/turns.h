/* Two libraries by turns: in each round of a call each library runs a batch in each of its four objects (bench/objects), and a
 * round's time is their mean. A time is the median of the rounds, a ratio the median of each round's own ratio. */
#define _GNU_SOURCE
#include "lomuveran.h"

#include <dlfcn.h>
#include <errno.h>
#include <stdio.h>
#include <stdlib.h>
#include <string.h>
#include <time.h>

#define ROUNDS 61
#define BATCH 300e3 /* nanoseconds */
#ifndef OBJECTS
#define OBJECTS 4
#endif

static void check(int yes, const char *what) {
    if (!yes) {
        fprintf(stderr, "%s: %s\n", program_invocation_short_name, what);
        exit(2);
    }
}

/* lomuveran_NAME in one of the objects FROM.1.so to FROM.4.so */
static void *find(const char *from, int object, const char *name) {
    char text[4096];
    void *library, *found;
    snprintf(text, sizeof text, "%s.%d.so", from, object + 1);
    library = dlopen(text, RTLD_NOW | RTLD_LOCAL);
    check(library != NULL, text);
    snprintf(text, sizeof text, "lomuveran_%s", name);
    found = dlsym(library, text);
    check(found != NULL, text);
    return found;
}

static uint64_t drawn; /* the same numbers in every run */
static size_t draw(size_t below) {
    drawn = drawn * 6364136223846793005u + 1442695040888963407u;
    return (size_t)(drawn >> 33) % below;
}

/* an order that looks random */
static void shuffled(uint16_t *order, size_t n) {
    size_t i, j;
    for (i = 0; i < n; i++) order[i] = (uint16_t)i;
    for (i = 0; i < n; i++) {
        uint16_t x = order[i];
        j = i + draw(n - i);
        order[i] = order[j];
        order[j] = x;
    }
}

static double clock_ns(void) {
    struct timespec t;
    clock_gettime(CLOCK_MONOTONIC, &t);
    return (double)t.tv_sec * 1e9 + (double)t.tv_nsec;
}

static int by_size(const void *a, const void *b) {
    double x = *(const double *)a, y = *(const double *)b;
    return (x > y) - (x < y);
}

static double median(const double *times) {
    double sorted[ROUNDS];
    memcpy(sorted, times, sizeof sorted);
    qsort(sorted, ROUNDS, sizeof *sorted, by_size);
    return sorted[ROUNDS / 2];
}

/* runs the call that is measured so often, in one object of a library (side 0: this one, 1: the one before) */
typedef void runs(int side, int object, size_t count);

static double batch(runs *run, int side, size_t count) {
    double all = 0;
    int object;
    for (object = 0; object < OBJECTS; object++) {
        double begin = clock_ns();
        run(side, object, count);
        all += clock_ns() - begin;
    }
    return all / (OBJECTS * (double)count);
}

/* a table's line */
static void measure(const char *name, const char *size, int sides, runs *run) {
    double times[2][ROUNDS], ratio[ROUNDS];
    size_t count[2];
    int k, round;
    for (k = 0; k < sides; k++) count[k] = 1 + (size_t)(BATCH / batch(run, k, 20));
    for (round = 0; round < ROUNDS; round++) {
        for (k = 0; k < sides; k++) {
            int side = (k + round) % sides;
            times[side][round] = batch(run, side, count[side]);
        }
        if (sides > 1) ratio[round] = times[0][round] / times[1][round];
    }
    printf("| %s | %s | %.*f |", name, size, median(times[0]) < 100, median(times[0]));
    if (sides > 1) printf(" %.*f | %.3f |", median(times[1]) < 100, median(times[1]), median(ratio));
    printf("\n");
}

static void heading(int sides) {
    printf("| call | places | ns |%s\n|---|---|---|%s\n", sides > 1 ? " before, ns | ratio |" : "", sides > 1 ? "---|---|" : "");
}
