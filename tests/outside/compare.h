/* What the tests in C share: numbers, memory and answers compared, and counted. */
#ifndef COMPARE_H
#define COMPARE_H

#include "lomuveran.h"

#include <stdio.h>
#include <string.h>

static int compared, wrong;

static void same(size_t is, size_t must, const char *what, int line) {
    compared++;
    if (is != must) {
        wrong++;
        printf("header.c:%d: %s is %zu, must be %zu\n", line, what, is, must);
    }
}

static void alike(const void *is, const void *must, size_t bytes, const char *what, int line) {
    same(memcmp(is, must, bytes) == 0, 1, what, line);
}

#define SAME(is, must) same(is, must, #is, __LINE__)
#define ALIKE(is, must) alike(is, must, sizeof(is), #is, __LINE__)
#define ANSWER(a, n, p, c) \
    do { \
        lomuveran_answer got = a; \
        same(got.number, n, #a " .number", __LINE__); \
        same(got.place, p, #a " .place", __LINE__); \
        same(got.count, c, #a " .count", __LINE__); \
    } while (0)

#endif
