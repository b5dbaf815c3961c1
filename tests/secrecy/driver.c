// Accepted calls of the library with their secrets marked undefined, to be run under valgrind (see `run`).
//   driver [neighbour-]set|[neighbour-]mix|[neighbour-]return|to-neighbour|to-paper|chart|rank N,N.. WIDTH,WIDTH.. SEED
// Secret are the order's entries (set), the bits and the bytes of the blocks (mix, return), the bits (the converter), the bytes of the
// blocks (chart), the number of the order and so all that comes of it (rank).
// SEED 0: the order that moves nothing, or bits and bytes 0; 1: the reverse order, or bits and bytes 1; else drawn.
#include "lomuveran.h"
#include <stdio.h>
#include <stdlib.h>
#include <string.h>
#include <valgrind/memcheck.h>

typedef lomuveran_answer setting(const uint16_t *, size_t, uint8_t *, size_t, uint16_t *, size_t);
typedef lomuveran_answer moving(size_t, size_t, uint8_t *, size_t, const uint8_t *, size_t, uint16_t *, size_t);
typedef lomuveran_answer converting(size_t, const uint8_t *, size_t, uint8_t *, size_t);
static const struct wiring {
    setting *set;
    moving *mix, *back;
    converting *convert; // into the other
} wirings[2] = {
    {lomuveran_control_bits, lomuveran_apply, lomuveran_apply_inverse, lomuveran_to_neighbour},
    {lomuveran_neighbour_control_bits, lomuveran_neighbour_apply, lomuveran_neighbour_apply_inverse, lomuveran_to_paper},
};

enum { ENTRY = 4 }; // words of an entry

static uint64_t state;
static size_t drawn(size_t below) {
    state = state * 6364136223846793005u + 1442695040888963407u;
    return (state >> 33) % below;
}
static size_t switches(size_t m) { return m < 2 ? 0 : m - 1 + switches((m + 1) / 2) + switches(m / 2); }
static size_t entries(size_t m) {
    return m < 2 ? 0 : m == 2 ? 2 : 3 * ((m + 1) / 2) + 3 + entries((m + 1) / 2) + entries(m / 2);
}
// Exactly so many bytes, so that memcheck sees a byte too far.
static void *room(size_t bytes) { return calloc(bytes ? bytes : 1, 1); }
static void hide(void *p, size_t bytes) { (void)VALGRIND_MAKE_MEM_UNDEFINED(p, bytes); }
static void show(void *p, size_t bytes) { (void)VALGRIND_MAKE_MEM_DEFINED(p, bytes); }
static size_t depends(void *p, size_t bytes) { // bytes of p that depend on a secret
    unsigned char *v = room(bytes);
    size_t c = 0;
    if (VALGRIND_GET_VBITS(p, v, bytes) == 1)
        for (size_t i = 0; i < bytes; i++) c += v[i] != 0;
    show(p, bytes), free(v);
    return c;
}
static int tracked(void) { // by memcheck, and not by lackey
    char c = 0, v;
    return VALGRIND_GET_VBITS(&c, &v, 1) == 1;
}
// A trace is compared between these two.
__attribute__((noinline)) void trace_begins(void) { __asm__ volatile(""); }
__attribute__((noinline)) void trace_ends(void) { __asm__ volatile(""); }

static size_t calls, asked, wrong, in_log, in_answer; // asked: calls in which there is something secret to decide on

static void one(const struct wiring *calls_of, char op, size_t n, size_t width, size_t seed) {
    size_t w = switches(n), words = ENTRY * (op == 's' ? entries(n) : w);
    uint16_t *order = room(2 * n), *kept = room(2 * n), *log = room(2 * words), *log2 = room(2 * ENTRY * w);
    uint8_t *blocks = room(n * width), *was = room(n * width), *bits = room(w);
    lomuveran_answer r;
    state = seed;
    for (size_t i = 0; i < n; i++) order[i] = (uint16_t)(seed == 1 ? n - 1 - i : i);
    for (size_t i = 0; i < n && seed > 1; i++) {
        size_t j = i + drawn(n - i);
        uint16_t t = order[i];
        order[i] = order[j], order[j] = t;
    }
    memcpy(kept, order, 2 * n);
    for (size_t i = 0; i < n * width; i++) blocks[i] = was[i] = (uint8_t)(seed > 1 ? drawn(256) : seed);
    for (size_t i = 0; i < w && op != 's'; i++) bits[i] = (uint8_t)(seed > 1 ? drawn(2) : seed);
    if (op == 's') hide(order, 2 * n);
    else hide(blocks, n * width), hide(bits, w);
    trace_begins();
    if (op == 's') r = calls_of->set(order, n, bits, w, log, words);
    else if (op == 'm') r = calls_of->mix(n, width, blocks, n * width, bits, w, log, words);
    else r = calls_of->back(n, width, blocks, n * width, bits, w, log, words);
    trace_ends();
    in_log += depends(log, 2 * words), in_answer += depends(&r, sizeof r);
    show(order, 2 * n), show(blocks, n * width), show(bits, w);
    wrong += r.number != 0 || ENTRY * r.count != words;
    // the other way round, or the mix that was set, gives what it must
    if (op == 'm') calls_of->back(n, width, blocks, n * width, bits, w, log2, ENTRY * w);
    else calls_of->mix(n, width, blocks, n * width, bits, w, log2, ENTRY * w);
    for (size_t i = 0; i < n; i++) wrong += memcmp(blocks + (op == 's' ? kept[i] : i) * width, was + i * width, width) != 0;
    calls++, asked += op == 's' ? n > 0 : w > 0;
    free(order), free(kept), free(log), free(log2), free(blocks), free(was), free(bits);
}

// a setting converted: in the other wiring it moves the numbers of the places alike
static void convert(const struct wiring *from, const struct wiring *to, size_t n, size_t seed) {
    size_t w = switches(n);
    uint8_t *given = room(w), *out = room(w);
    uint16_t *here = room(2 * n), *there = room(2 * n), *log = room(2 * ENTRY * w);
    state = seed;
    for (size_t i = 0; i < w; i++) given[i] = (uint8_t)(seed > 1 ? drawn(2) : seed);
    hide(given, w);
    trace_begins();
    lomuveran_answer r = from->convert(n, given, w, out, w);
    trace_ends();
    in_answer += depends(&r, sizeof r);
    wrong += depends(out, w) == 0 && w > 0 && tracked(); // or the bits were no secret
    show(given, w);
    wrong += r.number != 0 || r.count != 0;
    for (size_t i = 0; i < n; i++) here[i] = there[i] = (uint16_t)i;
    from->mix(n, 2, (uint8_t *)here, 2 * n, given, w, log, ENTRY * w);
    to->mix(n, 2, (uint8_t *)there, 2 * n, out, w, log, ENTRY * w);
    wrong += memcmp(here, there, 2 * n) != 0;
    calls++, asked += w > 0;
    free(given), free(out), free(here), free(there), free(log);
}

// a gauge's report on drawn blocks of four gauges
static void chart(size_t n, size_t width, size_t seed) {
    uint8_t *blocks = room(n * width);
    state = seed;
    for (size_t i = 0; i < n * width; i++) blocks[i] = (uint8_t)drawn(i % width < 2 ? 2 : 256);
    hide(blocks, n * width);
    trace_begins();
    lomuveran_report r = lomuveran_gauge_report(n, width, blocks, n * width, 1);
    trace_ends();
    in_answer += depends(&r.answer, sizeof r.answer);
    wrong += r.answer.number != 0;
    calls++, asked += n > 0;
    free(blocks);
}

// an order of the list by its number, which is found again from the order; its bits carry out the order
static void rank(size_t n, size_t seed) {
    size_t w = switches(n), words = ENTRY * entries(n), orders = 1, found = 0, r;
    uint16_t *order = room(2 * n), *log = room(2 * words), *log2 = room(2 * ENTRY * w);
    uint8_t *bits = room(w), *blocks = room(n);
    state = seed;
    for (size_t i = 2; i <= n; i++) orders *= i;
    r = seed > 1 ? drawn(orders) : seed * (orders - 1);
    hide(&r, sizeof r);
    trace_begins();
    lomuveran_answer a = lomuveran_ranked_order(n, r, order, n, bits, w, log, words);
    trace_ends();
    in_log += depends(log, 2 * words), in_answer += depends(&a, sizeof a);
    wrong += (depends(order, 2 * n) == 0 || depends(bits, w) == 0) && n > 1 && tracked(); // or r was no secret
    show(order, 2 * n), show(bits, w), show(&r, sizeof r);
    for (size_t i = 0; i < n; i++) {
        blocks[i] = (uint8_t)i, found *= n - i;
        for (size_t j = i + 1; j < n; j++) found += order[j] < order[i];
    }
    wrong += a.number != 0 || ENTRY * a.count != words || found != r;
    lomuveran_apply(n, 1, blocks, n, bits, w, log2, ENTRY * w);
    for (size_t i = 0; i < n; i++) wrong += blocks[order[i]] != i;
    calls++, asked++;
    free(order), free(log), free(log2), free(bits), free(blocks);
}

static void call(const char *op, size_t n, size_t width, size_t seed) {
    int neighbour = !strncmp(op, "neighbour-", 10);
    if (!strcmp(op, "chart")) chart(n, width, seed);
    else if (!strcmp(op, "rank")) rank(n, seed);
    else if (!strcmp(op, "to-neighbour")) convert(&wirings[0], &wirings[1], n, seed);
    else if (!strcmp(op, "to-paper")) convert(&wirings[1], &wirings[0], n, seed);
    else one(&wirings[neighbour], op[neighbour ? 10 : 0], n, width, seed);
}

int main(int argc, char **argv) {
    if (argc != 5) return 2;
    for (char *n = argv[2]; n; n = strchr(n, ',') ? strchr(n, ',') + 1 : 0)
        for (char *w = argv[3]; w; w = strchr(w, ',') ? strchr(w, ',') + 1 : 0)
            call(argv[1], strtoul(n, 0, 10), strtoul(w, 0, 10), strtoul(argv[4], 0, 10));
    printf("%zu calls, %zu with secrets, %zu wrong, %zu log bytes and %zu answer bytes from a secret\n", calls, asked, wrong,
           in_log, in_answer);
    return wrong ? 5 : in_log || in_answer ? 4 : 0;
}
