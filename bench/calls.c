/* Times set, mix, return and the entry count of a library beside those of an earlier one, and its set, mix and return in the
 * neighbour wiring beside those in the paper's. `once` runs one call ten times, for a counter of instructions. See bench/calls. */
#include "turns.h"

#define PLACES 1024
#define WIDTH 256
#define SWITCHES 9217
#define WORDS (4 * 16381)

enum { SET, MIX, RETURN, ENTRIES, CALLS };
enum { PAPER, NEIGHBOUR };
static const char *const names[2][CALLS] = {{"control_bits", "apply", "apply_inverse", "entries"},
                                            {"neighbour_control_bits", "neighbour_apply", "neighbour_apply_inverse", "entries"}};
static const char *const words[CALLS] = {"set", "mix", "return", "entries"};
static void *loaded[2][OBJECTS][CALLS];
static size_t entry_words[2]; /* an earlier library may have three */

/* what the calls work on: the same memory for both libraries, since where a block begins moves a time by a tenth */
static struct work {
    uint16_t order[PLACES], log[WORDS];
    uint8_t bits[SWITCHES], blocks[PLACES * WIDTH];
} work, left;
static size_t n, width, switches, entries;
static int called;

typedef lomuveran_answer answer;
typedef answer setting(const uint16_t *, size_t, uint8_t *, size_t, uint16_t *, size_t);
typedef answer moving(size_t, size_t, uint8_t *, size_t, const uint8_t *, size_t, uint16_t *, size_t);
typedef answer counting(size_t);

static void run(int side, int object, size_t count) {
    struct work *w = &work;
    void *f = loaded[side][object][called];
    while (count--) {
        answer a;
        if (called == SET) a = ((setting *)f)(w->order, n, w->bits, switches, w->log, WORDS);
        else if (called == ENTRIES) a = ((counting *)f)(n);
        else a = ((moving *)f)(n, width, w->blocks, n * width, w->bits, switches, w->log, WORDS);
        check(a.number == 0 && a.count == (called == SET || called == ENTRIES ? entries : switches), "a call answers wrong");
    }
}

/* W or E by its rule: what a library answers is held against it */
static size_t halved(size_t m, int of_entries) {
    size_t k = m - m / 2, own = of_entries ? m == 2 ? 2 : 3 * k + 3 : m - 1;
    return m < 2 ? 0 : own + halved(k, of_entries) + halved(m - k, of_entries);
}

static void fill(size_t places, size_t bytes) {
    size_t i;
    n = places;
    width = bytes;
    switches = halved(n, 0);
    entries = halved(n, 1);
    memset(&work, 0, sizeof work);
    drawn = 7;
    shuffled(work.order, n);
    for (i = 0; i < switches; i++) work.bits[i] = (uint8_t)draw(2);
    for (i = 0; i < n * width; i++) work.blocks[i] = (uint8_t)draw(256);
}

/* an earlier library may have no neighbour wiring: its calls are looked for only where they are wanted */
static void load(const char *from, int side, int wiring) {
    int object, c;
    for (object = 0; object < OBJECTS; object++)
        for (c = 0; c < CALLS; c++) loaded[side][object][c] = find(from, object, names[wiring][c]);
    fill(2, 1);
    for (entry_words[side] = 1;; entry_words[side]++) /* those with which a log of one entry is not refused */
        if (((moving *)loaded[side][0][MIX])(2, 1, work.blocks, 2, work.bits, 1, work.log, entry_words[side]).number == 0) break;
}

/* whether work, by the first side, and left, by the second, are the same, but for words that one side's entries lack */
static int alike(void) {
    size_t a = entry_words[0], b = entry_words[1], e, k, same = 1;
    for (e = 0; e < (called == SET ? entries : called == ENTRIES ? 0 : switches); e++)
        for (k = 0; k < a && k < b; k++) same &= work.log[a * e + k] == left.log[b * e + k];
    return same && !memcmp(work.bits, left.bits, sizeof work.bits) && !memcmp(work.blocks, left.blocks, sizeof work.blocks);
}

/* two libraries leave the same; two wirings do not, or one of them was timed twice */
static void line(int c, size_t places, size_t bytes, int wirings) {
    char size[64];
    called = c;
    fill(places, bytes);
    batch(run, 1, 1);
    left = work;
    fill(places, bytes);
    batch(run, 0, 1);
    check(alike() == !wirings, wirings ? "the wirings do not differ" : "the libraries differ");
    snprintf(size, sizeof size, c == MIX || c == RETURN ? "%zu × %zu" : "%zu", places, bytes);
    measure(words[c], size, 2, run);
}

static const size_t places[3] = {16, 128, 1024};

/* now and before, in one wiring; one call where it is named */
static int libraries(char **objects, const char *only, int wiring) {
    static const size_t widths[6] = {1, 6, 8, 16, 64, 256};
    int c, k, j, lines = 0;
    for (k = 0; k < 2; k++) load(objects[k], k, wiring);
    heading(2);
    for (c = 0; c < CALLS; c++)
        for (k = 0; k < 3 && (!only || !strcmp(only, words[c])); k++)
            for (j = 0; j < (c == MIX || c == RETURN ? 6 : 1); j++, lines++) line(c, places[k], widths[j], 0);
    return lines;
}

/* the neighbour wiring and the paper's, of one library; the widest blocks at the most places alone */
static void both_wirings(const char *objects) {
    static const size_t widths[3] = {6, 64, 256};
    int c, k, j;
    load(objects, 0, NEIGHBOUR);
    load(objects, 1, PAPER);
    printf("| neighbour wiring | places | ns | paper's wiring, ns | ratio |\n|---|---|---|---|---|\n");
    for (c = 0; c < ENTRIES; c++)
        for (k = 0; k < 3; k++)
            for (j = 0; j < (c == SET ? 1 : k < 2 ? 2 : 3); j++) line(c, places[k], widths[j], 1);
}

int main(int argc, char **argv) {
    if (argc == 6 && !strcmp(argv[1], "once")) { /* once OBJECTS CALL PLACES WIDTH */
        int wiring = !strncmp(argv[3], "neighbour_", 10);
        load(argv[2], 0, wiring);
        while (called < CALLS && strcmp(names[wiring][called], argv[3])) called++;
        check(called < CALLS, "which call?");
        fill(strtoul(argv[4], NULL, 10), strtoul(argv[5], NULL, 10));
        run(0, 0, 10);
        return 0;
    }
    check(argc == 3 || argc == 4, "which objects?");
    if (argc == 4 && !strcmp(argv[3], "neighbour-before")) return libraries(argv + 1, NULL, NEIGHBOUR) == 0;
    if (argc == 3 || strcmp(argv[3], "neighbour"))
        check(libraries(argv + 1, argc == 4 ? argv[3] : NULL, PAPER) > 0, "which call? set, mix, return, entries or neighbour");
    if (argc == 3) printf("\n");
    if (argc == 3 || !strcmp(argv[3], "neighbour")) both_wirings(argv[1]);
    return 0;
}
