/* Times the calls on permutations of a library, or of two by turns. The second library is one whose records carry no number.
 * `once` runs one call ten times, for a counter of instructions. See bench/permutations. */
#include "turns.h"

#define CALLS 5

static const char *const names[CALLS] = {"fixed_points", "exchange", "inverse", "combine", "from_list"};
static void *loaded[2][OBJECTS][CALLS];

/* what a library's calls work on; f: the call, k: makes the exchanged places change */
struct work {
    void *f;
    size_t n, fixed, second_fixed, k;
    uint16_t entries[1024], second[1024];
};

/* ---- each call, now and before */

typedef void call(struct work *);
typedef lomuveran_answer answer;
typedef lomuveran_record record;

static void accepted(answer a) {
    check(a.number == 0, "a call is refused");
}

static void take(struct work *w, record r) {
    accepted(r.answer);
    w->fixed = r.fixed;
}

static size_t place(struct work *w) {
    return (w->k = w->k * 5 + 3) % w->n;
}

static void asking(struct work *w) {
    answer a = ((answer(*)(const uint16_t *, size_t, size_t))w->f)(w->entries, w->n, w->fixed);
    check(a.number == 0 && a.count == w->fixed, "fixed_points answers wrong");
}
static void asking_before(struct work *w) {
    accepted(((answer(*)(const uint16_t *, size_t))w->f)(w->entries, w->n));
}
static void exchange(struct work *w) {
    size_t i = place(w), j = place(w);
    take(w, ((record(*)(uint16_t *, size_t, size_t, size_t, size_t))w->f)(w->entries, w->n, w->fixed, i, j));
}
static void exchange_before(struct work *w) {
    size_t i = place(w), j = place(w);
    accepted(((answer(*)(uint16_t *, size_t, size_t, size_t))w->f)(w->entries, w->n, i, j));
}
static void inverse(struct work *w) {
    take(w, ((record(*)(uint16_t *, size_t, size_t))w->f)(w->entries, w->n, w->fixed));
}
static void inverse_before(struct work *w) {
    accepted(((answer(*)(uint16_t *, size_t))w->f)(w->entries, w->n));
}
static void combine(struct work *w) {
    typedef record combines(uint16_t *, size_t, size_t, const uint16_t *, size_t, size_t);
    take(w, ((combines *)w->f)(w->entries, w->n, w->fixed, w->second, w->n, w->second_fixed));
}
static void combine_before(struct work *w) {
    accepted(((answer(*)(uint16_t *, size_t, const uint16_t *, size_t))w->f)(w->entries, w->n, w->second, w->n));
}
static void from_list(struct work *w) {
    take(w, ((record(*)(const uint16_t *, size_t))w->f)(w->entries, w->n));
}
static void from_list_before(struct work *w) {
    accepted(((answer(*)(const uint16_t *, size_t))w->f)(w->entries, w->n));
}

static call *const calls[2][CALLS] = {{asking, exchange, inverse, combine, from_list},
                                      {asking_before, exchange_before, inverse_before, combine_before, from_list_before}};

/* ---- times */

static struct work works[2];
static int called;

static void run(int side, int object, size_t count) {
    struct work *w = &works[side];
    w->f = loaded[side][object][called];
    while (count--) calls[side][called](w);
}

static size_t at_home(const uint16_t *list, size_t n) {
    size_t i, count = 0;
    for (i = 0; i < n; i++) count += list[i] == i;
    return count;
}

static void fill(struct work *w, size_t n) {
    memset(w, 0, sizeof *w);
    w->n = n;
    drawn = 7;
    shuffled(w->entries, n);
    shuffled(w->second, n);
    w->fixed = at_home(w->entries, n);
    w->second_fixed = at_home(w->second, n);
}

/* both libraries do the same, and every number is the true one */
static void compare(int sides) {
    struct work *w = works;
    int side, k;
    for (k = 0; k < 10; k++) {
        for (called = 0; called < CALLS; called++) {
            for (side = 0; side < sides; side++) batch(run, side, 1);
            check(w[0].fixed == at_home(w[0].entries, w[0].n), "the number is not the true one");
            check(sides == 1 || !memcmp(w[0].entries, w[1].entries, sizeof w[0].entries), "the libraries differ");
        }
    }
}

static void load(const char *from, void *to[OBJECTS][CALLS]) {
    char name[64];
    int object, c;
    for (object = 0; object < OBJECTS; object++) {
        for (c = 0; c < CALLS; c++) {
            snprintf(name, sizeof name, "permutation_%s", names[c]);
            to[object][c] = find(from, object, name);
        }
    }
}

/* once now|before OBJECTS CALL PLACES */
static int once(char **argv) {
    int side = !strcmp(argv[2], "before");
    while (called < CALLS && strcmp(names[called], argv[4])) called++;
    check(called < CALLS, "which call?");
    load(argv[3], loaded[side]);
    fill(&works[side], strtoul(argv[5], NULL, 10));
    run(side, 0, 10);
    return 0;
}

int main(int argc, char **argv) {
    static const char *const sizes[3] = {"16", "128", "1024"};
    int c, k;
    if (argc == 6) return once(argv);
    check(argc == 2 || argc == 3, "which objects?");
    for (k = 1; k < argc; k++) load(argv[k], loaded[k - 1]);
    heading(argc - 1);
    for (c = 0; c < CALLS; c++) {
        for (k = 0; k < 3; k++) {
            fill(&works[0], strtoul(sizes[k], NULL, 10));
            works[1] = works[0];
            compare(argc - 1);
            called = c;
            measure(names[c], sizes[k], argc - 1, run);
        }
    }
    return 0;
}
