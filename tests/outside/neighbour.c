/* The header's calls of the neighbour wiring and the converter: each prototype, the values of the request, every setting of up to six
 * places there and back, every refusal, and memory around what is lent. Compiled as C and as C++. */
#include "compare.h"

/* ---- the types: an assignment of another type is an error under -Werror. 0 is the paper's wiring, 1 the neighbour wiring */

typedef lomuveran_answer setting(const uint16_t *, size_t, uint8_t *, size_t, uint16_t *, size_t);
typedef lomuveran_answer moving(size_t, size_t, uint8_t *, size_t, const uint8_t *, size_t, uint16_t *, size_t);
typedef lomuveran_answer converting(size_t, const uint8_t *, size_t, uint8_t *, size_t);
static setting *const of_set = lomuveran_neighbour_control_bits;
static moving *const of_mix[2] = {lomuveran_apply, lomuveran_neighbour_apply}, *const of_return = lomuveran_neighbour_apply_inverse;
static converting *const of_convert[2] = {lomuveran_to_neighbour, lomuveran_to_paper}; /* from the paper's, from the neighbour wiring */

/* ---- the values of the request, with one item more than needed behind each buffer */

static const struct {
    size_t n;
    uint16_t order[9];
    const char *bits;
} cases[] = {
    {2, {1, 0}, "1"},
    {3, {1, 2, 0}, "110"},
    {4, {1, 3, 0, 2}, "11001"},
    {5, {1, 2, 3, 4, 0}, "11110000"},
    {5, {0, 2, 1, 3, 4}, "01000101"}, /* with the highest pair straight it would be 10001010 */
    {5, {0, 3, 2, 1, 4}, "00000100"},
    {9, {6, 2, 3, 7, 5, 1, 8, 0, 4}, "001011111110001101100"},
};
#define LAST 6

/* 0 and 1 from digits */
static size_t from_digits(uint8_t *bits, const char *digits) {
    size_t i, count = strlen(digits);
    for (i = 0; i < count; i++) bits[i] = (uint8_t)(digits[i] - '0');
    return count;
}

static void house_settings(void) {
    uint8_t is[22], must[22];
    uint16_t log[4 * 56 + 1];
    size_t c, entries, w;
    for (c = 0; c < sizeof cases / sizeof *cases; c++) {
        memset(is, 0xee, sizeof is);
        memset(must, 0xee, sizeof must);
        memset(log, 0xee, sizeof log);
        w = from_digits(must, cases[c].bits);
        entries = lomuveran_entries(cases[c].n).count;
        ANSWER(of_set(cases[c].order, cases[c].n, is, w, log, 4 * entries), 0, 0, entries);
        ALIKE(is, must);
        SAME(log[4 * entries], 0xeeee);
    }
}

/* the networks of nine places, and where their bits begin: each entry of the setter names one, those of kind 5 each in its turn */
static void networks(const uint16_t *log, size_t entries) {
    static const uint16_t must[8][3] = {{0, 9, 0}, {0, 5, 4}, {0, 3, 6}, {0, 2, 7}, {2, 2, 9}, {1, 4, 12}, {1, 2, 13}, {3, 2, 14}};
    size_t e, k, met = 0;
    for (e = 0; e < entries; e++) {
        for (k = 0; k < 8 && memcmp(log + 4 * e + 1, must[k], sizeof must[k]) != 0;) k++;
        SAME(k < 8, 1);
        if (log[4 * e] == 5) SAME(k, met++);
    }
    SAME(met, 8);
}

static void nine_places(void) {
    static const char paper[] = "000100011110101011100";
    uint8_t bits[21], back[22], out[22], must[22], blocks[11] = "abcdefghi*";
    uint16_t log[4 * 56];
    memset(out, 0xee, sizeof out);
    memset(back, 0xee, sizeof back);
    memset(must, 0xee, sizeof must);
    ANSWER(of_set(cases[LAST].order, 9, bits, 21, log, 224), 0, 0, 56);
    networks(log, 56);
    ANSWER(of_mix[1](9, 1, blocks, 9, bits, 21, log, 84), 0, 0, 21);
    alike(blocks, "hfbcieadg*", 11, "mixed", __LINE__);
    ANSWER(of_return(9, 1, blocks, 9, bits, 21, log, 84), 0, 0, 21);
    alike(blocks, "abcdefghi*", 11, "returned", __LINE__);
    ANSWER(of_convert[1](9, bits, 21, out, 21), 0, 0, 0);
    from_digits(must, paper);
    ALIKE(out, must);
    ANSWER(of_convert[0](9, out, 21, back, 21), 0, 0, 0);
    from_digits(must, cases[LAST].bits);
    ALIKE(back, must);
    ALIKE(bits, must);
}

static void logs(void) {
    static const uint16_t three[13] = {7, 0, 1, 0, 7, 0, 2, 1, 7, 0, 1, 2, 0xeeee};
    static const uint16_t four[21] = {7, 0, 1, 0, 7, 0, 2, 1, 7, 1, 3, 2, 7, 0, 1, 3, 7, 2, 3, 4, 0xeeee};
    static const uint16_t four_back[21] = {7, 2, 3, 4, 7, 0, 1, 3, 7, 1, 3, 2, 7, 0, 2, 1, 7, 0, 1, 0, 0xeeee};
    static const uint8_t bits[5] = {0};
    uint8_t blocks[4] = {0};
    uint16_t log[13], longer[21];
    memset(log, 0xee, sizeof log);
    memset(longer, 0xee, sizeof longer);
    ANSWER(of_mix[1](3, 1, blocks, 3, bits, 3, log, 13), 0, 0, 3);
    ALIKE(log, three);
    ANSWER(of_mix[1](4, 1, blocks, 4, bits, 5, longer, 21), 0, 0, 5);
    ALIKE(longer, four);
    ANSWER(of_return(4, 1, blocks, 4, bits, 5, longer, 21), 0, 0, 5);
    ALIKE(longer, four_back);
}

/* ---- every setting of up to six places: converted it moves blocks alike, and it comes back where it is a house setting */

static int comes_back(int from, size_t n, size_t w, size_t number) {
    uint8_t given[12], out[12], back[12], here[7] = "abcdef", there[7] = "abcdef";
    uint16_t log[44];
    size_t i;
    memset(given, 0xee, sizeof given);
    memset(out, 0xee, sizeof out);
    memset(back, 0xee, sizeof back);
    for (i = 0; i < w; i++) given[i] = (uint8_t)(number >> i & 1);
    ANSWER(of_convert[from](n, given, w, out, w), 0, 0, 0);
    ANSWER(of_convert[!from](n, out, w, back, w), 0, 0, 0);
    for (i = w; i < 12; i++) SAME(out[i] == 0xee && back[i] == 0xee, 1);
    ANSWER(of_mix[from](n, 1, here, n, given, w, log, 4 * w), 0, 0, w);
    ANSWER(of_mix[!from](n, 1, there, n, out, w, log, 4 * w), 0, 0, w);
    ALIKE(here, there);
    return memcmp(given, back, sizeof given) == 0;
}

static void small_settings(int from) {
    size_t n, number, w, settings = 0, house = 0;
    for (n = 0; n < 7; n++) {
        w = lomuveran_switches(n).count;
        for (number = 0; number < (size_t)1 << w; number++) {
            settings++;
            house += (size_t)comes_back(from, n, w, number);
        }
    }
    SAME(settings, 2348);
    SAME(house, 874);
}

/* ---- refusals: good and bad numbers for each question, all with all. The first no counts, and nothing is written */

#define MOST ((size_t)-1)

static void no_conversion(int from) {
    static const size_t ns[4] = {3, 4, 1025, MOST}, counts[4] = {3, 2, 5, 0};
    static const uint8_t contents[4][5] = {{0, 1, 1, 0, 1}, {0, 1, 2, 0, 1}, {0, 255, 2, 0, 1}, {2, 1, 1, 0, 3}};
    static const size_t places[4] = {5, 2, 1, 0}; /* of the first bad byte */
    uint8_t out[6], was[6];
    size_t i, n, given, room, bad, due, number;
    memset(was, 0xee, sizeof was);
    for (i = 0; i < 256; i++) {
        n = ns[i % 4], given = counts[i / 4 % 4], room = counts[i / 16 % 4], bad = places[i / 64];
        due = n == 3 ? 3 : 5;
        number = n > 1024       ? LOMUVERAN_TOO_MANY_PLACES
                 : given != due ? LOMUVERAN_BIT_COUNT
                 : room != due  ? LOMUVERAN_BIT_COUNT
                 : bad < due    ? LOMUVERAN_BIT
                                : LOMUVERAN_ACCEPTED;
        memcpy(out, was, sizeof out);
        ANSWER(of_convert[from](n, contents[i / 64], given, out, room), number, number == LOMUVERAN_BIT ? bad : 0, 0);
        same(memcmp(out, was, sizeof out) == 0, number != 0, "nothing is written where it is refused", __LINE__);
    }
}

static void no_setting(void) {
    static uint16_t many[1025];
    static const uint16_t twice[3] = {1, 2, 1};
    static const uint8_t kept[4] = {9, 9, 9, 9};
    uint8_t bits[4] = {9, 9, 9, 9};
    uint16_t log[44], was[44];
    memset(log, 0xee, sizeof log);
    memset(was, 0xee, sizeof was);
    ANSWER(of_set(many, 1025, bits, 4, log, 0), LOMUVERAN_TOO_MANY_PLACES, 0, 0);
    ANSWER(of_set(twice, 3, bits, 4, log, 43), LOMUVERAN_BIT_COUNT, 0, 0);
    ANSWER(of_set(twice, 3, bits, 2, log, 44), LOMUVERAN_BIT_COUNT, 0, 0);
    ANSWER(of_set(twice, 3, bits, 3, log, 33), LOMUVERAN_LOG, 0, 0);
    ANSWER(of_set(twice, 3, bits, 3, log, 43), LOMUVERAN_LOG, 0, 0);
    ANSWER(of_set(twice, 3, bits, 3, log, 44), LOMUVERAN_ENTRY, 2, 0);
    ANSWER(of_set(twice, 2, bits, 1, log, 44), LOMUVERAN_ENTRY, 1, 0);
    ALIKE(bits, kept);
    ALIKE(log, was);
}

static void no_move(moving *move) {
    static const uint8_t bad[4] = {1, 2, 3, 0}, kept[6] = {1, 2, 3, 4, 5, 6};
    uint8_t blocks[6] = {1, 2, 3, 4, 5, 6};
    uint16_t log[12], was[12];
    memset(log, 0xee, sizeof log);
    memset(was, 0xee, sizeof was);
    ANSWER(move(1025, 0, blocks, 5, bad, 4, log, 11), LOMUVERAN_TOO_MANY_PLACES, 0, 0);
    ANSWER(move(MOST, 1, blocks, 6, bad, 3, log, 12), LOMUVERAN_TOO_MANY_PLACES, 0, 0);
    ANSWER(move(3, 0, blocks, 5, bad, 4, log, 11), LOMUVERAN_WIDTH, 0, 0);
    ANSWER(move(3, 257, blocks, 6, bad, 4, log, 11), LOMUVERAN_WIDTH, 0, 0);
    ANSWER(move(3, 2, blocks, 5, bad, 4, log, 11), LOMUVERAN_BLOCKS, 0, 0);
    ANSWER(move(3, 2, blocks, 6, bad, 4, log, 11), LOMUVERAN_BIT_COUNT, 0, 0);
    ANSWER(move(3, 2, blocks, 6, bad, 3, log, 9), LOMUVERAN_LOG, 0, 0);
    ANSWER(move(3, 2, blocks, 6, bad, 3, log, 11), LOMUVERAN_LOG, 0, 0);
    ANSWER(move(3, 2, blocks, 6, bad, 3, log, 12), LOMUVERAN_BIT, 1, 0);
    ALIKE(blocks, kept);
    ALIKE(log, was);
}

int main(void) {
    house_settings();
    nine_places();
    logs();
    small_settings(0);
    small_settings(1);
    no_conversion(0);
    no_conversion(1);
    no_setting();
    no_move(of_mix[1]);
    no_move(of_return);
    printf("compared %d answers and buffers of the neighbour wiring from C, %d wrong\n", compared, wrong);
    return wrong != 0;
}
