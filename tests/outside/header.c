/* The header against the library: sizes and layout, each prototype, an accepted call of each, every refusal of the calls on
 * permutations, of the chart and of listed orders, and memory around what is lent; the neighbour wiring is neighbour.c's. Compiled as
 * C and as C++. */
#include "compare.h"

#define RECORD(r, n, p, f) \
    do { \
        lomuveran_record had = r; \
        ANSWER(had.answer, n, p, 0); \
        same(had.fixed, f, #r " .fixed", __LINE__); \
    } while (0)

#define DRAWN(d, n, c, u) do { lomuveran_drawn drew = d; ANSWER(drew.answer, n, 0, c); SAME(drew.used, u); } while (0)

/* ---- the types: an assignment of another type is an error under -Werror */

static lomuveran_answer (*const of_count[])(size_t) = {lomuveran_switches, lomuveran_entries};
static lomuveran_answer (*const of_set)(const uint16_t *, size_t, uint8_t *, size_t, uint16_t *, size_t) = lomuveran_control_bits;
static lomuveran_answer (*const of_mix[])(size_t, size_t, uint8_t *, size_t, const uint8_t *, size_t, uint16_t *, size_t) = {
    lomuveran_apply, lomuveran_apply_inverse};
static lomuveran_drawn (*const of_draw)(size_t, const uint32_t *, size_t, uint16_t *, size_t) = lomuveran_shuffle;
static lomuveran_answer (*const of_rank)(size_t, size_t, uint16_t *, size_t, uint8_t *, size_t, uint16_t *, size_t) =
    lomuveran_ranked_order;
static lomuveran_answer (*const of_write)(size_t, const uint8_t *, size_t, uint8_t *, size_t) = lomuveran_write_sheet;
static lomuveran_answer (*const of_read)(const uint8_t *, size_t, uint8_t *, size_t) = lomuveran_read_sheet;
static lomuveran_number (*const of_number)(const uint8_t *, size_t, size_t) = lomuveran_read_number;
static lomuveran_report (*const of_report)(size_t, size_t, const uint8_t *, size_t, uint16_t) = lomuveran_gauge_report;
static lomuveran_record (*const of_fresh)(uint16_t *, size_t) = lomuveran_permutation_identity;
static lomuveran_record (*const of_list)(const uint16_t *, size_t) = lomuveran_permutation_from_list;
static lomuveran_record (*const of_exchange)(uint16_t *, size_t, size_t, size_t, size_t) = lomuveran_permutation_exchange;
static lomuveran_record (*const of_combine)(uint16_t *, size_t, size_t, const uint16_t *, size_t, size_t) = lomuveran_permutation_combine;
static lomuveran_record (*const of_inverse)(uint16_t *, size_t, size_t) = lomuveran_permutation_inverse;
static lomuveran_answer (*const of_home)(const uint16_t *, size_t, size_t) = lomuveran_permutation_fixed_points;

static void layout(void) {
    SAME(sizeof(size_t), 8);
    SAME(sizeof(lomuveran_answer), 24);
    SAME(offsetof(lomuveran_answer, place), 8);
    SAME(offsetof(lomuveran_answer, count), 16);
    SAME(sizeof(lomuveran_number), 40);
    SAME(offsetof(lomuveran_number, value), 24);
    SAME(offsetof(lomuveran_number, next), 32);
    SAME(sizeof(lomuveran_drawn), 32);
    SAME(offsetof(lomuveran_drawn, used), 24);
    SAME(sizeof(lomuveran_report), 72);
    SAME(offsetof(lomuveran_report, count), 24);
    SAME(offsetof(lomuveran_report, least), 32);
    SAME(offsetof(lomuveran_report, greatest), 40);
    SAME(offsetof(lomuveran_report, sum), 48);
    SAME(offsetof(lomuveran_report, mean), 56);
    SAME(offsetof(lomuveran_report, remainder), 64);
    SAME(sizeof(lomuveran_record), 32);
    SAME(offsetof(lomuveran_record, fixed), 24);
    ANSWER(of_count[0](LOMUVERAN_MAX_PLACES), LOMUVERAN_ACCEPTED, 0, LOMUVERAN_MAX_SWITCHES);
    ANSWER(of_count[1](LOMUVERAN_MAX_PLACES), LOMUVERAN_ACCEPTED, 0, LOMUVERAN_MAX_ENTRIES);
    ANSWER(of_count[0](LOMUVERAN_MAX_PLACES + 1), LOMUVERAN_TOO_MANY_PLACES, 0, 0);
    ANSWER(of_count[1]((size_t)-1), LOMUVERAN_TOO_MANY_PLACES, 0, 0);
}

/* ---- case g of the scope document, with one item more than needed behind each buffer */

static void mixing(void) {
    static const uint16_t order[9] = {6, 2, 3, 7, 5, 1, 8, 0, 4};
    static const char setting[22] = "000100011110101011100";
    static const uint8_t sheet[6] = {0x01, 0x09, 0x88, 0x2f, 0x1d, 0xee};
    uint8_t bits[22], read[22], out[6], blocks[11] = "abcdefghi*";
    uint16_t log[4 * 56 + 1];
    size_t i;
    memset(bits, 0xee, sizeof bits);
    memset(read, 0xee, sizeof read);
    memset(out, 0xee, sizeof out);
    memset(log, 0xee, sizeof log);
    ANSWER(of_set(order, 9, bits, 21, log, 224), 0, 0, 56);
    for (i = 0; i < 21; i++) SAME(bits[i] + (size_t)'0', (size_t)setting[i]);
    SAME(bits[21], 0xee);
    SAME(log[224], 0xeeee);
    SAME(log[0] == 1 && log[1] == 0 && log[2] == 9 && log[3] == 0, 1);
    ANSWER(of_mix[0](9, 1, blocks, 9, bits, 21, log, 84), 0, 0, 21);
    alike(blocks, "hfbcieadg*", 11, "mixed", __LINE__);
    SAME(log[0] == 7 && log[1] == 0 && log[2] == 5, 1);
    for (i = 0; i < 21; i++) SAME(log[4 * i + 3], i);
    ANSWER(of_mix[1](9, 1, blocks, 9, bits, 21, log, 84), 0, 0, 21);
    for (i = 0; i < 21; i++) SAME(log[4 * i + 3], 20 - i);
    alike(blocks, "abcdefghi*", 11, "returned", __LINE__);
    ANSWER(of_write(9, bits, 21, out, 6), 0, 0, 5);
    ALIKE(out, sheet);
    ANSWER(of_read(out, 5, read, 22), 0, 0, 9);
    ALIKE(read, bits);
    SAME(of_number(out, 5, 2).value, 6024);
    SAME(of_number(out, 5, 2).next, 4);
    ANSWER(of_number(out, 5, 2).answer, 0, 0, 0);
    ANSWER(of_number(out, 3, 2).answer, LOMUVERAN_NO_BYTE, 3, 0);
    SAME(of_number(out, 3, 2).value + of_number(out, 3, 2).next, 0);
}

/* the logs of three places: the network of two has its only bit at 1 */
static void logs(void) {
    static const uint16_t order[3] = {1, 2, 0};
    static const uint16_t of_three[45] = {1, 0, 3, 0, 2, 0, 3, 0, 3, 0, 3, 0, 1, 0, 3, 0, 2, 0, 3, 0, 3, 0, 3, 0,
                                          4, 0, 3, 0, 5, 0, 3, 0, 5, 0, 2, 1, 6, 0, 2, 1, 6, 0, 3, 0, 0xeeee};
    static const uint16_t mixed[13] = {7, 0, 2, 0, 7, 0, 1, 1, 7, 0, 2, 2, 0xeeee};
    static const uint16_t returned[13] = {7, 0, 2, 2, 7, 0, 1, 1, 7, 0, 2, 0, 0xeeee};
    uint8_t bits[3], blocks[3] = {0};
    uint16_t log[45], moves[13];
    memset(log, 0xee, sizeof log);
    memset(moves, 0xee, sizeof moves);
    ANSWER(of_set(order, 3, bits, 3, log, 44), 0, 0, 11);
    ALIKE(log, of_three);
    ANSWER(of_mix[0](3, 1, blocks, 3, bits, 3, moves, 12), 0, 0, 3);
    ALIKE(moves, mixed);
    ANSWER(of_mix[1](3, 1, blocks, 3, bits, 3, moves, 12), 0, 0, 3);
    ALIKE(moves, returned);
}

/* the refusals of these calls: the Rust tests ask them on many inputs */
static void refusals(void) {
    static const uint16_t twice[2] = {0, 0};
    static const uint32_t words[5] = {0xffffffff, 2, 1, 0, 7}; /* with three places left the first is skipped */
    static const uint16_t drawn[4] = {2, 0, 1, 9}, nines[4] = {9, 9, 9, 9};
    static const uint8_t one[3] = {1, 3, 0x0e}, surplus[3] = {1, 0, 0}, longer[4] = {1, 3, 0x86, 0};
    uint8_t bits[3] = {9, 9, 9}, blocks[2] = {1, 2};
    static const uint8_t kept[3] = {9, 9, 9}, still[2] = {1, 2}, set[1] = {1}, two[1] = {2};
    uint16_t log[8] = {0}, out[4] = {9, 9, 9, 9};
    ANSWER(lomuveran_control_bits(twice, 2, bits, 1, log, 8), LOMUVERAN_ENTRY, 1, 0);
    ANSWER(lomuveran_control_bits(twice, 2, bits, 2, log, 8), LOMUVERAN_BIT_COUNT, 0, 0);
    ANSWER(lomuveran_control_bits(twice, 2, bits, 1, log, 7), LOMUVERAN_LOG, 0, 0);
    ANSWER(lomuveran_apply(2, 1, blocks, 2, two, 1, log, 3), LOMUVERAN_LOG, 0, 0);
    ANSWER(lomuveran_apply(2, 0, blocks, 0, set, 1, log, 4), LOMUVERAN_WIDTH, 0, 0);
    ANSWER(lomuveran_apply(2, 2, blocks, 2, set, 1, log, 4), LOMUVERAN_BLOCKS, 0, 0);
    ANSWER(lomuveran_apply_inverse(2, 1, blocks, 2, two, 1, log, 4), LOMUVERAN_BIT, 0, 0);
    ANSWER(lomuveran_read_sheet(one, 3, bits, 3), LOMUVERAN_FILL, 2, 0);
    ANSWER(lomuveran_read_sheet(surplus, 3, bits, 3), LOMUVERAN_SURPLUS, 2, 0);
    ANSWER(lomuveran_read_sheet(longer, 4, bits, 3), LOMUVERAN_NUMBER, 2, 0);
    ANSWER(lomuveran_read_sheet(surplus + 1, 2, bits, 3), LOMUVERAN_FORM, 0, 0);
    ANSWER(lomuveran_write_sheet(2, set, 1, bits, 2), LOMUVERAN_OUTPUT, 0, 0);
    ALIKE(bits, kept);
    ALIKE(blocks, still);
    DRAWN(of_draw(LOMUVERAN_MAX_PLACES + 1, words, 5, out, 4), LOMUVERAN_TOO_MANY_PLACES, 0, 0);
    DRAWN(of_draw(3, words, 0, out, 2), LOMUVERAN_OUTPUT, 0, 0);
    DRAWN(of_draw(3, words, 3, out, 4), LOMUVERAN_WORDS_RUN_OUT, 0, 0);
    DRAWN(of_draw(1, words, 0, out, 4), LOMUVERAN_WORDS_RUN_OUT, 0, 0);
    DRAWN(of_draw(0, words, 0, out, 0), 0, 0, 0);
    ALIKE(out, nines);
    DRAWN(of_draw(3, words, 5, out, 4), 0, 3, 4);
    ALIKE(out, drawn);
}

/* ---- the chart: gauge 513 reads -7, 2 and 1, gauge 7 the least and the greatest that there can be, gauge 65535 the least */

#define LOW (-2147483647 - 1)
#define MOST ((size_t)-1)

static void charts(void) {
    static const uint8_t blocks[36] = {0x01, 0x02, 0xf9, 0xff, 0xff, 0xff, 0x07, 0x00, 0x00, 0x00, 0x00, 0x80,
                                       0x01, 0x02, 0x02, 0x00, 0x00, 0x00, 0xff, 0xff, 0x00, 0x00, 0x00, 0x80,
                                       0x07, 0x00, 0xff, 0xff, 0xff, 0x7f, 0x01, 0x02, 0x01, 0x00, 0x00, 0x00};
    static const struct {
        size_t n, width, bytes;
        uint16_t gauge;
        size_t number;
        int64_t six[6];
    } cases[] = {
        {6, 6, 36, 513, 0, {3, -7, 2, -4, -2, 2}},
        {6, 6, 36, 7, 0, {2, LOW, 2147483647, -1, -1, 1}},
        {6, 6, 36, 65535, 0, {1, LOW, LOW, LOW, LOW, 0}},
        {6, 6, 36, 258, 0, {0}},
        {0, 6, 0, 513, 0, {0}},
        {1025, 5, 36, 513, LOMUVERAN_TOO_MANY_PLACES, {0}},
        {MOST, 6, 36, 513, LOMUVERAN_TOO_MANY_PLACES, {0}},
        {6, 5, 30, 513, LOMUVERAN_WIDTH, {0}},
        {6, 7, 36, 513, LOMUVERAN_WIDTH, {0}},
        {6, MOST, 36, 513, LOMUVERAN_WIDTH, {0}},
        {6, 6, 35, 513, LOMUVERAN_BLOCKS, {0}},
        {1024, 6, 36, 513, LOMUVERAN_BLOCKS, {0}},
    };
    size_t i, k;
    for (i = 0; i < sizeof cases / sizeof *cases; i++) {
        const lomuveran_report is = of_report(cases[i].n, cases[i].width, blocks, cases[i].bytes, cases[i].gauge);
        const int64_t six[6] = {(int64_t)is.count, is.least, is.greatest, is.sum, is.mean, is.remainder};
        ANSWER(is.answer, cases[i].number, 0, 0);
        for (k = 0; k < 6; k++) SAME((size_t)six[k], (size_t)cases[i].six[k]);
    }
}

/* ---- listed orders: as many as there must be, each above the one before and a permutation, with the bits and the log of set */

static const size_t orders[7] = {1, 1, 2, 6, 24, 120, 720};

/* whether the first list of n entries stands before the second in a dictionary */
static int before(const uint16_t *first, const uint16_t *second, size_t n) {
    size_t i = 0;
    while (i < n && first[i] == second[i]) i++;
    return i < n && first[i] < second[i];
}

struct lent {
    uint16_t order[7], log[150];
    uint8_t bits[14];
};

static void listing(void) {
    struct lent is, must;
    uint16_t last[7] = {0};
    size_t n, r, w, words;
    for (n = 0; n <= LOMUVERAN_MAX_LISTED; n++) {
        w = of_count[0](n).count;
        words = 4 * of_count[1](n).count;
        for (r = 0; r < orders[n]; r++) {
            memset(&is, 0xee, sizeof is);
            must = is;
            ANSWER(of_rank(n, r, is.order, n + r % 2, is.bits, w, is.log, words + r % 2), 0, 0, words / 4);
            memcpy(must.order, is.order, 2 * n);
            ANSWER(of_set(is.order, n, must.bits, w, must.log, words), 0, 0, words / 4); /* so it is a permutation */
            alike(&is, &must, sizeof is, "a listed order and all around it", __LINE__);
            if (r > 0) SAME(before(last, is.order, n), 1);
            memcpy(last, is.order, sizeof last);
        }
    }
}

/* good and bad numbers for each question, all with all: the first no counts. No number is taken by its low bits */
static void not_listed(void) {
    static const size_t ns[4] = {3, 7, 1025, MOST}, rs[4] = {5, 6, 65536, MOST};
    static const size_t lens[4] = {3, 7, 2, 0}, counts[4] = {3, 2, 4, 14}, rooms[4] = {44, 150, 43, 33};
    struct lent is, was;
    size_t i, n, r, len, count, room, number;
    memset(&was, 0xee, sizeof was);
    for (i = 0; i < 1024; i++) {
        n = ns[i % 4], r = rs[i / 4 % 4], len = lens[i / 16 % 4], count = counts[i / 64 % 4], room = rooms[i / 256];
        number = n != 3       ? LOMUVERAN_NOT_LISTED
                 : r != 5     ? LOMUVERAN_PLACES
                 : len < 3    ? LOMUVERAN_OUTPUT
                 : count != 3 ? LOMUVERAN_BIT_COUNT
                 : room < 44  ? LOMUVERAN_LOG
                              : LOMUVERAN_ACCEPTED;
        is = was;
        ANSWER(of_rank(n, r, is.order, len, is.bits, count, is.log, room), number, 0, number ? 0 : 11);
        same(memcmp(&is, &was, sizeof is) == 0, number != 0, "nothing is written where it is refused", __LINE__);
    }
}

/* ---- permutations: every call with a good and a bad list, a list too long, and both records in their sequence */

static const uint16_t cycle[4] = {1, 2, 0, 77}, second[4] = {0, 2, 1, 77}, bad[4] = {1, 3, 0, 77};
static uint16_t large[1026], kept[1026]; /* 1024, 1023 .. 0, 77 */

static void permutations(void) {
    static const uint16_t identity[4] = {0, 1, 2, 77}, exchanged[4] = {0, 2, 1, 77};
    static const uint16_t inverse[4] = {2, 0, 1, 77}, combined[4] = {2, 1, 0, 77};
    uint16_t p[4];
#define FROM(list) memcpy(p, list, sizeof p)
    FROM(cycle);
    RECORD(of_fresh(p, 3), 0, 0, 3);
    ALIKE(p, identity);
    RECORD(of_inverse(p, 3, 3), 0, 0, 3);
    ALIKE(p, identity);
    RECORD(of_list(cycle, 3), 0, 0, 0);
    RECORD(of_list(second, 3), 0, 0, 1);
    RECORD(of_list(identity, 3), 0, 0, 3);
    FROM(cycle);
    RECORD(of_exchange(p, 3, 0, 0, 2), 0, 0, 1);
    ALIKE(p, exchanged);
    RECORD(of_exchange(p, 3, 1, 2, 1), 0, 0, 3);
    ALIKE(p, identity);
    RECORD(of_exchange(p, 3, 3, 1, 1), 0, 0, 3);
    ALIKE(p, identity);
    FROM(cycle);
    RECORD(of_combine(p, 3, 0, second, 3, 1), 0, 0, 1);
    ALIKE(p, combined);
    RECORD(of_combine(p, 3, 1, combined, 3, 1), 0, 0, 3);
    ALIKE(p, identity);
    FROM(cycle);
    RECORD(of_inverse(p, 3, 0), 0, 0, 0);
    ALIKE(p, inverse);
    ANSWER(of_home(cycle, 3, 0), 0, 0, 0);
    ANSWER(of_home(identity, 3, 3), 0, 0, 3);
}

static void bad_records(void) {
    uint16_t p[4];
    size_t fixed;
    RECORD(of_list(cycle, 4), LOMUVERAN_ENTRY, 3, 0);
    RECORD(of_list(bad, 3), LOMUVERAN_ENTRY, 1, 0);
    FROM(cycle);
    RECORD(of_exchange(p, 3, 0, 0, 3), LOMUVERAN_PLACES, 0, 0);
    RECORD(of_exchange(p, 3, 0, MOST, 0), LOMUVERAN_PLACES, 0, 0);
    RECORD(of_combine(p, 3, 0, second, 2, 1), LOMUVERAN_ENTRY, 1, 0);
    RECORD(of_combine(p, 3, 0, second, 1, 1), LOMUVERAN_LENGTHS, 0, 0);
    RECORD(of_combine(p, 3, 0, second, 1, 0), LOMUVERAN_ENTRY, 1024, 0); /* before 15 */
    RECORD(of_combine(p, 3, 0, large, 1025, 1), LOMUVERAN_TOO_MANY_PLACES, 0, 0);
    ALIKE(p, cycle);
    FROM(second);
    RECORD(of_exchange(p, 3, 1, 3, 0), LOMUVERAN_PLACES, 0, 1);
    RECORD(of_combine(p, 3, 1, cycle, 0, 0), LOMUVERAN_LENGTHS, 0, 1);
    RECORD(of_combine(p, 3, 1, bad, 3, 0), LOMUVERAN_ENTRY, 1, 1);
    RECORD(of_combine(p, 3, 1, large, 1025, 0), LOMUVERAN_TOO_MANY_PLACES, 0, 1);
    ALIKE(p, second);
    FROM(bad);
    for (fixed = 0; fixed < 6; fixed++) { /* a bad entry goes before any number, true or not */
        RECORD(of_exchange(p, 3, fixed, 9, 9), LOMUVERAN_ENTRY, 1, fixed);
        RECORD(of_combine(p, 3, fixed, second, 3, fixed), LOMUVERAN_ENTRY, 1, fixed);
        RECORD(of_combine(p, 4, fixed, large, 1025, fixed), LOMUVERAN_ENTRY, 3, fixed);
        RECORD(of_inverse(p, 3, fixed), LOMUVERAN_ENTRY, 1, fixed);
        ANSWER(of_home(p, 3, fixed), 0, 0, fixed);
    }
    ALIKE(p, bad);
}

static void long_records(void) {
    size_t i;
    RECORD(of_fresh(large, 1025), LOMUVERAN_TOO_MANY_PLACES, 0, 0);
    RECORD(of_list(large, 1025), LOMUVERAN_TOO_MANY_PLACES, 0, 0);
    RECORD(of_exchange(large, 1025, 1, 0, 1), LOMUVERAN_TOO_MANY_PLACES, 0, 1);
    RECORD(of_combine(large, 1025, 7, second, 3, 1), LOMUVERAN_TOO_MANY_PLACES, 0, 7);
    RECORD(of_inverse(large, 1025, MOST), LOMUVERAN_TOO_MANY_PLACES, 0, MOST);
    ANSWER(of_home(large, 1025, 1), LOMUVERAN_TOO_MANY_PLACES, 0, 0);
    ANSWER(of_home(large, 1024, 1024), 0, 0, 1024); /* not asked: 1024 is no entry of 1024 places */
    ALIKE(large, kept);
    RECORD(of_inverse(large + 1, 1024, 0), 0, 0, 0); /* 1023, 1022, .. is its own inverse */
    ALIKE(large, kept);
    for (i = 1; i < 1027; i++) RECORD(of_inverse(large + 1, 1024, i), LOMUVERAN_ENTRY, 1024, i);
    large[1024] = 1023; /* twice */
    RECORD(of_inverse(large + 1, 1024, 0), LOMUVERAN_ENTRY, 1023, 0);
    RECORD(of_exchange(large + 1, 1024, 1, 0, 1), LOMUVERAN_ENTRY, 1023, 1);
    large[1024] = 0;
    RECORD(of_exchange(large + 1, 1024, 0, 0, 1023), 0, 0, 2);
    SAME(large[1] == 0 && large[1024] == 1023 && large[1025] == 77 && large[0] == 1024, 1);
    RECORD(of_exchange(large + 1, 1024, 2, 1, 1022), 0, 0, 4);
    RECORD(of_list(large + 1, 1024), 0, 0, 4);
    ANSWER(of_home(large + 1, 1024, 4), 0, 0, 4);
    RECORD(of_fresh(large + 1, 1024), 0, 0, 1024);
    RECORD(of_inverse(large + 1, 1024, 1024), 0, 0, 1024);
    RECORD(of_combine(large + 1, 1024, 1024, kept + 1, 1024, 0), 0, 0, 0);
    ALIKE(large, kept);
}

/* ---- the number of a record: every wrong one of small records, alone and before what else is wrong */

/* list has is entries at home, and is handed in with another number */
static void wrong_number(const uint16_t *list, size_t n, size_t is, size_t fixed) {
    uint16_t p[6];
    FROM(list);
    RECORD(of_exchange(p, n, fixed, 0, 0), LOMUVERAN_ENTRY, 1024, fixed);
    RECORD(of_exchange(p, n, fixed, 0, n), LOMUVERAN_ENTRY, 1024, fixed); /* before 14 */
    RECORD(of_exchange(p, n, fixed, MOST, 0), LOMUVERAN_ENTRY, 1024, fixed);
    RECORD(of_inverse(p, n, fixed), LOMUVERAN_ENTRY, 1024, fixed);
    RECORD(of_combine(p, n, fixed, list, n, is), LOMUVERAN_ENTRY, 1024, fixed);
    RECORD(of_combine(p, n, fixed, list, n, fixed), LOMUVERAN_ENTRY, 1024, fixed);
    RECORD(of_combine(p, n, fixed, bad, 3, 0), LOMUVERAN_ENTRY, 1024, fixed); /* before all of the second record */
    RECORD(of_combine(p, n, fixed, large, 1025, 0), LOMUVERAN_ENTRY, 1024, fixed);
    RECORD(of_combine(p, n, fixed, kept + 1, 1024, 0), LOMUVERAN_ENTRY, 1024, fixed); /* before 15 */
    RECORD(of_combine(p, n, is, list, n, fixed), LOMUVERAN_ENTRY, 1024, is); /* of the second: the first's comes back */
    RECORD(of_combine(large + 1, 1024, 0, list, n, fixed), LOMUVERAN_ENTRY, 1024, 0);
    ANSWER(of_home(p, n, fixed), 0, 0, fixed);
    alike(p, list, sizeof p, "the entries of a record with a wrong number", __LINE__);
}

static void wrong_numbers(void) {
    static const uint16_t lists[4][6] = {{0, 1, 2, 3, 4, 5}, {1, 0, 2, 3, 4, 5}, {1, 0, 3, 2, 4, 5}, {4, 0, 1, 2, 3, 5}};
    size_t k, n, i, is, fixed, met = 0;
    for (k = 0; k < 4; k++) {
        for (n = 0; n < 7; n++) {
            if (of_list(lists[k], n).answer.number) continue;
            for (is = i = 0; i < n; i++) is += lists[k][i] == i;
            RECORD(of_list(lists[k], n), 0, 0, is);
            ANSWER(of_home(lists[k], n, is), 0, 0, is);
            for (fixed = 0; fixed < n + 2; fixed++)
                if (fixed != is) wrong_number(lists[k], n, is, fixed);
            wrong_number(lists[k], n, is, is + 65536); /* no number is taken by its low bits */
            wrong_number(lists[k], n, is, is + ((size_t)1 << 32));
            wrong_number(lists[k], n, is, MOST);
            met++;
        }
    }
    SAME(met, 21);
    ALIKE(large, kept);
}

int main(void) {
    size_t i;
    layout();
    mixing();
    logs();
    refusals();
    charts();
    listing();
    not_listed();
    for (i = 0; i < 1026; i++) large[i] = kept[i] = (uint16_t)(i < 1025 ? 1024 - i : 77);
    permutations();
    bad_records();
    long_records();
    wrong_numbers();
    printf("compared %d answers and buffers from C, %d wrong\n", compared, wrong);
    return wrong != 0;
}
