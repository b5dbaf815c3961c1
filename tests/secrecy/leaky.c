// Controls that the check must catch: the library's mix in the paper's wiring and in the neighbour wiring, its listed order and its
// converter, with a leak behind them (LEAK: 1 a jump on a bit, or on the order's number, 2 an address from it, 3 to 6 the first to
// the fourth word of an entry of the log from it, 7 the converter's count). Linked with --wrap for each.
#include "lomuveran.h"

#define LOGGED (LEAK > 2 && LEAK < 7)
#define WORD ((LEAK + 1) % 4)

static volatile uint8_t table[256], sink;

#define LEAKY_MIX(call) \
    lomuveran_answer __real_##call(size_t n, size_t width, uint8_t *blocks, size_t block_bytes, const uint8_t *bits, \
                                   size_t bit_count, uint16_t *log, size_t log_words); \
    lomuveran_answer __wrap_##call(size_t n, size_t width, uint8_t *blocks, size_t block_bytes, const uint8_t *bits, \
                                   size_t bit_count, uint16_t *log, size_t log_words) { \
        lomuveran_answer r = __real_##call(n, width, blocks, block_bytes, bits, bit_count, log, log_words); \
        for (size_t i = 0; i < bit_count; i++) { \
            if (LEAK == 1 && bits[i]) sink = 1; \
            if (LEAK == 2) sink = table[bits[i]]; \
            if (LOGGED) log[4 * i + WORD] ^= bits[i]; \
        } \
        return r; \
    }
LEAKY_MIX(lomuveran_apply)
LEAKY_MIX(lomuveran_neighbour_apply)

lomuveran_answer __real_lomuveran_to_neighbour(size_t n, const uint8_t *given, size_t given_count, uint8_t *out, size_t out_count);

lomuveran_answer __wrap_lomuveran_to_neighbour(size_t n, const uint8_t *given, size_t given_count, uint8_t *out, size_t out_count) {
    lomuveran_answer r = __real_lomuveran_to_neighbour(n, given, given_count, out, out_count);
    for (size_t i = 0; i < given_count; i++) {
        if (LEAK == 1 && given[i]) sink = 1;
        if (LEAK == 2) sink = table[given[i]];
        if (LEAK == 7) r.count ^= given[i];
    }
    return r;
}

lomuveran_answer __real_lomuveran_ranked_order(size_t n, size_t r, uint16_t *order, size_t order_len, uint8_t *bits, size_t bit_count,
                                               uint16_t *log, size_t log_words);

lomuveran_answer __wrap_lomuveran_ranked_order(size_t n, size_t r, uint16_t *order, size_t order_len, uint8_t *bits, size_t bit_count,
                                               uint16_t *log, size_t log_words) {
    lomuveran_answer a = __real_lomuveran_ranked_order(n, r, order, order_len, bits, bit_count, log, log_words);
    if (LEAK == 1 && (r & 1)) sink = 1;
    if (LEAK == 2) sink = table[r & 255];
    if (LOGGED && log_words) log[WORD] ^= (uint16_t)r;
    return a;
}
