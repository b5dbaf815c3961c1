/* Lomuveran: a block mixer. The C interface of the static library libcapi.a, which `tools/library` puts into
 * target/staticlib/ (Linux on x86-64-v2: processors with SSE4.2).
 *
 * Each call asks its questions in a fixed sequence and answers the number of the first that gets a no; success is number 0.
 * A refused call writes nothing, an accepted one nothing beyond what is said here. Any number, any length and any contents may
 * be handed in: what does not fit is refused (but permutation_fixed_points tells whatever number it is handed).
 *
 * What the caller owes, as everywhere in C: a pointer is aligned, is not NULL even where the length behind it is 0, and points
 * to as many items as that length says; what a call may write overlaps nothing else that the same call is handed.
 *
 * Stack: at 1,024 places the calls need at most 13 KB of it (control_bits and neighbour_control_bits 12.9, ranked_order 9.6 at 6 places,
 * permutation_combine 8.6, permutation_exchange and permutation_inverse 6.6, shuffle and permutation_identity 4.5, write_sheet 3.1,
 * apply, apply_inverse, neighbour_apply and neighbour_apply_inverse 1.9, read_sheet 1.7, the others 0.5 or less), but to_neighbour
 * and to_paper 149.1, since they keep a setter's log aside, as bench/stack reads from the object code. For a thread allow 24 KB, for
 * to_neighbour and to_paper 155 KB, which holds the C library's own needs too: its first memcpy, where it is linked dynamically,
 * takes some KB more (control_bits and neighbour_control_bits ran in 17 KB and not in 16, to_neighbour and to_paper in 147 and not
 * in 146; the calls on permutations, ranked_order, apply, apply_inverse, neighbour_apply, neighbour_apply_inverse, shuffle,
 * write_sheet and read_sheet in 16). No heap. */
#ifndef LOMUVERAN_H
#define LOMUVERAN_H

#include <stddef.h>
#include <stdint.h>

#ifdef __cplusplus
extern "C" {
#endif

/* The most places, and what they need: bits, entries of the setter's log, bytes of a sheet. An entry is 4 words. Of the setter: a
 * kind from 1 to 6, the first place and the number of places of its network, and where in the setting the network's first bit stands.
 * Of mix and return: 7, the lower and the upper place of its switch, and where its bit stands. So a log can be replayed from any
 * entry on. */
#define LOMUVERAN_MAX_PLACES 1024
#define LOMUVERAN_MAX_WIDTH 256
#define LOMUVERAN_MAX_SWITCHES 9217
#define LOMUVERAN_MAX_ENTRIES 16381
#define LOMUVERAN_MAX_SHEET 1320

/* The most places whose orders are listed. */
#define LOMUVERAN_MAX_LISTED 6

/* The questions, named by their no. */
enum {
    LOMUVERAN_ACCEPTED = 0,
    LOMUVERAN_TOO_MANY_PLACES = 1, /* is n at most 1,024? */
    LOMUVERAN_WIDTH = 2,           /* is the block width 1 to 256 bytes (of a gauge's report: 6)? */
    LOMUVERAN_BLOCKS = 3,          /* do the blocks fill exactly n * width bytes? */
    LOMUVERAN_BIT_COUNT = 4,       /* are there exactly as many bit bytes as switches (reading a sheet: at least)? */
    LOMUVERAN_LOG = 5,             /* has the log at least 4 words for each entry due? */
    LOMUVERAN_ENTRY = 6,           /* is each entry below n and unlike all earlier ones? place: the first bad index. Then, of a
                                    * record: is its number how many entries stay home? place: 1,024 */
    LOMUVERAN_BIT = 7,             /* is every bit byte 0 or 1? place: the first bad index */
    LOMUVERAN_NO_BYTE = 8,         /* does the input hold the number's next byte? place: the input's length */
    LOMUVERAN_NUMBER = 9,          /* is the number in its shortest form, at most two bytes? place: its first byte */
    LOMUVERAN_FORM = 10,           /* is the form number 1? */
    LOMUVERAN_FILL = 11,           /* are the fill bits 0? place: the last number's first byte */
    LOMUVERAN_SURPLUS = 12,        /* does the input end there? place: the first surplus byte */
    LOMUVERAN_OUTPUT = 13,         /* is the output long enough (of a listed order: has its list n entries)? */
    LOMUVERAN_PLACES = 14,         /* are both exchanged places below the length (of a listed order: is r below the number of
                                    * orders)? */
    LOMUVERAN_LENGTHS = 15,        /* have both orders one length? */
    /* 16 is withdrawn: no call asks it, and its number is not used again */
    LOMUVERAN_NOT_LISTED = 17,     /* is n at most 6, so that its orders are listed? */
    LOMUVERAN_WORDS_RUN_OUT = 18   /* are there words enough to draw the last place? */
};

/* number: 0, or that of the question that got a no; place: where, 0 unless the question names one; count: what the call
 * reports, 0 where it is refused. */
typedef struct lomuveran_answer {
    size_t number;
    size_t place;
    size_t count;
} lomuveran_answer;

/* ---- how large the buffers must be. Question 1. Count: switches, so bits, of n places; entries that the setter logs for n
 * places. apply and apply_inverse log one entry for each switch. */
lomuveran_answer lomuveran_switches(size_t n);
lomuveran_answer lomuveran_entries(size_t n);

/* ---- set, mix, return */

/* Set: the control bits of an order, a byte to a bit. order[i] is the place to which the block at place i goes.
 * bit_count: exactly the switches of order_len places; log_words: at least 4 for each entry of the setter.
 * Questions 1, 4, 5, 6. Count: the entries logged. */
lomuveran_answer lomuveran_control_bits(const uint16_t *order, size_t order_len, uint8_t *bits, size_t bit_count,
                                        uint16_t *log, size_t log_words);

/* Mix: moves n blocks of width bytes through the network, in place. block_bytes: n * width; bit_count: exactly the switches
 * of n places; log_words: at least 4 for each switch. Questions 1, 2, 3, 4, 5, 7. Count: the entries logged. */
lomuveran_answer lomuveran_apply(size_t n, size_t width, uint8_t *blocks, size_t block_bytes, const uint8_t *bits,
                                 size_t bit_count, uint16_t *log, size_t log_words);

/* Return: moves them back. As lomuveran_apply. */
lomuveran_answer lomuveran_apply_inverse(size_t n, size_t width, uint8_t *blocks, size_t block_bytes, const uint8_t *bits,
                                         size_t bit_count, uint16_t *log, size_t log_words);

/* used: the words that a draw used, skipped ones included, from the first on; 0 where the call is refused. */
typedef struct lomuveran_drawn {
    lomuveran_answer answer;
    size_t used;
} lomuveran_drawn;

/* Draw: an order of n places from random words, over the front of out. Each place takes a word. With d places left, a word at or
 * above the largest multiple of d that doesn't exceed 2^32 is skipped and the next one tried, so that each of the d remainders
 * comes from equally many words. out_len: at least n. Any number of words may be lent: fewer than n never do, n + 64 do but for a
 * chance below 2^-1000. Refused by 18, nothing was drawn: lend the same words with more behind them. Accepted, the words used are
 * spent, and another draw begins at words + used. Questions 1, 13, 18. The answer's count: n. */
lomuveran_drawn lomuveran_shuffle(size_t n, const uint32_t *words, size_t word_count, uint16_t *out, size_t out_len);

/* Every order of a few places, n at most LOMUVERAN_MAX_LISTED: of all orders of n places in dictionary order (0 to 6 places have
 * 1, 1, 2, 6, 24, 120, 720 of them) the one of number r, counted from 0, over the front of order; its control bits and the log
 * are those of lomuveran_control_bits. order_len: at least n; bit_count: exactly the switches of n places; log_words: at least 4
 * for each entry of the setter. r tells the order, so it is treated as a secret: the one decision that follows it is question
 * 14's. Questions 17, 14, 13, 4, 5. Count: the entries logged. */
lomuveran_answer lomuveran_ranked_order(size_t n, size_t r, uint16_t *order, size_t order_len, uint8_t *bits, size_t bit_count,
                                        uint16_t *log, size_t log_words);

/* ---- the neighbour wiring: that of the bought archive. Switches join neighbours, places 2i and 2i + 1, and the halves of a network
 * are its even and its odd places, where they lie; the paper's wiring, that of the calls above, joins i and half of n further.
 * An order has another setting in each wiring, of the same length, and a setting does not say which one it is of: who mixed with
 * these calls must return with these. Listed orders, sheets and the programs are in the paper's wiring. */

/* Set, mix and return in the neighbour wiring: what is lent, the questions and the counts as of the calls above. */
lomuveran_answer lomuveran_neighbour_control_bits(const uint16_t *order, size_t order_len, uint8_t *bits, size_t bit_count,
                                                  uint16_t *log, size_t log_words);
lomuveran_answer lomuveran_neighbour_apply(size_t n, size_t width, uint8_t *blocks, size_t block_bytes, const uint8_t *bits,
                                           size_t bit_count, uint16_t *log, size_t log_words);
lomuveran_answer lomuveran_neighbour_apply_inverse(size_t n, size_t width, uint8_t *blocks, size_t block_bytes,
                                                   const uint8_t *bits, size_t bit_count, uint16_t *log, size_t log_words);

/* The converter: the setting of the same order in the other wiring, as control_bits of that wiring sets it, over all of out.
 * to_neighbour is given a setting of the paper's wiring, to_paper one of the neighbour wiring; any bits are taken, not only those
 * that were set. given_count and out_count: exactly the switches of n places. The bits are treated as secrets: the one decision
 * that follows them is question 7's. Keeps no log. Questions 1, 4 of given, 4 of out, 7. Count: 0. */
lomuveran_answer lomuveran_to_neighbour(size_t n, const uint8_t *given, size_t given_count, uint8_t *out, size_t out_count);
lomuveran_answer lomuveran_to_paper(size_t n, const uint8_t *given, size_t given_count, uint8_t *out, size_t out_count);

/* ---- sheets */

/* The sheet of a setting, over the front of out. Questions 1, 4, 7, 13. Count: the bytes written. */
lomuveran_answer lomuveran_write_sheet(size_t n, const uint8_t *bits, size_t bit_count, uint8_t *out, size_t out_len);

/* The setting of a sheet, over the front of bits. Questions 8, 9, 10; 8, 9, 1; 4; 8, 9 of each number; 11, 12. Count: n. */
lomuveran_answer lomuveran_read_sheet(const uint8_t *input, size_t input_len, uint8_t *bits, size_t bit_count);

/* A number of one or two bytes at a place of the input. Questions 8, 9. value: the number; next: the place after it; both 0
 * where the call is refused. */
typedef struct lomuveran_number {
    lomuveran_answer answer;
    size_t value;
    size_t next;
} lomuveran_number;

lomuveran_number lomuveran_read_number(const uint8_t *input, size_t input_len, size_t at);

/* ---- the chart */

/* The figures of a gauge. count: its readings; mean: their sum / count, rounded towards minus infinity; remainder:
 * sum - mean * count. All six are 0 where the call is refused, and where no block is of the gauge. */
typedef struct lomuveran_report {
    lomuveran_answer answer;
    size_t count;
    int64_t least;
    int64_t greatest;
    int64_t sum;
    int64_t mean;
    int64_t remainder;
} lomuveran_report;

/* The figures of a gauge in n blocks as they lie, mixed or at home. A block is 6 bytes: a gauge number of 16 bits and a reading
 * in microstrain of 32 bits with a sign, low byte first in both. block_bytes: n * 6. Questions 1, 2 (is the width 6?), 3.
 * The answer's count: 0. */
lomuveran_report lomuveran_gauge_report(size_t n, size_t width, const uint8_t *blocks, size_t block_bytes, uint16_t gauge);

/* ---- permutations: a record is its len entries and fixed, the number of those that stay home (entry i is i). Both are handed
 * in; an accepted call leaves the new entries in those that it was lent to write and gives their number, which is the true one.
 * Each but fixed_points asks 1 and 6 of every record that it is handed, the first one first. 6 asks of all entries, then of the
 * number, which is refused at place 1,024 where it is wrong. Count 0, but for fixed_points. */

/* fixed: of the new record; where the call is refused that of the first record, as it was handed in, or 0 where none was. */
typedef struct lomuveran_record {
    lomuveran_answer answer;
    size_t fixed;
} lomuveran_record;

/* Each place to itself. Question 1. */
lomuveran_record lomuveran_permutation_identity(uint16_t *entries, size_t len);

/* Whether a list is a permutation of at most 1,024 places: it is then one as it stands, with the number given. Questions 1, 6. */
lomuveran_record lomuveran_permutation_from_list(const uint16_t *list, size_t len);

/* Entries i and j exchanged. Then question 14. */
lomuveran_record lomuveran_permutation_exchange(uint16_t *entries, size_t len, size_t fixed, size_t i, size_t j);

/* First, then second: first[i] becomes second[first[i]]. Then question 15. */
lomuveran_record lomuveran_permutation_combine(uint16_t *first, size_t first_len, size_t first_fixed, const uint16_t *second,
                                               size_t second_len, size_t second_fixed);

/* The inverse. */
lomuveran_record lomuveran_permutation_inverse(uint16_t *entries, size_t len, size_t fixed);

/* Count: fixed, true or not. Question 1 only: the entries are not looked at, so even what is no permutation is not refused, and
 * the time does not grow with len. */
lomuveran_answer lomuveran_permutation_fixed_points(const uint16_t *entries, size_t len, size_t fixed);

#ifdef __cplusplus
}
#endif

#endif
