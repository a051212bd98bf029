/* Hazgunek: the exported calls of the static library (`rt lib` in crates/abi), for C and for what reads C.
 *
 * Each function answers 0, or the number by which it turned the call down; docs/PARTS.md lists the numbers and the length of
 * every lent part. A pointer is never null and points to as many elements as its length says, to one where it has no length; a
 * length of 0 still wants a pointer that is not null. Two parts of one call do not overlap.
 *
 * Kept in step with crates/abi/src/ by hand. */
#ifndef HAZGUNEK_H
#define HAZGUNEK_H

#include <stddef.h>
#include <stdint.h>

#ifdef __cplusplus
extern "C" {
#endif

/* The field of 32 elements: polynomials over two elements modulo x^5 + x^2 + 1, an element's coefficients being its binary digits. */

/* *product = a times b. 8: a or b is above 31; *product is left as it was. */
uint8_t hazgunek_mul(uint8_t a, uint8_t b, uint8_t *product);

/* *inverse = the element whose product with a is 1. 8: a is 0 or above 31; *inverse is left as it was. */
uint8_t hazgunek_inv(uint8_t a, uint8_t *inverse);

/* SplitMix64: the next draws_len draws from *state, in order, and the state after them in *state. Nothing is turned down. */
uint8_t hazgunek_draws(uint64_t *state, uint64_t *draws, size_t draws_len);

/* Codes: n variables, m checks, and edges between them with coefficients from the field. */

/* degrees[v] = the degree of variable v where e edges are spread over n variables as evenly as possible, the higher degrees first.
 * 2: n is above 256. 3: degrees_len is not n. Both leave degrees as it was. */
uint8_t hazgunek_even_degrees(size_t n, size_t e, size_t *degrees, size_t degrees_len);

/* The lengths of the parts of a code, and of those that hazgunek_new works in. */
#define HAZGUNEK_EDGES 512
#define HAZGUNEK_STARTS 257
#define HAZGUNEK_POSITIONS 256
#define HAZGUNEK_TABLE 16384
#define HAZGUNEK_PAIRS 65536

/* The parts of a code, with room for every code that is allowed. An entry that is not used is 0. n and m are not among them: the
 * caller keeps them. */
struct hazgunek_code {
    size_t edges;                        /* the number of edges */
    size_t rank;                         /* the number of parity positions */
    uint16_t var[HAZGUNEK_EDGES];        /* the variable of each edge, edges grouped by check */
    uint8_t coef[HAZGUNEK_EDGES];        /* the coefficient of each edge, 1 to 31 */
    uint16_t row[HAZGUNEK_STARTS];       /* where the edges of each check start; entry m is the number of edges */
    uint16_t start[HAZGUNEK_STARTS];     /* where the list of each variable starts in col; entry n is the number of edges */
    uint16_t col[HAZGUNEK_EDGES];        /* for each variable in turn, the places of its edges */
    uint16_t order[HAZGUNEK_POSITIONS];  /* the order in which elimination takes the columns */
    uint16_t parity[HAZGUNEK_POSITIONS]; /* the parity positions, in the order found */
    uint16_t info[HAZGUNEK_POSITIONS];   /* the n - rank information positions, ascending */
    uint8_t a[HAZGUNEK_TABLE];           /* row i, at i * (n - rank): the factor of each information symbol in parity symbol i */
};

/* What hazgunek_new works in. Any values may stand in it before a call. */
struct hazgunek_new_work {
    uint8_t chk[HAZGUNEK_PAIRS];
    uint16_t load[HAZGUNEK_POSITIONS];
    uint8_t own[HAZGUNEK_PAIRS];
    uint16_t deg[HAZGUNEK_POSITIONS];
};

/* The arguments for the parts of a code, each with its length: `code` points to a struct hazgunek_code. The second form begins with
 * the pointers to its two numbers, for a call that builds a code. */
#define HAZGUNEK_CODE_PARTS(code) \
    (code)->var, HAZGUNEK_EDGES, (code)->coef, HAZGUNEK_EDGES, (code)->row, HAZGUNEK_STARTS, (code)->start, HAZGUNEK_STARTS, \
    (code)->col, HAZGUNEK_EDGES, (code)->order, HAZGUNEK_POSITIONS, (code)->parity, HAZGUNEK_POSITIONS, \
    (code)->info, HAZGUNEK_POSITIONS, (code)->a, HAZGUNEK_TABLE
#define HAZGUNEK_NEW_CODE(code) &(code)->edges, &(code)->rank, HAZGUNEK_CODE_PARTS(code)

/* The arguments for the work parts of hazgunek_new: `work` points to a struct hazgunek_new_work. */
#define HAZGUNEK_NEW_WORK(work) \
    (work)->chk, HAZGUNEK_PAIRS, (work)->load, HAZGUNEK_POSITIONS, (work)->own, HAZGUNEK_PAIRS, (work)->deg, HAZGUNEK_POSITIONS

/* Builds the code of n variables and m checks by progressive edge growth from seed, variable v having degrees[v] edges, and
 * eliminates from column n - 1 down to 0. With a code and work of the structs above:
 *
 *     number = hazgunek_new(n, m, seed, degrees, n, HAZGUNEK_NEW_CODE(&code), HAZGUNEK_NEW_WORK(&work));
 *
 * 2: n or m is above 256. 3: degrees_len is not n, or another part has not its length; 2 and 3 touch nothing. 4: the degrees sum to
 * more than 512. 5: a degree is above m. 4 and 5 leave the code as it was. The work parts are all zero after 4, 5 and 0. */
uint8_t hazgunek_new(size_t n, size_t m, uint64_t seed, const size_t *degrees, size_t degrees_len, size_t *edges, size_t *rank,
                     uint16_t *var, size_t var_len, uint8_t *coef, size_t coef_len, uint16_t *row, size_t row_len,
                     uint16_t *start, size_t start_len, uint16_t *col, size_t col_len, uint16_t *order, size_t order_len,
                     uint16_t *parity, size_t parity_len, uint16_t *info, size_t info_len, uint8_t *a, size_t a_len,
                     uint8_t *chk, size_t chk_len, uint16_t *load, size_t load_len, uint8_t *own, size_t own_len,
                     uint16_t *deg, size_t deg_len);

/* Words of a code. Each call below first tests the lent code, whatever stands in its parts, and works in two parts. With a code and
 * work of the structs here, and k information symbols:
 *
 *     number = hazgunek_encode(HAZGUNEK_CODE(n, m, &code), syms, k, word, n, HAZGUNEK_WORK(&work));
 *
 * 2: n or m is above 256. 3: a part has not its length; 2 and 3 touch nothing. 6: the lent code is no graph with a column order.
 * 7: its parity, information or table is not what elimination gives. 6 to 8 leave every output as it was. The work parts are all zero
 * after 6, 7, 8 and 0. docs/PARTS.md has the numbers in full. */

/* What the test of a lent code works in. Any values may stand in it before a call. */
struct hazgunek_work {
    uint8_t h[HAZGUNEK_PAIRS];
    uint16_t pivots[HAZGUNEK_POSITIONS];
};

/* The arguments for a lent code, and for the work parts: `code` points to a struct hazgunek_code, `work` to a struct hazgunek_work. */
#define HAZGUNEK_CODE(n, m, code) (n), (m), (code)->edges, (code)->rank, HAZGUNEK_CODE_PARTS(code)
#define HAZGUNEK_WORK(work) (work)->h, HAZGUNEK_PAIRS, (work)->pivots, HAZGUNEK_POSITIONS

/* word[0] to word[n - 1] = the encoding of the given symbols, each mod 32, missing ones 0. 8: syms_len is above n - rank. */
uint8_t hazgunek_encode(size_t n, size_t m, size_t edges, size_t rank, const uint16_t *var, size_t var_len,
                        const uint8_t *coef, size_t coef_len, const uint16_t *row, size_t row_len,
                        const uint16_t *start, size_t start_len, const uint16_t *col, size_t col_len,
                        const uint16_t *order, size_t order_len, const uint16_t *parity, size_t parity_len,
                        const uint16_t *info, size_t info_len, const uint8_t *a, size_t a_len,
                        const uint8_t *syms, size_t syms_len, uint8_t *word, size_t word_len,
                        uint8_t *h, size_t h_len, uint16_t *pivots, size_t pivots_len);

/* The word's information symbols to the front of syms, which has n entries, the rest 0; *count = how many they are. 8: a symbol of the
 * word is above 31. */
uint8_t hazgunek_info_of(size_t n, size_t m, size_t edges, size_t rank, const uint16_t *var, size_t var_len,
                         const uint8_t *coef, size_t coef_len, const uint16_t *row, size_t row_len,
                         const uint16_t *start, size_t start_len, const uint16_t *col, size_t col_len,
                         const uint16_t *order, size_t order_len, const uint16_t *parity, size_t parity_len,
                         const uint16_t *info, size_t info_len, const uint8_t *a, size_t a_len,
                         const uint8_t *word, size_t word_len, size_t *count, uint8_t *syms, size_t syms_len,
                         uint8_t *h, size_t h_len, uint16_t *pivots, size_t pivots_len);

/* *ok = 1 where the word satisfies all checks, 0 where not. 8: a symbol of the word is above 31. */
uint8_t hazgunek_checks_ok(size_t n, size_t m, size_t edges, size_t rank, const uint16_t *var, size_t var_len,
                           const uint8_t *coef, size_t coef_len, const uint16_t *row, size_t row_len,
                           const uint16_t *start, size_t start_len, const uint16_t *col, size_t col_len,
                           const uint16_t *order, size_t order_len, const uint16_t *parity, size_t parity_len,
                           const uint16_t *info, size_t info_len, const uint8_t *a, size_t a_len,
                           const uint8_t *word, size_t word_len, uint8_t *ok,
                           uint8_t *h, size_t h_len, uint16_t *pivots, size_t pivots_len);

/* *degree = how many edges variable v has. 8: v is not below n. */
uint8_t hazgunek_degree(size_t n, size_t m, size_t edges, size_t rank, const uint16_t *var, size_t var_len,
                        const uint8_t *coef, size_t coef_len, const uint16_t *row, size_t row_len,
                        const uint16_t *start, size_t start_len, const uint16_t *col, size_t col_len,
                        const uint16_t *order, size_t order_len, const uint16_t *parity, size_t parity_len,
                        const uint16_t *info, size_t info_len, const uint8_t *a, size_t a_len,
                        size_t v, size_t *degree,
                        uint8_t *h, size_t h_len, uint16_t *pivots, size_t pivots_len);

/* *k = how many information positions the code has. */
uint8_t hazgunek_k(size_t n, size_t m, size_t edges, size_t rank, const uint16_t *var, size_t var_len,
                   const uint8_t *coef, size_t coef_len, const uint16_t *row, size_t row_len,
                   const uint16_t *start, size_t start_len, const uint16_t *col, size_t col_len,
                   const uint16_t *order, size_t order_len, const uint16_t *parity, size_t parity_len,
                   const uint16_t *info, size_t info_len, const uint8_t *a, size_t a_len,
                   size_t *k,
                   uint8_t *h, size_t h_len, uint16_t *pivots, size_t pivots_len);

/* *symbols = how many symbols the code's words have. */
uint8_t hazgunek_n(size_t n, size_t m, size_t edges, size_t rank, const uint16_t *var, size_t var_len,
                   const uint8_t *coef, size_t coef_len, const uint16_t *row, size_t row_len,
                   const uint16_t *start, size_t start_len, const uint16_t *col, size_t col_len,
                   const uint16_t *order, size_t order_len, const uint16_t *parity, size_t parity_len,
                   const uint16_t *info, size_t info_len, const uint8_t *a, size_t a_len,
                   size_t *symbols,
                   uint8_t *h, size_t h_len, uint16_t *pivots, size_t pivots_len);

/* The information positions, ascending, to the front of positions, which has n entries, the rest 0; *count = how many they are. */
uint8_t hazgunek_info_positions(size_t n, size_t m, size_t edges, size_t rank, const uint16_t *var, size_t var_len,
                                const uint8_t *coef, size_t coef_len, const uint16_t *row, size_t row_len,
                                const uint16_t *start, size_t start_len, const uint16_t *col, size_t col_len,
                                const uint16_t *order, size_t order_len, const uint16_t *parity, size_t parity_len,
                                const uint16_t *info, size_t info_len, const uint8_t *a, size_t a_len,
                                size_t *count, uint16_t *positions, size_t positions_len,
                                uint8_t *h, size_t h_len, uint16_t *pivots, size_t pivots_len);

/* Peeling of a code, with nothing known at first: while some check has exactly one unknown symbol, that symbol follows; when none has,
 * an unknown symbol is picked. It is the one that frees the most checks, those where it would leave one unknown symbol; of these the one
 * with the highest preference; of these the one at the highest position. Both calls take a preference for each of the n symbols, test
 * the lent code as the calls on words do, and are turned down by 2, 3, 6 and 7 as those are. */

/* The picks, in order, to the front of picks, which has n entries, the rest 0; *count = how many they are. */
uint8_t hazgunek_peel_picks(size_t n, size_t m, size_t edges, size_t rank, const uint16_t *var, size_t var_len,
                            const uint8_t *coef, size_t coef_len, const uint16_t *row, size_t row_len,
                            const uint16_t *start, size_t start_len, const uint16_t *col, size_t col_len,
                            const uint16_t *order, size_t order_len, const uint16_t *parity, size_t parity_len,
                            const uint16_t *info, size_t info_len, const uint8_t *a, size_t a_len,
                            const int64_t *prefer, size_t prefer_len, size_t *count, uint16_t *picks, size_t picks_len,
                            uint8_t *h, size_t h_len, uint16_t *pivots, size_t pivots_len);

/* The arguments for a lent code that is written over: `code` points to a struct hazgunek_code. */
#define HAZGUNEK_PEELED_CODE(n, m, code) (n), (m), (code)->edges, &(code)->rank, HAZGUNEK_CODE_PARTS(code)

/* Chooses the information positions by peeling: eliminates the code again, first in the columns that are not picked, ascending, then in
 * the picks, reversed. The code's words stay the same. order, parity, info, a and *rank are read and written over; 2, 3, 6 and 7 leave
 * them as they were. The other parts of the code are only read. With a code and work of the structs above:
 *
 *     number = hazgunek_with_peeled_info(HAZGUNEK_PEELED_CODE(n, m, &code), prefer, n, HAZGUNEK_WORK(&work)); */
uint8_t hazgunek_with_peeled_info(size_t n, size_t m, size_t edges, size_t *rank, const uint16_t *var, size_t var_len,
                                  const uint8_t *coef, size_t coef_len, const uint16_t *row, size_t row_len,
                                  const uint16_t *start, size_t start_len, const uint16_t *col, size_t col_len,
                                  uint16_t *order, size_t order_len, uint16_t *parity, size_t parity_len,
                                  uint16_t *info, size_t info_len, uint8_t *a, size_t a_len,
                                  const int64_t *prefer, size_t prefer_len,
                                  uint8_t *h, size_t h_len, uint16_t *pivots, size_t pivots_len);

/* Decoding by belief propagation. metrics has 32 log-likelihoods for each of the n symbols, value by value, of any floats: a NaN counts
 * for nothing, and 32 values that are all alike, all NaN or with one plus infinity say nothing of their symbol. The first `known`
 * information positions may have any symbol, the later ones are known to be 0; a number above n - rank counts as n - rank. Both calls
 * test the lent code as the calls on words do, and are turned down by 2, 3, 6 and 7 as those are. *rounds is written whatever the
 * number: the number of the first round that satisfied all checks, the limit under 10, otherwise 0. */

/* The length of the work part of vectors: 32 * (256 + 512 + 512 + 32 + 256). */
#define HAZGUNEK_VECTORS 50176

/* What a decoding works in beside the two work parts of the code's test. Any values may stand in it before a call. */
struct hazgunek_vectors {
    float vectors[HAZGUNEK_VECTORS];
};

#define HAZGUNEK_DECODING_WORK(work, floats) HAZGUNEK_WORK(work), (floats)->vectors, HAZGUNEK_VECTORS

/* word = the word, where one of `limit` rounds satisfies all checks; posteriors = the last round's, 32 for each symbol, 0 where no round
 * was made. 9: limit is not 0 and a check has more than 32 edges. 10: no round satisfied all checks; word is left as it was, posteriors
 * are written. 2, 3, 6, 7 and 9 leave both as they were. With a code and work of the structs above:
 *
 *     number = hazgunek_decode_soft(HAZGUNEK_CODE(n, m, &code), metrics, 32 * n, known, 100, &rounds, word, n, posteriors, 32 * n,
 *                                   HAZGUNEK_DECODING_WORK(&work, &floats)); */
uint8_t hazgunek_decode_soft(size_t n, size_t m, size_t edges, size_t rank, const uint16_t *var, size_t var_len,
                             const uint8_t *coef, size_t coef_len, const uint16_t *row, size_t row_len,
                             const uint16_t *start, size_t start_len, const uint16_t *col, size_t col_len,
                             const uint16_t *order, size_t order_len, const uint16_t *parity, size_t parity_len,
                             const uint16_t *info, size_t info_len, const uint8_t *a, size_t a_len,
                             const float *metrics, size_t metrics_len, uint32_t known, uint32_t limit, uint32_t *rounds,
                             uint8_t *word, size_t word_len, float *posteriors, size_t posteriors_len,
                             uint8_t *h, size_t h_len, uint16_t *pivots, size_t pivots_len, float *vectors, size_t vectors_len);

/* The same without the posteriors. */
uint8_t hazgunek_decode(size_t n, size_t m, size_t edges, size_t rank, const uint16_t *var, size_t var_len,
                        const uint8_t *coef, size_t coef_len, const uint16_t *row, size_t row_len,
                        const uint16_t *start, size_t start_len, const uint16_t *col, size_t col_len,
                        const uint16_t *order, size_t order_len, const uint16_t *parity, size_t parity_len,
                        const uint16_t *info, size_t info_len, const uint8_t *a, size_t a_len,
                        const float *metrics, size_t metrics_len, uint32_t known, uint32_t limit, uint32_t *rounds,
                        uint8_t *word, size_t word_len,
                        uint8_t *h, size_t h_len, uint16_t *pivots, size_t pivots_len, float *vectors, size_t vectors_len);

/* List decoding around posteriors, which are given, 32 finite floats of either sign for each symbol: the information symbols at their
 * likeliest values, the `width` least sure of them also at the second likeliest, every combination encoded and scored by the sum of its
 * symbols' metrics, of any floats. word = the best of these words; it is always a word of the code, and may have other symbols than 0
 * past a known count. The call tests the lent code as the calls on words do, and is turned down by 2, 3, 6 and 7 as those are. 8: width
 * is above 16, or a posterior is not finite. A number leaves word as it was. *rounds = 0 whatever the number. A width of 16 tries 65,536
 * words.
 *
 *     number = hazgunek_list_decode(HAZGUNEK_CODE(n, m, &code), metrics, 32 * n, posteriors, 32 * n, 10, &rounds, word, n,
 *                                   HAZGUNEK_WORK(&work)); */
uint8_t hazgunek_list_decode(size_t n, size_t m, size_t edges, size_t rank, const uint16_t *var, size_t var_len,
                             const uint8_t *coef, size_t coef_len, const uint16_t *row, size_t row_len,
                             const uint16_t *start, size_t start_len, const uint16_t *col, size_t col_len,
                             const uint16_t *order, size_t order_len, const uint16_t *parity, size_t parity_len,
                             const uint16_t *info, size_t info_len, const uint8_t *a, size_t a_len,
                             const float *metrics, size_t metrics_len, const float *posteriors, size_t posteriors_len,
                             size_t width, uint32_t *rounds, uint8_t *word, size_t word_len,
                             uint8_t *h, size_t h_len, uint16_t *pivots, size_t pivots_len);

/* Rates and frames. A rate is a number: 0 is 1/4, 1 is 1/3, 2 is 1/2, 3 is 2/3. Its code has n symbols and n - 52 checks. Rates, sets,
 * layouts and fallbacks are numbers of any size; one that is none is turned down by 1. */

/* *n = how many symbols a word of the rate has. 1: rate is above 3; *n is left as it was. */
uint8_t hazgunek_n_for(size_t rate, size_t *n);

/* degrees[v] = the degree of variable v of the rate's code. 1: rate is above 3. 3: degrees_len is not the rate's n. Both leave degrees as
 * it was. */
uint8_t hazgunek_degrees_for(size_t rate, size_t *degrees, size_t degrees_len);

/* The lengths of the work parts of hazgunek_code_at. */
#define HAZGUNEK_CODE_AT_WORDS 512
#define HAZGUNEK_CODE_AT_BYTES 131072

/* What hazgunek_code_at works in. Any values may stand in it before a call. */
struct hazgunek_code_at_work {
    uint16_t words[HAZGUNEK_CODE_AT_WORDS];
    uint8_t bytes[HAZGUNEK_CODE_AT_BYTES];
};

#define HAZGUNEK_CODE_AT_WORK(work) (work)->words, HAZGUNEK_CODE_AT_WORDS, (work)->bytes, HAZGUNEK_CODE_AT_BYTES

/* The code of a rate, for information set 0, echelon, or 1, peeled, with its n and m. With a code of the structs above:
 *
 *     number = hazgunek_code_at(rate, set, &n, &m, HAZGUNEK_NEW_CODE(&code), HAZGUNEK_CODE_AT_WORK(&work));
 *
 * 1: rate is above 3 or set above 1. 3: a part has not its length; 1 and 3 touch nothing. The work parts are all zero after 0. */
uint8_t hazgunek_code_at(size_t rate, size_t set, size_t *n, size_t *m, size_t *edges, size_t *rank,
                         uint16_t *var, size_t var_len, uint8_t *coef, size_t coef_len, uint16_t *row, size_t row_len,
                         uint16_t *start, size_t start_len, uint16_t *col, size_t col_len, uint16_t *order, size_t order_len,
                         uint16_t *parity, size_t parity_len, uint16_t *info, size_t info_len, uint8_t *a, size_t a_len,
                         uint16_t *words, size_t words_len, uint8_t *bytes, size_t bytes_len);

/* Bits to symbols, five to a symbol and most significant first, the bits that the last one lacks being 0; of each bit the lowest digit
 * counts. 3: syms_len is not (bits_len + 4) / 5; syms is left as it was. */
uint8_t hazgunek_bits_to_syms(const uint8_t *bits, size_t bits_len, uint8_t *syms, size_t syms_len);

/* How many bits a frame has, and the lengths of the work parts of the calls on frames: 512 + 257 + 257 + 512 + 256 + 256 + 256 + 2 * 256,
 * 512 + 16,384 + 2 * 65,536, and HAZGUNEK_VECTORS + 32 * 256. */
#define HAZGUNEK_BITS 256
#define HAZGUNEK_FRAME_WORDS 2818
#define HAZGUNEK_FRAME_BYTES 147968
#define HAZGUNEK_FRAME_FLOATS 58368

/* What a call on a frame works in; the floats are for decoding alone. Any values may stand in them before a call. */
struct hazgunek_frame_work {
    uint16_t words[HAZGUNEK_FRAME_WORDS];
    uint8_t bytes[HAZGUNEK_FRAME_BYTES];
};

struct hazgunek_frame_floats {
    float floats[HAZGUNEK_FRAME_FLOATS];
};

/* The arguments for these parts: `work` points to a struct hazgunek_frame_work, `more` to a struct hazgunek_frame_floats. */
#define HAZGUNEK_FRAME_WORK(work) (work)->words, HAZGUNEK_FRAME_WORDS, (work)->bytes, HAZGUNEK_FRAME_BYTES
#define HAZGUNEK_FRAME_DECODING_WORK(work, more) HAZGUNEK_FRAME_WORK(work), (more)->floats, HAZGUNEK_FRAME_FLOATS

/* A layout is a number, 4 * set + map: map 0 is plain, 1 heavy, 2 spread, 3 spread and heavy. The calls build their code in the work parts
 * themselves; no code is lent. 1: rate is above 3, layout above 7, or fallback above 1. 3: a part has not its length. 1 and 3 touch
 * nothing but *rounds. The work parts are all zero after every other number and after 0. */

/* tones = the n symbols of the rate's word for 256 bits, of each of which the lowest digit counts:
 *
 *     number = hazgunek_encode_bits_at(rate, layout, bits, HAZGUNEK_BITS, tones, n, HAZGUNEK_FRAME_WORK(&work)); */
uint8_t hazgunek_encode_bits_at(size_t rate, size_t layout, const uint8_t *bits, size_t bits_len, uint8_t *tones, size_t tones_len,
                                uint16_t *words, size_t words_len, uint8_t *bytes, size_t bytes_len);

/* The same at rate 0. */
uint8_t hazgunek_encode_bits_with(size_t layout, const uint8_t *bits, size_t bits_len, uint8_t *tones, size_t tones_len,
                                  uint16_t *words, size_t words_len, uint8_t *bytes, size_t bytes_len);

/* The same at rate 0 in layout 2. */
uint8_t hazgunek_encode_bits(const uint8_t *bits, size_t bits_len, uint8_t *tones, size_t tones_len,
                             uint16_t *words, size_t words_len, uint8_t *bytes, size_t bytes_len);

/* A frame's 256 bits, each 0 or 1, from 32 metrics for each of the n tones, as hazgunek_decode_soft takes them, and priors, of any floats:
 * prior[i] is the logarithm of how much likelier a 0 than a 1 is as bit i. prior_len may be any; entries from the 257th on are not added,
 * but one that is not 0.0 says, as any other does, that there are priors. Belief propagation makes 100 rounds at most. Where it finds no
 * word, there are priors and fallback is 1, the word is that of list decoding at width 10; otherwise, with fallback 0 or without priors,
 * there is none.
 *
 *     number = hazgunek_decode_bits_prior_at(rate, layout, metrics, 32 * n, prior, prior_len, fallback, &rounds, bits, HAZGUNEK_BITS,
 *                                            posteriors, 32 * n, HAZGUNEK_FRAME_DECODING_WORK(&work, &floats));
 *
 * 9: a check has more than 32 edges, which none of the four codes has. 10: no word was found. 11: the word's padding bits are not all
 * 0. 9 to 11 leave bits as it was. posteriors = the last round's, after 10 and 11 too. *rounds is written whatever the number: the number
 * of the first round that satisfied all checks, 100 where none did, 0 after 1, 3 and 9. */
uint8_t hazgunek_decode_bits_prior_at(size_t rate, size_t layout, const float *metrics, size_t metrics_len,
                                      const float *prior, size_t prior_len, size_t fallback, uint32_t *rounds,
                                      uint8_t *bits, size_t bits_len, float *posteriors, size_t posteriors_len,
                                      uint16_t *words, size_t words_len, uint8_t *bytes, size_t bytes_len,
                                      float *floats, size_t floats_len);

/* The same at rate 0. */
uint8_t hazgunek_decode_bits_prior_fb(size_t layout, const float *metrics, size_t metrics_len,
                                      const float *prior, size_t prior_len, size_t fallback, uint32_t *rounds,
                                      uint8_t *bits, size_t bits_len, float *posteriors, size_t posteriors_len,
                                      uint16_t *words, size_t words_len, uint8_t *bytes, size_t bytes_len,
                                      float *floats, size_t floats_len);

/* The same at rate 0 with fallback 0. */
uint8_t hazgunek_decode_bits_prior_with(size_t layout, const float *metrics, size_t metrics_len,
                                        const float *prior, size_t prior_len, uint32_t *rounds,
                                        uint8_t *bits, size_t bits_len, float *posteriors, size_t posteriors_len,
                                        uint16_t *words, size_t words_len, uint8_t *bytes, size_t bytes_len,
                                        float *floats, size_t floats_len);

/* The same at rate 0 in layout 2 with fallback 0. */
uint8_t hazgunek_decode_bits_prior(const float *metrics, size_t metrics_len,
                                   const float *prior, size_t prior_len, uint32_t *rounds,
                                   uint8_t *bits, size_t bits_len, float *posteriors, size_t posteriors_len,
                                   uint16_t *words, size_t words_len, uint8_t *bytes, size_t bytes_len,
                                   float *floats, size_t floats_len);

/* The same at rate 0 in layout 2 with fallback 0 and no priors. */
uint8_t hazgunek_decode_bits(const float *metrics, size_t metrics_len, uint32_t *rounds,
                             uint8_t *bits, size_t bits_len, float *posteriors, size_t posteriors_len,
                             uint16_t *words, size_t words_len, uint8_t *bytes, size_t bytes_len,
                             float *floats, size_t floats_len);

#ifdef __cplusplus
}
#endif

#endif
