/* The proved library for C: link libmagnetar_c.a, which `rt lib` in crates/magnetar_c writes to crates/magnetar_c/out.
 *
 * What a caller must bind. Neither the prover nor the verifier absorbs the relation, the public elements or a commitment to the bits. So
 * before the run, at both ends and in the same order, absorb into the transcript
 *   1. the relation's digest, magnetar_relation_digest,
 *   2. the words of the public elements of every login,
 *   3. the commitment to the packed words;
 * and after a proof was accepted check its claims against the commitment. A transcript without these three lets someone choose them after
 * the challenges are known, so that a proof is accepted for a batch that is not good. The commitment scheme is not part of this library.
 *
 * What a claim says: the value of segment i is the sum over the logins u and the positions k below its length of
 * eq(r_inst, u) eq(r_local, k) b, b being the bit of login u at column offset + k. eq(p, i) is entry i of the eq table of p, r_local the
 * first log2(length) elements of r_low, and the offset is what magnetar_layout_build writes.
 *
 * Elements are of GF(2)[x] / (x^128 + x^7 + x^2 + x + 1). In a slice an element is two words, the low one first; a table of 2^n
 * elements is 2^(n+1) words, and entry i is the value at the bits of i, bit 0 that of variable 0.
 *
 * A slice is a pointer and a number of elements. The pointer is not NULL, even for no elements, is aligned, and is good for so many
 * elements; what is written overlaps nothing else that is lent. Every function ends on all other inputs, allocates nothing, keeps
 * nothing between calls, and may run in many threads at once. A function that returns a number returns 0 or a refusal, and a call
 * refused with 1 to 17 writes nothing. One refused with 21 to 29 writes no claim, and leaves its scratch 0.
 */
#ifndef MAGNETAR_H
#define MAGNETAR_H

#include <stdbool.h>
#include <stddef.h>
#include <stdint.h>

#ifdef __cplusplus
extern "C" {
#endif

/* Refusals, in the order in which they are looked for. */
enum {
    MAGNETAR_OK = 0,
    MAGNETAR_SIZES = 1,           /* m is no power of two from 2 to 65,536, or q none from 1 to 4,096 */
    MAGNETAR_PACKED = 2,          /* the packed words are not 2 q ceil(m / 256) */
    MAGNETAR_PUBLIC = 3,          /* the public words are not q (m - 2) */
    MAGNETAR_ROWS = 4,            /* rows no power of two from 1 to 65,536, unequal within a system, or q times rows over 2^20 */
    MAGNETAR_COLUMNS = 5,         /* a matrix whose columns are not m */
    MAGNETAR_ENTRIES = 6,         /* over 1,048,576 entries in a matrix, slices of unequal length, or counts that don't add up to it */
    MAGNETAR_OUTSIDE = 7,         /* an entry outside its matrix */
    MAGNETAR_SEGMENT = 8,         /* a segment's length is zero, no power of two, or over m / 2 */
    MAGNETAR_LAYOUT = 9,          /* the layout ends past m / 2 */
    MAGNETAR_SEGMENTS = 10,       /* over 64 segments */
    MAGNETAR_LENGTH = 11,         /* a point, vector, table or message is not of the wanted length, or has no such variable */
    MAGNETAR_MASKS = 12,          /* masks of a value over 1 or of a column past m/2 */
    MAGNETAR_V = 13,              /* masks for v over log2 q or over 6 */
    MAGNETAR_COUNTER = 14,        /* the transcript's counter is 2^32 or more */
    MAGNETAR_ROOM = 15,           /* an output or the scratch is too short */
    MAGNETAR_PROOF_LENGTH = 16,   /* the proof has a wrong number of words */
    MAGNETAR_PARTS = 17,          /* the lengths of the parts don't add up to the bytes */
    MAGNETAR_SHARED_BIN = 21,     /* a shared round of bin does not add up */
    MAGNETAR_SHARED_FLD = 22,     /* a shared round of fld does not add up */
    MAGNETAR_ROW_BIN = 23,        /* a row round of bin does not add up */
    MAGNETAR_ROW_FLD = 24,        /* a row round of fld does not add up */
    MAGNETAR_END_BIN = 25,        /* the end of bin's outer sum-check does not hold */
    MAGNETAR_END_FLD = 26,        /* the end of fld's outer sum-check does not hold */
    MAGNETAR_INNER_ROUND = 27,    /* an inner round does not add up */
    MAGNETAR_INNER_END = 28,      /* the end of the inner sum-check does not hold */
    MAGNETAR_SEGMENT_VALUES = 29  /* the segment values do not add up to v_z */
};

/* Sizes, in words. */
#define MAGNETAR_TABLE_WORDS(n) ((size_t)2 << (n)) /* a table over n variables */
#define MAGNETAR_OUTER_WORDS 8                     /* a message of the outer sum-check: four coefficients, that of 1 first */
#define MAGNETAR_INNER_WORDS 6                     /* a message of the inner sum-check: three */
#define MAGNETAR_MASK_WORDS(rows, s, v) ((size_t)(rows) << ((s) - (v))) /* the masks of 2^s logins, 2^v of them in a word */

/* Of a run with m columns, q logins, rb rows of bin and rf of fld, and so many segments; s, b, f, n are the logs of q, rb, rf, m. */
#define MAGNETAR_PROOF_WORDS(s, b, f, n, segments) (2 * (8 * (size_t)(s) + 4 * (b) + 4 * (f) + 7 + 3 * (n) + (segments)))
#define MAGNETAR_CLAIM_WORDS(s, n, segments) (2 * ((size_t)(s) + (n)-1 + (segments)))
#define MAGNETAR_PACKED_WORDS(m, q) (2 * (size_t)(q) * (((size_t)(m) + 255) / 256)) /* a login: m / 2 bits, from bit 0 of a word on */
#define MAGNETAR_PUBLIC_WORDS(m, q) ((size_t)(q) * ((size_t)(m) - 2)) /* a login: m / 2 - 1 elements */
#define MAGNETAR_MOST_ROWS(rb, rf) ((size_t)((rb) > (rf) ? (rb) : (rf)))
#define MAGNETAR_CHECK_SCRATCH(rb, rf) (6 * MAGNETAR_MOST_ROWS(rb, rf))
#define MAGNETAR_COMBO_SCRATCH(m, rb, rf) (2 * (size_t)(m) + 2 * MAGNETAR_MOST_ROWS(rb, rf))
#define MAGNETAR_VERIFIER_SCRATCH(m, q, rb, rf) (2 * (size_t)(m) + 2 * MAGNETAR_MOST_ROWS(rb, rf) + 2 * (size_t)(q))
#define MAGNETAR_PROVER_SCRATCH(m, q, rb, rf) \
    (8 * (size_t)(q) * ((size_t)(rb) + (rf)) + 8 * (size_t)(m) + 4 * MAGNETAR_MOST_ROWS(rb, rf) + 6 * (size_t)(q))

typedef struct {
    uint64_t lo; /* bit i: the coefficient of x^i */
    uint64_t hi; /* bit i: that of x^(64 + i) */
} magnetar_element;

typedef struct {
    uint8_t state[32];
    uint64_t squeeze_ctr; /* draws since the last absorption */
} magnetar_transcript;

/* A refusal or 0, and the transcript: as it was where the call is refused with 1 to 16; 32 bytes 0 where a new one is refused with 17;
 * after the words and draws up to the failing check where a proof is refused with 21 to 29. */
typedef struct {
    uint32_t code;
    magnetar_transcript transcript;
} magnetar_answer;

/* The same with the element drawn, 0 where the draw is refused. */
typedef struct {
    uint32_t code;
    magnetar_element element;
    magnetar_transcript transcript;
} magnetar_draw;

/* A refusal or 0, and an element, 0 where the call is refused. */
typedef struct {
    uint32_t code;
    magnetar_element element;
} magnetar_value;

/* A refusal or 0, and yes or no, which is no where the call is refused. */
typedef struct {
    uint32_t code;
    bool yes;
} magnetar_flag;

/* What a round of the verifier leaves: a refusal or 0, whether the message adds up, and the running claim. */
typedef struct {
    uint32_t code;
    bool holds;
    magnetar_element claim;
} magnetar_round;

/* The same of a round that draws, with its challenge, 0 where none is drawn, and the transcript. */
typedef struct {
    uint32_t code;
    bool holds;
    magnetar_element claim;
    magnetar_element challenge;
    magnetar_transcript transcript;
} magnetar_capture;

typedef struct {
    uint8_t bytes[32];
} magnetar_digest;

/* A refusal or 0, and a hash, 32 bytes 0 where the call is refused. */
typedef struct {
    uint32_t code;
    magnetar_digest digest;
} magnetar_digest_answer;

/* ---- Elements and tables. */

/* The product. */
magnetar_element magnetar_mul(magnetar_element a, magnetar_element b);

/* The table of eq at the point, from a start: entry i is the start times the product over j of p_j where bit j of i is 1, and of 1 + p_j
 * where it is 0. From 1 it is the table of eq itself, from 0 it is zeros.
 * 11: no point of at most 20 elements; 15: out is shorter than the table. */
uint32_t magnetar_eq_build(const uint64_t *point, size_t point_len, magnetar_element start, uint64_t *out, size_t out_len);

/* The value at the point of the multilinear polynomial with this table of values: the sum of each value times its entry of the eq table.
 * The scratch has as many words as the table, and is 0 after the call. 11: no point of at most 20 elements, or not a value for each
 * entry; 15: the scratch is shorter. */
magnetar_value magnetar_eval_mle(const uint64_t *values, size_t values_len, const uint64_t *point, size_t point_len, uint64_t *scratch,
                                 size_t scratch_len);

/* The same of a vector with an element for each login: the logins folded at the point. */
magnetar_value magnetar_fold_instances(const uint64_t *vector, size_t vector_len, const uint64_t *point, size_t point_len,
                                       uint64_t *scratch, size_t scratch_len);

/* Binds variable var to r: the first half of the words becomes the bound table, the second half stays.
 * 11: no table of 2^n elements, or it has no variable var. */
uint32_t magnetar_bind_var(uint64_t *table, size_t table_len, size_t var, magnetar_element r);

/* The eq table without variable v, in the first half of the words; the second half stays. 11: as magnetar_bind_var. */
uint32_t magnetar_drop_var(uint64_t *table, size_t table_len, size_t v);

/* ---- Rounds of both sum-checks. */

/* The message of a round of the outer sum-check that binds variable v of the tables a, b, c. e is the eq table over the variables
 * that stay, k the product of 1 + tau_j + r_j over those that are bound, t the tau of v.
 * 11: no tables of one size with a variable v, or e not half their size; 15: out is shorter than 8 words. */
uint32_t magnetar_outer_message(uint64_t *out, size_t out_len, const uint64_t *e, size_t e_len, const uint64_t *a, size_t a_len,
                                const uint64_t *b, size_t b_len, const uint64_t *c, size_t c_len, size_t v, magnetar_element k,
                                magnetar_element t);

/* The message of a round of the inner sum-check that binds variable v of the tables t and z.
 * 11: no tables of one size with a variable v; 15: out is shorter than 6 words. */
uint32_t magnetar_inner_message(uint64_t *out, size_t out_len, const uint64_t *t, size_t t_len, const uint64_t *z, size_t z_len,
                                size_t v);

/* A round of the verifier: whether the message of n coefficients (4 of the outer sum-check, 3 of the inner one) adds up to the running
 * claim, and the next claim, its value at the challenge r. A message that does not add up leaves the claim.
 * 11: not the words of n coefficients. */
magnetar_round magnetar_round_external(const uint64_t *msg, size_t msg_len, size_t n, magnetar_element claim, magnetar_element r);

/* The same, but the challenge is drawn: a message that adds up is absorbed and the challenge drawn, both under the label. Any other leaves
 * claim and transcript. 11: as magnetar_round_external; 14: the counter is 2^32 or more. */
magnetar_capture magnetar_round_capturing(const uint64_t *msg, size_t msg_len, size_t n, magnetar_element claim, magnetar_transcript t,
                                          const uint8_t *label, size_t label_len);

/* ---- The hash and the transcript. */

/* SHA3-256. */
magnetar_digest magnetar_sha3_256(const uint8_t *message, size_t message_len);

/* A transcript bound to a protocol and its public parts, which are lent one after the other with their lengths.
 * 17: the lengths don't add up to the bytes; the transcript is then zeros. */
magnetar_answer magnetar_transcript_new(const uint8_t *protocol, size_t protocol_len, const uint8_t *public_parts,
                                        size_t public_parts_len, const size_t *lens, size_t lens_len);

/* Bytes are absorbed under a label. 14: the counter is 2^32 or more; the transcript is then as it was. */
magnetar_answer magnetar_absorb_bytes(magnetar_transcript t, const uint8_t *label, size_t label_len, const uint8_t *bytes,
                                      size_t bytes_len);

/* The same for a word, as eight bytes, the low one first. 14. */
magnetar_answer magnetar_absorb_u64(magnetar_transcript t, const uint8_t *label, size_t label_len, uint64_t v);

/* The same for a hash. 14. */
magnetar_answer magnetar_absorb_digest(magnetar_transcript t, const uint8_t *label, size_t label_len, magnetar_digest d);

/* The same for elements. 11: an odd number of words; 14. */
magnetar_answer magnetar_absorb_field(magnetar_transcript t, const uint8_t *label, size_t label_len, const uint64_t *words,
                                      size_t words_len);

/* An element is drawn under a label. 14: the counter is 2^32 or more. */
magnetar_draw magnetar_challenge_field(magnetar_transcript t, const uint8_t *label, size_t label_len);

/* n elements are drawn under a label, to the first 2n words of out. 14: as magnetar_challenge_field; 15: out is shorter. */
magnetar_answer magnetar_challenge_field_vec(magnetar_transcript t, const uint8_t *label, size_t label_len, size_t n, uint64_t *out,
                                             size_t out_len);

/* ---- Layouts. */

/* The columns where segments of these lengths start in w witness columns: each at the next multiple of its length. 1: 2w is no number of
 * columns; 8, 9, 10: the lengths; 15: fewer offsets than lengths. */
uint32_t magnetar_layout_build(size_t w, const size_t *lens, size_t lens_len, size_t *offsets, size_t offsets_len);

/* ---- A matrix alone: its rows, its columns, and its entries in four slices. Entry i has the row row[i], the column col[i] and the value of
 * the words lo[i] and hi[i]; entries at one place add up. Each function refuses 1 (the columns), 4, 6 and 7, and what is said at it. */

typedef struct {
    size_t rows, cols, entries;
    const size_t *row, *col;
    const uint64_t *lo, *hi;
} magnetar_matrix;

/* Such a matrix, at a pointer, as the first arguments of these functions. */
#define MAGNETAR_MATRIX(a) \
    (a)->rows, (a)->cols, (a)->row, (a)->entries, (a)->col, (a)->entries, (a)->lo, (a)->entries, (a)->hi, (a)->entries

/* The product with the vector z, to the first 2 rows words of out. 11: z has not 2 cols words; 15: out is shorter. */
uint32_t magnetar_apply(size_t rows, size_t cols, const size_t *row, size_t row_len, const size_t *col, size_t col_len,
                        const uint64_t *lo, size_t lo_len, const uint64_t *hi, size_t hi_len, const uint64_t *z, size_t z_len,
                        uint64_t *out, size_t out_len);

/* The matrix's multilinear extension at the row point and every column, to the first 2 cols words of out. The scratch has 2 rows words, and
 * is 0 after the call. 11: the point has not 2 log2(rows) words; 15: out or the scratch is shorter. */
uint32_t magnetar_eval_mle_table(size_t rows, size_t cols, const size_t *row, size_t row_len, const size_t *col, size_t col_len,
                                 const uint64_t *lo, size_t lo_len, const uint64_t *hi, size_t hi_len, const uint64_t *point,
                                 size_t point_len, uint64_t *out, size_t out_len, uint64_t *scratch, size_t scratch_len);

/* The extension at the row point r and the column point c. The scratch has 2 (rows + cols) words, and is 0 after the call.
 * 11: the points have not 2 log2(rows) and 2 log2(cols) words; 15: the scratch is shorter. */
magnetar_value magnetar_eval_mle_at(size_t rows, size_t cols, const size_t *row, size_t row_len, const size_t *col, size_t col_len,
                                    const uint64_t *lo, size_t lo_len, const uint64_t *hi, size_t hi_len, const uint64_t *r,
                                    size_t r_len, const uint64_t *c, size_t c_len, uint64_t *scratch, size_t scratch_len);

/* Whether every value is 0 or 1. */
magnetar_flag magnetar_is_binary(size_t rows, size_t cols, const size_t *row, size_t row_len, const size_t *col, size_t col_len,
                                 const uint64_t *lo, size_t lo_len, const uint64_t *hi, size_t hi_len);

/* The products with the z of each of q logins, which is its w = m / 2 bits, a 1 and its public elements: one login behind the other, to the
 * first 2 q rows words of out. x holds the public elements login after login, q (m - 2) words. Yes where every value is 0 or 1 and no column
 * exceeds w, so that all products are 0 or 1. Refuses 1 to 7 and 15. */
magnetar_flag magnetar_apply_simd_packed(size_t rows, size_t cols, const size_t *row, size_t row_len, const size_t *col, size_t col_len,
                                         const uint64_t *lo, size_t lo_len, const uint64_t *hi, size_t hi_len, const uint64_t *packed,
                                         size_t packed_len, const uint64_t *x, size_t x_len, size_t q, size_t w, uint64_t *out,
                                         size_t out_len);

/* The same products where all are 0 or 1, as masks: of q = 2^s logins 2^v share a word, and bit t of word low * rows + r is the product of
 * login t * 2^(s - v) + low at row r. Refuses 1, 2, 4 to 7, 12, 13 and 15. */
uint32_t magnetar_apply_simd_bit_masks(size_t rows, size_t cols, const size_t *row, size_t row_len, const size_t *col, size_t col_len,
                                       const uint64_t *lo, size_t lo_len, const uint64_t *hi, size_t hi_len, const uint64_t *packed,
                                       size_t packed_len, size_t q, size_t w, size_t v, uint64_t *out, size_t out_len);

/* ---- A batch of q logins under the rules of two systems, bin and fld. The rules are six matrices, A, B, C of each: their shapes, and
 * their entries one behind the other in four slices, those of A, B, C of bin and then those of A, B, C of fld. x holds q (m - 2) words: the
 * m / 2 - 1 public elements of each login, login after login. Where all logins have the same, they stand there q times. */

typedef struct {
    size_t rows, cols, entries;
} magnetar_shape;

typedef struct {
    magnetar_shape a, b, c;
} magnetar_system_shape;

typedef struct {
    magnetar_system_shape bin, fld;
} magnetar_shapes;

/* The digest of a relation: SHA3-256 of m, q, the segments' lengths, the shapes and the entries in their order. No two relations as they are
 * lent are hashed from the same bytes. Refuses 1 and 4 to 10. */
magnetar_digest_answer magnetar_relation_digest(
    size_t m, size_t q, const size_t *lens, size_t lens_len, magnetar_shapes shapes, const size_t *row, size_t row_len,
    const size_t *col, size_t col_len, const uint64_t *lo, size_t lo_len, const uint64_t *hi, size_t hi_len);

/* The batch folded at the point: element y of out is the sum over the logins u of eq(point, u) times the bit of login u at column y, of w
 * columns. The scratch has 2 q words, and is 0 after the call. A segment of the folded batch is its 2 * length words from 2 * offset on.
 * 1, 2; 11: the point has not 2 log2(q) words; 15: out is shorter than 2 w words, or the scratch shorter. */
uint32_t magnetar_fold_packed_w(const uint64_t *packed, size_t packed_len, size_t q, size_t w, const uint64_t *point, size_t point_len,
                                uint64_t *out, size_t out_len, uint64_t *scratch, size_t scratch_len);

/* The six matrices in one table of the columns: the sum of each one's table at its system's row point, pb of bin and pf of fld, times its
 * alpha, of which there are six, A, B, C of bin first. The table goes to the first 2 m words of out; the scratch is 0 after the call.
 * 1 (m), 4 to 7; 11: not 12 words of alphas, or a point that has not 2 log2(rows) words; 15. */
uint32_t magnetar_build_m_combo(
    uint64_t *out, size_t out_len, uint64_t *scratch, size_t scratch_len, size_t m, magnetar_shapes shapes, const size_t *row,
    size_t row_len, const size_t *col, size_t col_len, const uint64_t *lo, size_t lo_len, const uint64_t *hi, size_t hi_len,
    const uint64_t *alphas, size_t alphas_len, const uint64_t *pb, size_t pb_len, const uint64_t *pf, size_t pf_len);

/* Whether a batch is good, in plain: no bit is set outside the segments, whose lengths are lens, and every row holds for every login. For
 * each login z is its bits, a 1 and its public elements, and a row holds where the product of A z and B z is C z. Words of a login are two
 * for each 128 columns, the lowest bit that of column 0; bits past the columns never matter. A bit that is set in a column of no segment is
 * a stray bit; it is told before any row that fails. Refuses 1 to 10 and 15; the scratch is cleared unless the call is refused. */
enum {
    MAGNETAR_GOOD = 0,
    MAGNETAR_FAILS_BIN = 1, /* no stray bit, but a row of bin fails */
    MAGNETAR_FAILS_FLD = 2, /* no stray bit, every row of bin holds, but a row of fld fails */
    MAGNETAR_REFUSED = 3,   /* the call is refused */
    MAGNETAR_STRAY = 4      /* a stray bit */
};

typedef struct {
    uint32_t code;   /* a refusal or 0 */
    uint32_t system; /* one of the five above */
    size_t login;    /* the lowest login with such a row or bit; here and below 0 where there is none */
    size_t row;      /* the lowest of its rows that fail */
    size_t column;   /* the lowest column of its stray bits */
} magnetar_row_verdict;

magnetar_row_verdict magnetar_row_check(
    uint64_t *scratch, size_t scratch_len, size_t m, size_t q, const size_t *lens, size_t lens_len, magnetar_shapes shapes,
    const size_t *row, size_t row_len, const size_t *col, size_t col_len, const uint64_t *lo, size_t lo_len, const uint64_t *hi,
    size_t hi_len, const uint64_t *packed, size_t packed_len, const uint64_t *x, size_t x_len);

/* Proves a batch, whether it is good or not, and gives the claims: the shared challenges, those of the columns but the last, and a value
 * for each segment. Refuses 1 to 10, 14 and 15. */
magnetar_answer magnetar_prove_virtual_spartan(
    uint64_t *proof, size_t proof_len, uint64_t *claims, size_t claims_len, uint64_t *scratch, size_t scratch_len,
    size_t m, size_t q, const size_t *lens, size_t lens_len, magnetar_shapes shapes, const size_t *row, size_t row_len,
    const size_t *col, size_t col_len, const uint64_t *lo, size_t lo_len, const uint64_t *hi, size_t hi_len,
    const uint64_t *packed, size_t packed_len, const uint64_t *x, size_t x_len, magnetar_transcript t);

/* The verdict on a proof, 0 where it is accepted, and then the same claims. Refuses 1, 3 to 10 and 14 to 16, and 21 to 29, after which
 * the transcript has gone on. Unless 1 to 16 refuse, the first MAGNETAR_VERIFIER_SCRATCH words of the scratch are 0 after the call; no word
 * behind them is written, whatever is lent. */
magnetar_answer magnetar_verify_virtual_spartan(
    uint64_t *claims, size_t claims_len, uint64_t *scratch, size_t scratch_len,
    size_t m, size_t q, const size_t *lens, size_t lens_len, magnetar_shapes shapes, const size_t *row, size_t row_len,
    const size_t *col, size_t col_len, const uint64_t *lo, size_t lo_len, const uint64_t *hi, size_t hi_len,
    const uint64_t *x, size_t x_len, const uint64_t *proof, size_t proof_len, magnetar_transcript t);

/* The same with the rules in a struct. */
typedef struct {
    size_t m, q;
    const size_t *lens; /* of the segments */
    size_t segments;
    magnetar_shapes shapes;
    size_t entries; /* in each of the four slices */
    const size_t *row, *col;
    const uint64_t *lo, *hi;
} magnetar_relation;

#define MAGNETAR_LEND_(r) (r)->shapes, (r)->row, (r)->entries, (r)->col, (r)->entries, (r)->lo, (r)->entries, (r)->hi, (r)->entries

static inline magnetar_digest_answer magnetar_digest_of(const magnetar_relation *r)
{
    return magnetar_relation_digest(r->m, r->q, r->lens, r->segments, MAGNETAR_LEND_(r));
}

static inline uint32_t magnetar_combo(const magnetar_relation *r, const uint64_t *alphas, size_t alphas_len, const uint64_t *pb,
                                      size_t pb_len, const uint64_t *pf, size_t pf_len, uint64_t *out, size_t out_len,
                                      uint64_t *scratch, size_t scratch_len)
{
    return magnetar_build_m_combo(out, out_len, scratch, scratch_len, r->m, MAGNETAR_LEND_(r), alphas, alphas_len, pb, pb_len, pf, pf_len);
}

static inline magnetar_row_verdict magnetar_check(const magnetar_relation *r, const uint64_t *packed, size_t packed_len,
                                                  const uint64_t *x, size_t x_len, uint64_t *scratch, size_t scratch_len)
{
    return magnetar_row_check(scratch, scratch_len, r->m, r->q, r->lens, r->segments, MAGNETAR_LEND_(r), packed, packed_len, x, x_len);
}

static inline magnetar_answer magnetar_prove(const magnetar_relation *r, const uint64_t *packed, size_t packed_len, const uint64_t *x,
                                             size_t x_len, magnetar_transcript t, uint64_t *proof, size_t proof_len, uint64_t *claims,
                                             size_t claims_len, uint64_t *scratch, size_t scratch_len)
{
    return magnetar_prove_virtual_spartan(proof, proof_len, claims, claims_len, scratch, scratch_len, r->m, r->q, r->lens, r->segments,
                                          MAGNETAR_LEND_(r), packed, packed_len, x, x_len, t);
}

static inline magnetar_answer magnetar_verify(const magnetar_relation *r, const uint64_t *x, size_t x_len, const uint64_t *proof,
                                              size_t proof_len, magnetar_transcript t, uint64_t *claims, size_t claims_len,
                                              uint64_t *scratch, size_t scratch_len)
{
    return magnetar_verify_virtual_spartan(claims, claims_len, scratch, scratch_len, r->m, r->q, r->lens, r->segments,
                                           MAGNETAR_LEND_(r), x, x_len, proof, proof_len, t);
}

/* Rules that are at hand as six matrices, A, B, C of bin, then of fld: copies their entries one behind the other into row, col, lo and hi,
 * each with room for all of them, and sets the shapes, the slices and the number of entries of r. */
static inline void magnetar_join(magnetar_relation *r, const magnetar_matrix matrix[6], size_t *row, size_t *col, uint64_t *lo, uint64_t *hi)
{
    magnetar_shape *shape[6] = {&r->shapes.bin.a, &r->shapes.bin.b, &r->shapes.bin.c, &r->shapes.fld.a, &r->shapes.fld.b, &r->shapes.fld.c};
    size_t n = 0;
    for (size_t k = 0; k < 6; k++) {
        shape[k]->rows = matrix[k].rows;
        shape[k]->cols = matrix[k].cols;
        shape[k]->entries = matrix[k].entries;
        for (size_t i = 0; i < matrix[k].entries; i++, n++) {
            row[n] = matrix[k].row[i];
            col[n] = matrix[k].col[i];
            lo[n] = matrix[k].lo[i];
            hi[n] = matrix[k].hi[i];
        }
    }
    r->entries = n;
    r->row = row;
    r->col = col;
    r->lo = lo;
    r->hi = hi;
}

#ifdef __cplusplus
}
#endif

#endif
