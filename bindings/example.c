/* Each function but those of a run, which vault.c shows: with an answer, document 01's marked rows among them, and a refusal. The row check
 * is in both. */
#include "magnetar.h"

#include <stdio.h>

#define COUNT(a) (sizeof(a) / sizeof(a)[0])

static void show(const char *what, const uint64_t *words, size_t n)
{
    printf("%s", what);
    for (size_t i = 0; i < n; i += 2)
        printf(" %016llx%016llx", (unsigned long long)words[i + 1], (unsigned long long)words[i]);
    printf("\n");
}

/* The elements, or the number of the refusal. */
static void say(const char *what, uint32_t code, const uint64_t *words, size_t n)
{
    if (code == MAGNETAR_OK)
        show(what, words, n);
    else
        printf("%s refused %u\n", what, code);
}

static void say_value(const char *what, magnetar_value v)
{
    say(what, v.code, (uint64_t[]){v.element.lo, v.element.hi}, 2);
}

static void say_flag(const char *what, magnetar_flag f)
{
    if (f.code == MAGNETAR_OK)
        printf("%s %s\n", what, f.yes ? "yes" : "no");
    else
        printf("%s refused %u\n", what, f.code);
}

static void say_round(const char *what, magnetar_round r)
{
    if (r.code == MAGNETAR_OK && !r.holds)
        printf("%s does not add up\n", what);
    else
        say(what, r.code, (uint64_t[]){r.claim.lo, r.claim.hi}, 2);
}

static void say_capture(const char *what, magnetar_capture c)
{
    if (c.code == MAGNETAR_OK && !c.holds)
        printf("%s does not add up\n", what);
    else
        say(what, c.code, (uint64_t[]){c.claim.lo, c.claim.hi, c.challenge.lo, c.challenge.hi}, 4);
}

/* A draw from the transcript, which tells one transcript from another. */
static void say_next(const char *what, magnetar_answer a)
{
    magnetar_draw d = magnetar_challenge_field(a.transcript, (const uint8_t *)"next", 4);
    say(what, a.code, (uint64_t[]){d.element.lo, d.element.hi}, 2);
}

static const uint8_t *bytes(const char *s)
{
    return (const uint8_t *)s;
}

static magnetar_element small(uint64_t lo)
{
    return (magnetar_element){lo, 0};
}

static void tables(void)
{
    magnetar_element p = magnetar_mul(small(2), (magnetar_element){0, 1ull << 63});
    show("2 * x^127:", (uint64_t[]){p.lo, p.hi}, 2);

    uint64_t point[] = {2, 0, 4, 0}, eq[8], z[] = {1, 0, 3, 0, 5, 0, 7, 0}, scratch[8];
    say("eq of []:", magnetar_eq_build(point, 0, small(1), eq, 8), eq, 2);
    say("eq of half an element:", magnetar_eq_build(point, 1, small(1), eq, 8), eq, 2);
    say("eq of [2, 4] from x^127:", magnetar_eq_build(point, 4, (magnetar_element){0, 1ull << 63}, eq, 8), eq, 8);
    say("eq of [2, 4] from 0:", magnetar_eq_build(point, 4, small(0), eq, 8), eq, 8);
    say("eq of [2, 4]:", magnetar_eq_build(point, 4, small(1), eq, 8), eq, 8);

    say_value("[1, 3, 5, 7] at [2, 4]:", magnetar_eval_mle(z, 8, point, 4, scratch, 8));
    say_value("[1, 3, 5] at [2, 4]:", magnetar_eval_mle(z, 6, point, 4, scratch, 8));
    say_value("logins [5, 7] folded at [2]:", magnetar_fold_instances(z + 4, 4, point, 2, scratch, 8));
    say_value("logins [5, 7] folded at [2, 4]:", magnetar_fold_instances(z + 4, 4, point, 4, scratch, 8));

    say("variable 1 of [1, 3, 5, 7] bound to 2:", magnetar_bind_var(z, 8, 1, small(2)), z, 4);
    say("variable 0 of three elements:", magnetar_bind_var(z, 6, 0, small(2)), z, 4);
    say("eq of [2, 4] without variable 0:", magnetar_drop_var(eq, 8, 0), eq, 4);
    say("without variable 1 of one:", magnetar_drop_var(eq, 4, 1), eq, 4);
}

static void rounds(void)
{
    uint64_t point[] = {2, 0, 4, 0}, eq[8], z[] = {1, 0, 3, 0, 5, 0, 7, 0}, e[4], scratch[8], outer[8], m[6];
    if (magnetar_eq_build(point, 4, small(1), eq, 8) != MAGNETAR_OK || magnetar_eq_build(point + 2, 2, small(1), e, 4) != MAGNETAR_OK)
        return;
    say("outer message:", magnetar_outer_message(outer, 8, e, 4, z, 8, z, 8, eq, 8, 0, small(1), small(2)), outer, 8);
    say("of variable 2 of two:", magnetar_outer_message(outer, 8, e, 4, z, 8, z, 8, eq, 8, 2, small(1), small(2)), outer, 8);
    say("inner message:", magnetar_inner_message(m, 6, eq, 8, z, 8, 0), m, 6);
    say("of tables of two sizes:", magnetar_inner_message(m, 6, eq, 8, z, 4, 0), m, 6);

    magnetar_element claim = magnetar_eval_mle(z, 8, point, 4, scratch, 8).element, wrong = {claim.lo ^ 1, claim.hi};
    say_round("round at 9:", magnetar_round_external(m, 6, 3, claim, small(9)));
    say_round("round with a wrong claim:", magnetar_round_external(m, 6, 3, wrong, small(9)));
    say_round("round of four coefficients:", magnetar_round_external(m, 6, 4, claim, small(9)));

    magnetar_transcript t = magnetar_transcript_new(bytes("example"), 7, bytes("onefour"), 7, (size_t[]){3, 4}, 2).transcript, late = t;
    late.squeeze_ctr = 1ull << 32;
    say_capture("round that draws:", magnetar_round_capturing(m, 6, 3, claim, t, bytes("round"), 5));
    say_capture("with a wrong claim:", magnetar_round_capturing(m, 6, 3, wrong, t, bytes("round"), 5));
    say_capture("of half an element:", magnetar_round_capturing(m, 1, 3, claim, t, bytes("round"), 5));
    say_capture("with a late counter:", magnetar_round_capturing(m, 6, 3, claim, late, bytes("round"), 5));

    /* the same challenge */
    magnetar_answer heard = magnetar_absorb_field(t, bytes("round"), 5, m, 6);
    magnetar_draw draw = magnetar_challenge_field(heard.transcript, bytes("round"), 5);
    say("challenge:", draw.code, (uint64_t[]){draw.element.lo, draw.element.hi}, 2);
}

static void show_digest(const char *what, magnetar_digest d)
{
    printf("%s ", what);
    for (size_t i = 0; i < 32; i++)
        printf("%02x", d.bytes[i]);
    printf("\n");
}

static void hashing(void)
{
    magnetar_digest abc = magnetar_sha3_256(bytes("abc"), 3);
    show_digest("SHA3-256 of nothing:", magnetar_sha3_256(bytes(""), 0));
    show_digest("SHA3-256 of abc:", abc);

    magnetar_answer start = magnetar_transcript_new(bytes("example"), 7, bytes("onefour"), 7, (size_t[]){3, 4}, 2);
    magnetar_transcript t = start.transcript, late = t;
    uint64_t words[] = {2, 0, 4, 0}, drawn[4];
    late.squeeze_ctr = 1ull << 32;
    say_next("new transcript:", start);
    say_next("of parts that don't add up:", magnetar_transcript_new(bytes("example"), 7, bytes("onefour"), 7, (size_t[]){3, 3}, 2));
    say_next("bytes absorbed:", magnetar_absorb_bytes(t, bytes("hash"), 4, abc.bytes, 32));
    say_next("the same as a hash:", magnetar_absorb_digest(t, bytes("hash"), 4, abc));
    say_next("a word absorbed:", magnetar_absorb_u64(t, bytes("word"), 4, 7));
    say_next("elements absorbed:", magnetar_absorb_field(t, bytes("words"), 5, words, 4));
    say_next("half an element absorbed:", magnetar_absorb_field(t, bytes("words"), 5, words, 3));

    magnetar_answer two = magnetar_challenge_field_vec(t, bytes("next"), 4, 2, drawn, 4);
    say("two elements drawn:", two.code, drawn, 4);
    say_next("then:", two);

    magnetar_draw draw = magnetar_challenge_field(late, bytes("next"), 4);
    say("a draw with a late counter:", draw.code, drawn, 4);
    say_next("two draws:", magnetar_challenge_field_vec(late, bytes("next"), 4, 2, drawn, 4));
    say_next("bytes:", magnetar_absorb_bytes(late, bytes("hash"), 4, abc.bytes, 32));
    say_next("a hash:", magnetar_absorb_digest(late, bytes("hash"), 4, abc));
    say_next("a word:", magnetar_absorb_u64(late, bytes("word"), 4, 7));
    say_next("elements:", magnetar_absorb_field(late, bytes("words"), 5, words, 4));
}

static void layout(const char *what, size_t w, const size_t *lens, size_t n)
{
    size_t offsets[4];
    uint32_t code = magnetar_layout_build(w, lens, n, offsets, COUNT(offsets));
    printf("%s", what);
    for (size_t i = 0; code == MAGNETAR_OK && i < n; i++)
        printf(" %zu", offsets[i]);
    if (code != MAGNETAR_OK)
        printf(" refused %u", code);
    printf("\n");
}

/* The matrix of marked rows 7 and 8, which has a place twice, and one of values 1 whose columns do not exceed w. */
static const magnetar_matrix marked = {
    2, 4, 5, (size_t[]){0, 0, 1, 1, 1}, (size_t[]){0, 2, 1, 3, 1}, (uint64_t[]){1, 3, 7, 2, 7}, (uint64_t[]){0, 0, 0, 0, 0}};
static const magnetar_matrix binary = {
    2, 4, 4, (size_t[]){0, 0, 1, 1}, (size_t[]){0, 1, 1, 2}, (uint64_t[]){1, 1, 1, 1}, (uint64_t[]){0, 0, 0, 0}};

static void masks(const char *what, const magnetar_matrix *a, const uint64_t *packed, size_t v)
{
    uint64_t out[4];
    uint32_t code = magnetar_apply_simd_bit_masks(MAGNETAR_MATRIX(a), packed, 8, 4, 2, v, out, COUNT(out));
    printf("%s", what);
    for (size_t i = 0; code == MAGNETAR_OK && i < MAGNETAR_MASK_WORDS(a->rows, 2, v); i++)
        printf(" %llu", (unsigned long long)out[i]);
    if (code != MAGNETAR_OK)
        printf(" refused %u", code);
    printf("\n");
}

static void matrices(void)
{
    magnetar_matrix outside = marked;
    outside.rows = 1;
    uint64_t both[] = {3, 0}, x[] = {5, 0}, z[] = {1, 0, 1, 0, 1, 0, 5, 0}, point[] = {2, 0, 4, 0}, out[16], scratch[16];
    magnetar_flag f = magnetar_apply_simd_packed(MAGNETAR_MATRIX(&marked), both, 2, x, 2, 1, 2, out, 4);
    say("packed product:", f.code, out, 4);
    say_flag("of bits:", f);
    say_flag("without public elements:", magnetar_apply_simd_packed(MAGNETAR_MATRIX(&marked), both, 2, x, 0, 1, 2, out, 4));
    say("product:", magnetar_apply(MAGNETAR_MATRIX(&marked), z, 8, out, 4), out, 4);
    say("with three elements:", magnetar_apply(MAGNETAR_MATRIX(&marked), z, 6, out, 4), out, 4);

    say("table at [2]:", magnetar_eval_mle_table(MAGNETAR_MATRIX(&marked), point, 2, out, 8, scratch, 4), out, 8);
    say("table at [2, 4]:", magnetar_eval_mle_table(MAGNETAR_MATRIX(&marked), point, 4, out, 8, scratch, 4), out, 8);
    say_value("at [2] and [2, 4]:", magnetar_eval_mle_at(MAGNETAR_MATRIX(&marked), point, 2, point, 4, scratch, 12));
    say_value("at [2] and [2]:", magnetar_eval_mle_at(MAGNETAR_MATRIX(&marked), point, 2, point, 2, scratch, 12));

    say_flag("values of 0 and 1:", magnetar_is_binary(MAGNETAR_MATRIX(&marked)));
    say_flag("of the other matrix:", magnetar_is_binary(MAGNETAR_MATRIX(&binary)));
    say_flag("with an entry outside:", magnetar_is_binary(MAGNETAR_MATRIX(&outside)));

    /* logins 0 to 3, with bits past the columns that do not matter */
    uint64_t packed[] = {0xf0, 0, 1, 0xff, 2, 0, 3, 0};
    uint64_t same[] = {5, 0, 5, 0, 5, 0, 5, 0}, own[] = {5, 0, 7, 0};
    f = magnetar_apply_simd_packed(MAGNETAR_MATRIX(&binary), packed, 8, same, 8, 4, 2, out, 16);
    say("four logins:", f.code, out, 16);
    say_flag("of bits:", f);
    f = magnetar_apply_simd_packed(MAGNETAR_MATRIX(&marked), packed, 4, own, 4, 2, 2, out, 8);
    say("two logins with columns of their own:", f.code, out, 8);
    say_flag("with the columns of one:", magnetar_apply_simd_packed(MAGNETAR_MATRIX(&marked), packed, 4, own, 2, 2, 2, out, 8));
    masks("masks, two logins a word:", &binary, packed, 1);
    masks("four logins a word:", &binary, packed, 2);
    masks("eight logins a word:", &binary, packed, 3);
    masks("of other values:", &marked, packed, 1);
}

/* What the row check finds in two logins with the public element 5 each, whose segments have these lengths. */
static void check(const char *what, magnetar_relation r, const size_t *lens, size_t n, const uint64_t *packed)
{
    uint64_t x[] = {5, 0, 5, 0}, scratch[MAGNETAR_CHECK_SCRATCH(2, 2)];
    r.q = 2;
    r.lens = lens;
    r.segments = n;
    magnetar_row_verdict v = magnetar_check(&r, packed, 4, x, COUNT(x), scratch, COUNT(scratch));
    if (v.system == MAGNETAR_REFUSED)
        printf("%s refused %u\n", what, v.code);
    else if (v.system == MAGNETAR_STRAY)
        printf("%s stray bit, login %zu, column %zu\n", what, v.login, v.column);
    else if (v.system == MAGNETAR_GOOD)
        printf("%s good\n", what);
    else
        printf("%s %s, login %zu, row %zu\n", what, v.system == MAGNETAR_FAILS_BIN ? "bin" : "fld", v.login, v.row);
}

static void batch(void)
{
    layout("segments 4, 1, 8 in 16:", 16, (size_t[]){4, 1, 8}, 3);
    layout("segments 1, 8, 8 in 16:", 16, (size_t[]){1, 8, 8}, 3);
    layout("segment 3 in 16:", 16, (size_t[]){3}, 1);

    uint64_t packed[] = {1, 0, 3, 0}, point[] = {2, 0, 4, 0}, out[8], scratch[12];
    say("logins 1 and 3 folded at [2]:", magnetar_fold_packed_w(packed, 4, 2, 2, point, 2, out, 4, scratch, 4), out, 4);
    say("folded at [2, 4]:", magnetar_fold_packed_w(packed, 4, 2, 2, point, 4, out, 4, scratch, 4), out, 4);
    say("three words:", magnetar_fold_packed_w(packed, 3, 2, 2, point, 2, out, 4, scratch, 4), out, 4);

    magnetar_matrix six[] = {marked, binary, marked, binary, marked, binary};
    uint64_t alphas[] = {1, 0, 2, 0, 3, 0, 4, 0, 5, 0, 8, 0}, lo[27], hi[27];
    size_t row[27], col[27];
    magnetar_relation r = {.m = 4, .q = 1, .lens = (size_t[]){2}, .segments = 1};
    magnetar_join(&r, six, row, col, lo, hi);
    show_digest("relation:", magnetar_digest_of(&r).digest);
    say("combined table:", magnetar_combo(&r, alphas, 12, point, 2, point + 2, 2, out, 8, scratch, 12), out, 8);
    say("with five alphas:", magnetar_combo(&r, alphas, 10, point, 2, point + 2, 2, out, 8, scratch, 12), out, 8);
    check("row check, both columns in a segment:", r, (size_t[]){2}, 1, packed);
    check("row check, column 0 in a segment:", r, (size_t[]){1}, 1, packed);
    check("of the words 1 and 1:", r, (size_t[]){1}, 1, (uint64_t[]){1, 0, 1, 0});
    check("with a segment of 3:", r, (size_t[]){3}, 1, packed);
    check("with segments of 2 and 1:", r, (size_t[]){2, 1}, 2, packed);
    r.m = 8;
    printf("its digest with other columns: refused %u\n", magnetar_digest_of(&r).code);
    say("with other columns:", magnetar_combo(&r, alphas, 12, point, 2, point + 2, 2, out, 8, scratch, 12), out, 8);
}

int main(void)
{
    tables();
    rounds();
    hashing();
    matrices();
    batch();
    return 0;
}
