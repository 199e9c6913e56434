/* The vault of crates/demo from C: `vault prove` writes a commitment to four logins and a proof of them, `vault verify` reads both and
 * judges them, then shows what is said about wrong words, batches, public elements, padding bits and sizes.
 *
 * Both ends absorb the relation's digest, the public elements and the commitment before the run. The verifier then checks the claims against
 * the commitment. The commitment scheme is outside this library: in its place stands SHA3-256 of the packed words, which is opened by showing
 * the words, so it hides nothing. */
#include "magnetar.h"

#include <stdio.h>
#include <string.h>

enum { M = 64, Q = 4, BIN = 16, FLD = 4, SEGMENTS = 3 };

#define PROOF MAGNETAR_PROOF_WORDS(2, 4, 2, 6, SEGMENTS)
#define CLAIMS MAGNETAR_CLAIM_WORDS(2, 6, SEGMENTS)
#define PACKED MAGNETAR_PACKED_WORDS(M, Q)
#define PUBLIC MAGNETAR_PUBLIC_WORDS(M, Q)
#define SCRATCH MAGNETAR_PROVER_SCRATCH(M, Q, BIN, FLD) /* the longest of the three */

static const size_t rules[] = {
#include "vault.rules"
};

enum { RULES = sizeof rules / sizeof rules[0] / 4 };

static size_t row[RULES], col[RULES], lens[SEGMENTS] = {8, 8, 8};
static uint64_t lo[RULES], hi[RULES], scratch[SCRATCH];

/* The rules sorted by their matrix, and then joined. */
static magnetar_relation relation(void)
{
    static size_t rows[6][RULES], cols[6][RULES];
    static uint64_t values[6][RULES], zeros[RULES];
    magnetar_matrix matrix[6];
    for (size_t k = 0; k < 6; k++)
        matrix[k] = (magnetar_matrix){k < 3 ? BIN : FLD, M, 0, rows[k], cols[k], values[k], zeros};
    for (size_t i = 0; i < RULES; i++) {
        const size_t *rule = rules + 4 * i, k = rule[0], n = matrix[k].entries++;
        rows[k][n] = rule[1];
        cols[k][n] = rule[2];
        values[k][n] = rule[3];
    }
    magnetar_relation r = {.m = M, .q = Q, .lens = lens, .segments = SEGMENTS};
    magnetar_join(&r, matrix, row, col, lo, hi);
    return r;
}

/* Whether n bits of the secret, from bit `from` on, are all 0. */
static uint64_t none(uint64_t secret, int from, int n)
{
    return (secret >> from & ((1u << n) - 1)) == 0;
}

static uint64_t login(uint64_t secret, uint64_t saved, uint64_t edition, uint64_t folder)
{
    uint64_t parity = 0;
    for (int i = 0; i < 8; i++)
        parity ^= secret >> i & 1;
    return secret | saved << 8 | parity << 9 | edition << 10 | folder << 12 | none(secret, 0, 2) << 16 | none(secret, 2, 2) << 17
           | none(secret, 4, 2) << 18 | none(secret, 6, 2) << 19 | none(secret, 0, 4) << 20 | none(secret, 4, 4) << 21
           | none(secret, 0, 8) << 22;
}

/* Sets the public columns of login u: the edition, and before it the folder. */
static void publish(uint64_t *x, size_t u, uint64_t edition, uint64_t folder)
{
    x[u * (M - 2)] = folder;
    x[u * (M - 2) + 2] = edition;
}

/* In the place of a commitment to the logins: the hash of their words' bytes, the low one first. */
static magnetar_digest commit(const uint64_t *packed)
{
    uint8_t bytes[8 * PACKED];
    for (size_t i = 0; i < sizeof bytes; i++)
        bytes[i] = (uint8_t)(packed[i / 8] >> 8 * (i % 8));
    return magnetar_sha3_256(bytes, sizeof bytes);
}

/* What both ends start from: a transcript that holds all that must be fixed before the challenges are drawn. */
static magnetar_transcript bound(magnetar_digest relation, const uint64_t *x, magnetar_digest commitment)
{
    size_t parts[] = {6};
    magnetar_transcript t = magnetar_transcript_new((const uint8_t *)"vault", 5, (const uint8_t *)"monday", 6, parts, 1).transcript;
    t = magnetar_absorb_digest(t, (const uint8_t *)"relation", 8, relation).transcript;
    t = magnetar_absorb_field(t, (const uint8_t *)"public", 6, x, PUBLIC).transcript;
    return magnetar_absorb_digest(t, (const uint8_t *)"commitment", 10, commitment).transcript;
}

/* Whether the claims are true of the logins that the commitment was made to: the commitment is opened, and each segment's value is that of
 * the logins folded at r_inst, at the first elements of r_low. */
static bool claims_hold(const uint64_t *claims, magnetar_digest commitment, const uint64_t *packed)
{
    const uint64_t *r_inst = claims, *r_low = r_inst + 2 * 2, *values = r_low + 2 * 5;
    uint64_t folded[M];
    size_t offsets[SEGMENTS];
    magnetar_digest opened = commit(packed);
    if (memcmp(opened.bytes, commitment.bytes, sizeof opened.bytes) != 0
        || magnetar_layout_build(M / 2, lens, SEGMENTS, offsets, SEGMENTS) != MAGNETAR_OK
        || magnetar_fold_packed_w(packed, PACKED, Q, M / 2, r_inst, 4, folded, M, scratch, SCRATCH) != MAGNETAR_OK)
        return false;
    for (size_t i = 0; i < SEGMENTS; i++) {
        magnetar_value v = magnetar_eval_mle(folded + 2 * offsets[i], 2 * lens[i], r_low, 2 * 3, scratch, SCRATCH);
        if (v.code != MAGNETAR_OK || v.element.lo != values[2 * i] || v.element.hi != values[2 * i + 1])
            return false;
    }
    return true;
}

static void show(const char *what, const uint64_t *words, size_t n)
{
    printf("%s", what);
    for (size_t i = 0; i < n; i += 2)
        printf(" %016llx%016llx", (unsigned long long)words[i + 1], (unsigned long long)words[i]);
    printf("\n");
}

static void show_rows(const char *what, magnetar_row_verdict a)
{
    static const char *const names[] = {"good", "bin", "fld", "refused", "stray bit"};
    printf("%s row check: %s %zu %zu %u\n", what, names[a.system], a.login, a.system == MAGNETAR_STRAY ? a.column : a.row, a.code);
}

/* The office's template has two segments more, 24 and 28 to 31, so that columns 25 to 27 are padding. */
static const size_t template_lens[] = {8, 8, 8, 1, 4};

enum { TEMPLATE_SEGMENTS = sizeof template_lens / sizeof template_lens[0] };

/* What is said about a batch under the template. */
static void of_template(const char *what, const magnetar_relation *r, const uint64_t *packed, const uint64_t *x)
{
    uint64_t proof[MAGNETAR_PROOF_WORDS(2, 4, 2, 6, TEMPLATE_SEGMENTS)], claims[MAGNETAR_CLAIM_WORDS(2, 6, TEMPLATE_SEGMENTS)];
    size_t words = sizeof proof / sizeof proof[0], n = sizeof claims / sizeof claims[0];
    magnetar_transcript t = bound(magnetar_digest_of(r).digest, x, commit(packed));
    show_rows(what, magnetar_check(r, packed, PACKED, x, PUBLIC, scratch, SCRATCH));
    printf("prove: %u", magnetar_prove(r, packed, PACKED, x, PUBLIC, t, proof, words, claims, n, scratch, SCRATCH).code);
    printf(" verify: %u\n", magnetar_verify(r, x, PUBLIC, proof, words, t, claims, n, scratch, SCRATCH).code);
}

/* Logins 1 and 3 are made from the template, which left their padding set; then it is cleared. The bits past the 32 columns stay set, and
 * never matter. */
static void templates(magnetar_relation r, const uint64_t *x, const uint64_t *good)
{
    uint64_t packed[PACKED];
    r.lens = template_lens;
    r.segments = TEMPLATE_SEGMENTS;
    memcpy(packed, good, sizeof packed);
    for (size_t u = 1; u < Q; u += 2)
        packed[2 * u] |= 0xff5f000000; /* 24, 25 to 27, 28 and 30, and past the columns */
    of_template("from a template with its padding set,", &r, packed, x);
    for (size_t u = 1; u < Q; u += 2)
        packed[2 * u] &= ~(uint64_t)0xe000000;
    of_template("with the padding cleared,", &r, packed, x);
}

int main(int argc, char **argv)
{
    magnetar_relation r = relation();
    uint64_t good[PACKED] = {login(0x4b, 1, 2, 5), 0, login(0xa7, 1, 3, 5), 0, login(0, 0, 1, 9), 0, login(0x80, 1, 1, 9), 0};
    uint64_t x[PUBLIC] = {0}, y[PUBLIC], proof[PROOF], claims[CLAIMS];
    publish(x, 0, 2, 5);
    publish(x, 1, 3, 5);
    publish(x, 2, 1, 9);
    publish(x, 3, 1, 9);
    magnetar_digest_answer rules = magnetar_digest_of(&r);
    magnetar_digest commitment = commit(good);
    if (rules.code != MAGNETAR_OK)
        return 1;

    if (argc == 2 && strcmp(argv[1], "prove") == 0) {
        magnetar_transcript t = bound(rules.digest, x, commitment);
        if (magnetar_prove(&r, good, PACKED, x, PUBLIC, t, proof, PROOF, claims, CLAIMS, scratch, SCRATCH).code != MAGNETAR_OK)
            return 1;
        for (size_t i = 0; i < 32; i++)
            printf("%02x", commitment.bytes[i]);
        printf("\n");
        for (size_t i = 0; i < PROOF; i++)
            printf("%016llx\n", (unsigned long long)proof[i]);
        return 0;
    }
    for (size_t i = 0; i < 32; i++)
        if (scanf("%2hhx", &commitment.bytes[i]) != 1)
            return 1;
    for (size_t i = 0; i < PROOF; i++)
        if (scanf("%llx", (unsigned long long *)&proof[i]) != 1)
            return 1;

    magnetar_transcript t = bound(rules.digest, x, commitment);
    magnetar_answer a = magnetar_verify(&r, x, PUBLIC, proof, PROOF, t, claims, CLAIMS, scratch, MAGNETAR_VERIFIER_SCRATCH(M, Q, BIN, FLD));
    show_rows("four logins,", magnetar_check(&r, good, PACKED, x, PUBLIC, scratch, SCRATCH));
    printf("verify: %u\n", a.code);
    show("claims:", claims, CLAIMS);
    printf("claims of the committed logins: %s\n", claims_hold(claims, commitment, good) ? "true" : "false");
    claims[CLAIMS - 2] ^= 1;
    printf("with a bit of a claim changed: %s\n", claims_hold(claims, commitment, good) ? "true" : "false");

    printf("with a bit of an element changed:");
    for (size_t i = 0; i < PROOF; i += 2) {
        proof[i] ^= 1;
        printf(" %u", magnetar_verify(&r, x, PUBLIC, proof, PROOF, t, claims, CLAIMS, scratch, SCRATCH).code);
        proof[i] ^= 1;
    }
    printf("\n");

    /* what was not bound could be chosen now that the challenges are known: another edition of login 0, another commitment */
    memcpy(y, x, sizeof x);
    publish(y, 0, 3, 5);
    magnetar_digest changed = commitment;
    changed.bytes[0] ^= 1;
    printf("with another edition: %u",
           magnetar_verify(&r, y, PUBLIC, proof, PROOF, bound(rules.digest, y, commitment), claims, CLAIMS, scratch, SCRATCH).code);
    printf(", another commitment: %u\n",
           magnetar_verify(&r, x, PUBLIC, proof, PROOF, bound(rules.digest, x, changed), claims, CLAIMS, scratch, SCRATCH).code);

    const struct {
        const char *what;
        size_t login;
        uint64_t bits;
    } wrong[] = {{"saved without a secret,", 2, login(0, 1, 1, 9)},
                 {"of the edition of another login,", 1, login(0xa7, 1, 2, 5)}};
    for (size_t i = 0; i < 2; i++) {
        uint64_t bad[PACKED], words[PROOF];
        memcpy(bad, good, sizeof good);
        bad[2 * wrong[i].login] = wrong[i].bits;
        magnetar_transcript u = bound(rules.digest, x, commit(bad));
        show_rows(wrong[i].what, magnetar_check(&r, bad, PACKED, x, PUBLIC, scratch, SCRATCH));
        printf("prove: %u", magnetar_prove(&r, bad, PACKED, x, PUBLIC, u, words, PROOF, claims, CLAIMS, scratch, SCRATCH).code);
        printf(" verify: %u\n", magnetar_verify(&r, x, PUBLIC, words, PROOF, u, claims, CLAIMS, scratch, SCRATCH).code);
    }

    /* the columns of logins 0 and 1 exchanged */
    publish(y, 1, 2, 5);
    magnetar_transcript u = bound(rules.digest, y, commitment);
    show_rows("with exchanged columns,", magnetar_check(&r, good, PACKED, y, PUBLIC, scratch, SCRATCH));
    printf("prove: %u", magnetar_prove(&r, good, PACKED, y, PUBLIC, u, proof, PROOF, claims, CLAIMS, scratch, SCRATCH).code);
    printf(" verify: %u\n", magnetar_verify(&r, y, PUBLIC, proof, PROOF, u, claims, CLAIMS, scratch, SCRATCH).code);

    templates(r, x, good);

    printf("wrong sizes: %u", magnetar_verify(&r, x, PUBLIC, proof, PROOF - 2, t, claims, CLAIMS, scratch, SCRATCH).code);
    printf(" %u", magnetar_verify(&r, x, M - 2, proof, PROOF, t, claims, CLAIMS, scratch, SCRATCH).code);
    printf(" %u", magnetar_prove(&r, good, PACKED - 2, x, PUBLIC, t, proof, PROOF, claims, CLAIMS, scratch, SCRATCH).code);
    r.q = 3;
    printf(" %u", magnetar_prove(&r, good, PACKED, x, PUBLIC, t, proof, PROOF, claims, CLAIMS, scratch, SCRATCH).code);
    printf(" %u", magnetar_digest_of(&r).code);
    r.q = Q;
    r.shapes.fld.c.entries++; /* one more than there are */
    printf(" %u", magnetar_prove(&r, good, PACKED, x, PUBLIC, t, proof, PROOF, claims, CLAIMS, scratch, SCRATCH).code);
    printf(" %u\n", magnetar_digest_of(&r).code);
    return 0;
}
