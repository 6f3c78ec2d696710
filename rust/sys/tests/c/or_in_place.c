/*
 * Makes each call on Peggy's session of the OR proof in place and in its pure form, and compares both. Prints the numbers that
 * each call answered.
 */
#include "in_place.h"

/* --- What is tried --- */

/* A Schnorr sheet, a product sheet and a root sheet with one K, a Schnorr sheet with another, and one that is refused with 2. */
static Sheet sheets[5];

/* Which of these are tried together. */
static const size_t pairs[][2] = {{0, 2}, {2, 1}, {1, 0}, {0, 3}, {0, 4}, {4, 1}};

/* For the three sheets: witnesses, nonces and responses. */
static const uint32_t arrays[][8] = {{7}, {5}, {2, 1, 0}, {2}, {3}, {11}, {35}, {1, 2, 3, 4, 5, 6, 7, 8}};

static const uint32_t challenges[] = {0, 3, 4, 5, UINT32_MAX};

static const uint32_t sides[] = {0, 1, UINT32_MAX};

static const uint32_t phases[] = {0, 1, 2, 3, 4, UINT32_MAX};

static void make_sheets(void) {
    const uint32_t values[3] = {2, 3, 3};
    const uint32_t schnorr[1] = {13};
    const uint32_t product[2] = {12, 9};
    const uint32_t root[1] = {32};
    make(&sheets[0], DIMKHOROS_PATTERN_SCHNORR, 23, 11, 5, values, 1, schnorr, 1);
    make(&sheets[1], DIMKHOROS_PATTERN_PRODUCT, 23, 11, 5, values, 3, product, 2);
    make(&sheets[2], DIMKHOROS_PATTERN_ROOT, 35, 5, 5, NULL, 0, root, 1);
    make(&sheets[3], DIMKHOROS_PATTERN_SCHNORR, 23, 11, 6, values, 1, schnorr, 1);
}

static Seen commits = {"or_commit", {0}, 0, 0};
static Seen responds = {"or_respond", {0}, 0, 0};
static Seen afters = {"or_respond_after", {0}, 0, 0};
static Seen failures = {"or_respond_after with a store that fails", {0}, 0, 0};
static Seen drops = {"or_drop", {0}, 0, 0};

/* --- The calls --- */

static void try_commit(const Sheet *a, const Sheet *b, Lent session, uint32_t side, const uint32_t nonce[8],
                       uint32_t challenge, const uint32_t response[8]) {
    Lent after = session, first = filled(0xEE), second = filled(0xEE);
    DimkhorosOrAnswer pure = dimkhoros_or_prover_commit(a->bytes, a->length, b->bytes, b->length, session.lent.either,
                                                        side, nonce, challenge, response);
    uint32_t refusal =
        dimkhoros_or_commit(a->bytes, a->length, b->bytes, b->length, &after.lent.either, side, nonce, challenge,
                            response, first.lent.values, second.lent.values);
    count(&commits, refusal, pure.refusal);
    compare(&after, session, &pure.session, sizeof pure.session, refusal, &commits);
    compare(&first, filled(0xEE), pure.values0, sizeof pure.values0, refusal, &commits);
    compare(&second, filled(0xEE), pure.values1, sizeof pure.values1, refusal, &commits);
}

/* The round of a pure answer to a challenge. */
static DimkhorosOrRound round_of(Lent session, const DimkhorosOrAnswer *pure, uint32_t challenge) {
    DimkhorosOrRound whole;
    memcpy(whole.commitment0, session.lent.either.commitment0, sizeof whole.commitment0);
    memcpy(whole.commitment1, session.lent.either.commitment1, sizeof whole.commitment1);
    memcpy(whole.response0, pure->values0, sizeof whole.response0);
    memcpy(whole.response1, pure->values1, sizeof whole.response1);
    whole.challenge = challenge;
    whole.challenge0 = pure->challenge0;
    return whole;
}

static void try_respond(const Sheet *a, const Sheet *b, Lent session, uint32_t challenge, const uint32_t witness[8]) {
    Lent after = session, round = filled(0xEE);
    DimkhorosOrAnswer pure = dimkhoros_or_prover_respond(a->bytes, a->length, b->bytes, b->length, session.lent.either,
                                                         challenge, witness);
    uint32_t refusal = dimkhoros_or_respond(a->bytes, a->length, b->bytes, b->length, &after.lent.either, challenge,
                                            witness, &round.lent.round);
    DimkhorosOrRound whole = round_of(session, &pure, challenge);
    count(&responds, refusal, pure.refusal);
    compare(&after, session, &pure.session, sizeof pure.session, refusal, &responds);
    compare(&round, filled(0xEE), &whole, sizeof whole, refusal, &responds);
    if (refusal == 0) {
        DimkhorosOrJudgement verdict =
            dimkhoros_or_judge(a->bytes, a->length, b->bytes, b->length, round.lent.round);
        require(verdict.accepted == 1, &responds, "the round is not accepted");
        responds.accepted++;
    }
}

/* Responds with a store that succeeds, and with one that fails. The bytes are those of the session after the response. */
static void try_respond_after(const Sheet *a, const Sheet *b, Lent session, uint32_t challenge, const uint32_t witness[8]) {
    uint8_t stored[DIMKHOROS_STORED_OR_PROVER];
    DimkhorosOrAnswer pure = dimkhoros_or_prover_respond(a->bytes, a->length, b->bytes, b->length, session.lent.either,
                                                         challenge, witness);
    DimkhorosOrRound whole = round_of(session, &pure, challenge);
    dimkhoros_or_prover_store(&pure.session, stored);
    for (int code = 0; code < 2; code++) {
        Seen *seen = code == 0 ? &afters : &failures;
        Lent after = session, round = filled(0xEE);
        Disk disk = {code, 0, {0}, 0, &round};
        uint32_t answer = dimkhoros_or_respond_after(a->bytes, a->length, b->bytes, b->length, &after.lent.either,
                                                     challenge, witness, keep, &disk, &round.lent.round);
        require((answer == DIMKHOROS_NOT_STORED) == (code != 0 && pure.refusal == 0), seen, "another answer");
        count(seen, answer == DIMKHOROS_NOT_STORED ? 0 : answer, pure.refusal);
        look_at(&disk, stored, sizeof stored, pure.refusal, seen);
        compare(&after, session, &pure.session, sizeof pure.session, pure.refusal, seen);
        compare(&round, filled(0xEE), &whole, sizeof whole, answer, seen);
    }
}

static void try_drop(Lent session) {
    Lent after = session;
    DimkhorosOrAnswer pure = dimkhoros_or_prover_drop(session.lent.either);
    uint32_t refusal = dimkhoros_or_drop(&after.lent.either);
    count(&drops, refusal, pure.refusal);
    compare(&after, session, &pure.session, sizeof pure.session, refusal, &drops);
}

/* --- The sessions --- */

/* A session in a phase, with a byte in all that it holds. */
static Lent held(int byte, uint32_t side, uint32_t phase) {
    Lent session = filled(byte);
    session.lent.either.side = side;
    session.lent.either.phase = phase;
    return session;
}

/* All choices that a new session, or one in another state, can be committed to; responses to the committed ones. */
static void try_choices(const Sheet *a, const Sheet *b, Lent session, uint32_t side) {
    for (size_t k = 0; k < COUNT(arrays); k++) {
        for (size_t d = 0; d < COUNT(challenges); d++) {
            const uint32_t *response = arrays[(k + d) % COUNT(arrays)];
            try_commit(a, b, session, side, arrays[k], challenges[d], response);
            Lent next = filled(0xDD);
            next.lent.either = dimkhoros_or_prover_commit(a->bytes, a->length, b->bytes, b->length,
                                                          session.lent.either, side, arrays[k], challenges[d], response)
                                   .session;
            for (size_t x = 0; x < COUNT(arrays); x++) {
                try_respond(a, b, next, challenges[(d + x) % COUNT(challenges)], arrays[x]);
                try_respond_after(a, b, next, challenges[(d + x) % COUNT(challenges)], arrays[x]);
            }
            try_drop(next);
        }
    }
}

static void try_pair(const Sheet *a, const Sheet *b) {
    for (size_t s = 0; s < COUNT(sides); s++) {
        for (size_t p = 0; p < COUNT(phases); p++) {
            try_choices(a, b, held(0xDD, sides[s], phases[p]), sides[s]);
            try_choices(a, b, held(0, sides[s], phases[p]), sides[(s + 1) % COUNT(sides)]);
        }
    }
}

int main(void) {
    make_sheets();
    for (size_t i = 0; i < COUNT(pairs); i++) {
        try_pair(&sheets[pairs[i][0]], &sheets[pairs[i][1]]);
    }
    print(&commits);
    print(&responds);
    print(&afters);
    print(&failures);
    print(&drops);
    return 0;
}
