/*
 * Makes each call on Peggy's and on Vic's session in place and in its pure form, and compares both. Prints the numbers that each
 * call answered.
 */
#include "in_place.h"

/* --- What is tried --- */

/* A Schnorr sheet, a product sheet of two rows and three columns, a root sheet, and one that is refused with 2. */
static Sheet sheets[4];

/* For page A's sheet, for the product sheet and for the root sheet: witnesses, and nonces with their commitments. */
static const uint32_t arrays[][8] = {
    {7}, {5}, {9}, {2, 1, 0}, {1, 2, 3}, {2}, {3}, {33}, {8}, {11}, {0}, {23}, {1, 2, 3, 4, 5, 6, 7, 8},
};

static const uint32_t challenges[] = {0, 3, 4, 5, 10, 11, UINT32_MAX};

static const uint32_t phases[] = {0, 1, 2, 3, 4, UINT32_MAX};

/* How many commitments are listed, and names, of which 2 is the one that is saved. */
static const uint32_t counts[] = {0, 1, 64};
static const uint32_t names[] = {0, 2, 7, 8, UINT32_MAX};

static void make_sheets(void) {
    const uint32_t values[3] = {2, 3, 3};
    const uint32_t schnorr[1] = {13};
    const uint32_t product[2] = {12, 9};
    const uint32_t root[1] = {32};
    make(&sheets[0], DIMKHOROS_PATTERN_SCHNORR, 23, 11, 5, values, 1, schnorr, 1);
    make(&sheets[1], DIMKHOROS_PATTERN_PRODUCT, 23, 11, 5, values, 3, product, 2);
    make(&sheets[2], DIMKHOROS_PATTERN_ROOT, 35, 5, 5, NULL, 0, root, 1);
}

static Seen commits = {"commit", {0}, 0, 0};
static Seen responds = {"respond", {0}, 0, 0};
static Seen afters = {"respond_after", {0}, 0, 0};
static Seen failures = {"respond_after with a store that fails", {0}, 0, 0};
static Seen drops = {"drop", {0}, 0, 0};
static Seen saves = {"save", {0}, 0, 0};
static Seen returns = {"return_to", {0}, 0, 0};
static Seen commitments = {"take_commitment", {0}, 0, 0};
static Seen asks = {"take_challenge", {0}, 0, 0};
static Seen responses = {"take_response", {0}, 0, 0};

/* --- Peggy's calls --- */

static void try_commit(const Sheet *sheet, Lent session, const uint32_t nonce[8]) {
    Lent after = session, values = filled(0xEE);
    DimkhorosProverAnswer pure = dimkhoros_prover_commit(sheet->bytes, sheet->length, session.lent.peggy, nonce);
    uint32_t refusal =
        dimkhoros_commit(sheet->bytes, sheet->length, &after.lent.peggy, nonce, values.lent.values);
    count(&commits, refusal, pure.refusal);
    compare(&after, session, &pure.session, sizeof pure.session, refusal, &commits);
    compare(&values, filled(0xEE), pure.values, sizeof pure.values, refusal, &commits);
}

static void try_respond(const Sheet *sheet, Lent session, uint32_t challenge, const uint32_t witness[8]) {
    Lent after = session, values = filled(0xEE);
    DimkhorosProverAnswer pure =
        dimkhoros_prover_respond(sheet->bytes, sheet->length, session.lent.peggy, challenge, witness);
    uint32_t refusal =
        dimkhoros_respond(sheet->bytes, sheet->length, &after.lent.peggy, challenge, witness, values.lent.values);
    count(&responds, refusal, pure.refusal);
    compare(&after, session, &pure.session, sizeof pure.session, refusal, &responds);
    compare(&values, filled(0xEE), pure.values, sizeof pure.values, refusal, &responds);
}

/* Responds with a store that succeeds, and with one that fails. The bytes are those of the session after the response. */
static void try_respond_after(const Sheet *sheet, Lent session, uint32_t challenge, const uint32_t witness[8]) {
    static const int codes[] = {0, 1, -1};
    uint8_t stored[DIMKHOROS_STORED_PROVER];
    DimkhorosProverAnswer pure =
        dimkhoros_prover_respond(sheet->bytes, sheet->length, session.lent.peggy, challenge, witness);
    dimkhoros_prover_store(&pure.session, stored);
    for (size_t i = 0; i < COUNT(codes); i++) {
        Seen *seen = codes[i] == 0 ? &afters : &failures;
        Lent after = session, values = filled(0xEE);
        Disk disk = {codes[i], 0, {0}, 0, &values};
        uint32_t answer = dimkhoros_respond_after(sheet->bytes, sheet->length, &after.lent.peggy, challenge, witness, keep,
                                                  &disk, values.lent.values);
        require((answer == DIMKHOROS_NOT_STORED) == (codes[i] != 0 && pure.refusal == 0), seen, "another answer");
        count(seen, answer == DIMKHOROS_NOT_STORED ? 0 : answer, pure.refusal);
        look_at(&disk, stored, sizeof stored, pure.refusal, seen);
        compare(&after, session, &pure.session, sizeof pure.session, pure.refusal, seen);
        compare(&values, filled(0xEE), pure.values, sizeof pure.values, answer, seen);
    }
}

static void try_drop(Lent session) {
    Lent after = session;
    DimkhorosProverAnswer pure = dimkhoros_prover_drop(session.lent.peggy);
    uint32_t refusal = dimkhoros_drop(&after.lent.peggy);
    count(&drops, refusal, pure.refusal);
    compare(&after, session, &pure.session, sizeof pure.session, refusal, &drops);
}

static void try_save(Lent session, uint32_t name) {
    Lent after = session;
    DimkhorosProverAnswer pure = dimkhoros_prover_save(session.lent.peggy, name);
    uint32_t refusal = dimkhoros_save(&after.lent.peggy, name);
    count(&saves, refusal, pure.refusal);
    compare(&after, session, &pure.session, sizeof pure.session, refusal, &saves);
}

static void try_return_to(Lent session, uint32_t name) {
    Lent after = session;
    DimkhorosProverAnswer pure = dimkhoros_prover_return(session.lent.peggy, name);
    uint32_t refusal = dimkhoros_return_to(&after.lent.peggy, name);
    count(&returns, refusal, pure.refusal);
    compare(&after, session, &pure.session, sizeof pure.session, refusal, &returns);
}

/*
 * A session of Peggy's with this nonce, commitment and state, which are saved under 2, and with so many listed commitments: its own
 * if it is one.
 */
static Lent peggy(const uint32_t nonce[8], const uint32_t commitment[8], uint32_t phase, uint32_t listed) {
    Lent session = filled(0xDD);
    DimkhorosProverSession *made = &session.lent.peggy;
    DimkhorosSaved *saved = &made->memory.saved[2];
    memset(&made->memory, 0, sizeof made->memory);
    memcpy(made->nonce, nonce, sizeof made->nonce);
    memcpy(made->commitment, commitment, sizeof made->commitment);
    made->phase = phase;
    memcpy(saved->nonce, nonce, sizeof saved->nonce);
    memcpy(saved->commitment, commitment, sizeof saved->commitment);
    saved->phase = phase;
    saved->kept = 1;
    if (listed == 1) {
        memcpy(made->memory.answered[0].commitment, commitment, sizeof made->commitment);
    }
    made->memory.count = listed;
    return session;
}

/* All calls on one session of Peggy's and one sheet. */
static void try_peggy(const Sheet *sheet, Lent session) {
    try_drop(session);
    for (size_t n = 0; n < COUNT(names); n++) {
        try_save(session, names[n]);
        try_return_to(session, names[n]);
    }
    for (size_t i = 0; i < COUNT(arrays); i++) {
        try_commit(sheet, session, arrays[i]);
        for (size_t c = 0; c < COUNT(challenges); c++) {
            try_respond(sheet, session, challenges[c], arrays[i]);
            try_respond_after(sheet, session, challenges[c], arrays[i]);
        }
    }
}

/* Every state with every nonce and commitment, and the sessions that commitments lead to. */
static void try_peggys(const Sheet *sheet) {
    for (size_t n = 0; n < COUNT(arrays); n++) {
        for (size_t p = 0; p < COUNT(phases); p++) {
            try_peggy(sheet, peggy(arrays[n], arrays[(n + 1) % COUNT(arrays)], phases[p], 0));
        }
        DimkhorosProverSession fresh = dimkhoros_prover_new();
        DimkhorosProverAnswer committed = dimkhoros_prover_commit(sheet->bytes, sheet->length, fresh, arrays[n]);
        DimkhorosProverSession next = committed.session;
        for (size_t c = 0; c < COUNT(counts); c++) {
            try_peggy(sheet, peggy(next.nonce, next.commitment, next.phase, counts[c]));
        }
    }
}

/* --- Vic's calls --- */

static void try_take_commitment(const Sheet *sheet, Lent session, const uint32_t commitment[8]) {
    Lent after = session;
    DimkhorosVerifierAnswer pure =
        dimkhoros_verifier_commitment(sheet->bytes, sheet->length, session.lent.vic, commitment);
    uint32_t refusal = dimkhoros_take_commitment(sheet->bytes, sheet->length, &after.lent.vic, commitment);
    count(&commitments, refusal, pure.refusal);
    compare(&after, session, &pure.session, sizeof pure.session, refusal, &commitments);
}

static void try_take_challenge(const Sheet *sheet, Lent session, uint32_t challenge) {
    Lent after = session;
    DimkhorosVerifierAnswer pure =
        dimkhoros_verifier_challenge(sheet->bytes, sheet->length, session.lent.vic, challenge);
    uint32_t refusal = dimkhoros_take_challenge(sheet->bytes, sheet->length, &after.lent.vic, challenge);
    count(&asks, refusal, pure.refusal);
    compare(&after, session, &pure.session, sizeof pure.session, refusal, &asks);
}

static void try_take_response(const Sheet *sheet, Lent session, const uint32_t response[8]) {
    Lent after = session;
    DimkhorosVerifierJudgement pure =
        dimkhoros_verifier_response(sheet->bytes, sheet->length, session.lent.vic, response);
    DimkhorosJudgement verdict = dimkhoros_take_response(sheet->bytes, sheet->length, &after.lent.vic, response);
    count(&responses, verdict.refusal, pure.verdict.refusal);
    compare(&after, session, &pure.session, sizeof pure.session, verdict.refusal, &responses);
    require(memcmp(&verdict, &pure.verdict, sizeof verdict) == 0, &responses, "the verdicts differ");
    if (verdict.refusal == 0) {
        responses.accepted += verdict.accepted == 1;
        responses.rejected += verdict.accepted == 0;
    } else {
        require(verdict.accepted == 0 && verdict.rows == 0, &responses, "a refused response has a verdict");
    }
}

/* All calls on one session of Vic's and one sheet. */
static void try_vic(const Sheet *sheet, Lent session) {
    for (size_t i = 0; i < COUNT(arrays); i++) {
        try_take_commitment(sheet, session, arrays[i]);
        try_take_response(sheet, session, arrays[i]);
    }
    for (size_t c = 0; c < COUNT(challenges); c++) {
        try_take_challenge(sheet, session, challenges[c]);
    }
}

/* Every state with every commitment and challenge. */
static void try_vics(const Sheet *sheet) {
    for (size_t t = 0; t < COUNT(arrays); t++) {
        for (size_t c = 0; c < COUNT(challenges); c++) {
            for (size_t p = 0; p < COUNT(phases); p++) {
                Lent session = filled(0xDD);
                memcpy(session.lent.vic.commitment, arrays[t], sizeof arrays[t]);
                session.lent.vic.challenge = challenges[c];
                session.lent.vic.phase = phases[p];
                try_vic(sheet, session);
            }
        }
    }
}

int main(void) {
    make_sheets();
    for (size_t i = 0; i < COUNT(sheets); i++) {
        try_peggys(&sheets[i]);
        try_vics(&sheets[i]);
    }
    print(&commits);
    print(&responds);
    print(&afters);
    print(&failures);
    print(&drops);
    print(&saves);
    print(&returns);
    print(&commitments);
    print(&asks);
    print(&responses);
    return 0;
}
