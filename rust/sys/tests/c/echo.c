/*
 * Calls every export with values that differ from field to field, and prints every field of what comes back, in the form in
 * which Rust prints a struct. An empty slice crosses as NULL here.
 */
#include "dimkhoros.h"
#include <stdio.h>
#include <string.h>

/* --- What is printed --- */

static void print_places(const uint32_t places[8]) {
    printf("[");
    for (int i = 0; i < 8; i++) {
        printf("%s%u", i ? ", " : "", places[i]);
    }
    printf("]");
}

static void print_loaded(DimkhorosLoaded a) {
    printf("Loaded { header: Header { kind: %u, modulus: %u, order: %u, challenges: %u, rows: %u, columns: %u }",
           a.header.kind, a.header.modulus, a.header.order, a.header.challenges, a.header.rows, a.header.columns);
    printf(", statement: ");
    print_places(a.statement);
    printf(", refusal: %u }\n", a.refusal);
}

/* What asking for a sheet's entries answers, and what then stands in an array of ones in each byte. */
static void print_entries(const uint8_t *sheet, size_t length) {
    uint32_t entries[64];
    memset(entries, 1, sizeof entries);
    printf("(%u, [", dimkhoros_entries(sheet, length, entries));
    for (int i = 0; i < 8; i++) {
        printf("%s", i ? ", " : "");
        print_places(entries + 8 * i);
    }
    printf("])\n");
}

static void print_bytes(const uint8_t *bytes, size_t length) {
    printf("[");
    for (size_t i = 0; i < length; i++) {
        printf("%s%u", i ? ", " : "", bytes[i]);
    }
    printf("]\n");
}

static void print_written(DimkhorosWritten a) {
    printf("Written { length: %zu, refusal: %u }\n", a.length, a.refusal);
}

static void print_counted(DimkhorosCounted a) {
    printf("Counted { count: %u, refusal: %u }\n", a.count, a.refusal);
}

static void print_part(DimkhorosPart a) {
    printf("Part { offset: %zu, length: %zu }\n", a.offset, a.length);
}

static void print_round(const DimkhorosRound *a) {
    printf("Round { commitment: ");
    print_places(a->commitment);
    printf(", challenge: %u, response: ", a->challenge);
    print_places(a->response);
    printf(" }");
}

static void print_fetched(DimkhorosFetched a) {
    printf("Fetched { round: ");
    print_round(&a.round);
    printf(", refusal: %u }\n", a.refusal);
}

static void print_computed(DimkhorosComputed a) {
    printf("Computed { values: ");
    print_places(a.values);
    printf(", refusal: %u }\n", a.refusal);
}

static void print_verdict(DimkhorosJudgement a) {
    printf("Judgement { accepted: %u, rows: %u, refusal: %u }", a.accepted, a.rows, a.refusal);
}

static void print_judgement(DimkhorosJudgement a) {
    print_verdict(a);
    printf("\n");
}

static void print_prover_session(DimkhorosProverSession a) {
    printf("ProverSession { nonce: ");
    print_places(a.nonce);
    printf(", commitment: ");
    print_places(a.commitment);
    printf(", phase: %u }", a.phase);
}

/* The saved states: of those that are the same and follow each other the first, with how many they are. */
static void print_saved(const DimkhorosSaved saved[8]) {
    for (size_t i = 0, next; i < 8; i = next) {
        for (next = i; next < 8 && memcmp(&saved[next], &saved[i], sizeof saved[i]) == 0;) {
            next++;
        }
        printf("%zu of Saved { nonce: ", next - i);
        print_places(saved[i].nonce);
        printf(", commitment: ");
        print_places(saved[i].commitment);
        printf(", phase: %u, kept: %u }\n", saved[i].phase, saved[i].kept);
    }
}

/* The answered commitments in the same way. */
static void print_listed(const DimkhorosListed listed[64]) {
    for (size_t i = 0, next; i < 64; i = next) {
        for (next = i; next < 64 && memcmp(&listed[next], &listed[i], sizeof listed[i]) == 0;) {
            next++;
        }
        printf("%zu of Listed { commitment: ", next - i);
        print_places(listed[i].commitment);
        printf(" }\n");
    }
}

static void print_memory(const DimkhorosMemory *a) {
    print_saved(a->saved);
    print_listed(a->answered);
    printf("count: %u\n", a->count);
}

/* What a call on Peggy's session answers, but for the session's memory. */
static void print_prover_step(const DimkhorosProverAnswer *a) {
    printf("ProverAnswer { session: ");
    print_prover_session(a->session);
    printf(", values: ");
    print_places(a->values);
    printf(", refusal: %u }\n", a->refusal);
}

static void print_prover_answer(DimkhorosProverAnswer a) {
    print_prover_step(&a);
    print_memory(&a.session.memory);
}

/* What a refused call answers, and whether the session is the given one. */
static void print_prover_refused(DimkhorosProverAnswer a, const DimkhorosProverSession *given) {
    print_prover_step(&a);
    printf("%s\n", memcmp(&a.session, given, sizeof *given) == 0 ? "the same session" : "another session");
}

static void print_verifier_session(DimkhorosVerifierSession a) {
    printf("VerifierSession { commitment: ");
    print_places(a.commitment);
    printf(", challenge: %u, phase: %u }", a.challenge, a.phase);
}

static void print_verifier_answer(DimkhorosVerifierAnswer a) {
    printf("VerifierAnswer { session: ");
    print_verifier_session(a.session);
    printf(", refusal: %u }\n", a.refusal);
}

static void print_verifier_judgement(DimkhorosVerifierJudgement a) {
    printf("VerifierJudgement { verdict: ");
    print_verdict(a.verdict);
    printf(", session: ");
    print_verifier_session(a.session);
    printf(" }\n");
}

static void print_compared(DimkhorosCompared a) {
    printf("Compared { same: %u, refusal: %u }\n", a.same, a.refusal);
}

static void print_or_judgement(DimkhorosOrJudgement a) {
    printf("OrJudgement { accepted: %u, rows0: %u, rows1: %u, refusal: %u }\n", a.accepted, a.rows0, a.rows1, a.refusal);
}

static void print_or_extracted(DimkhorosOrExtracted a) {
    printf("OrExtracted { values: ");
    print_places(a.values);
    printf(", side: %u, refusal: %u }\n", a.side, a.refusal);
}

static void print_or_session(DimkhorosOrSession a) {
    printf("OrSession { nonce: ");
    print_places(a.nonce);
    printf(", response: ");
    print_places(a.response);
    printf(", commitment0: ");
    print_places(a.commitment0);
    printf(", commitment1: ");
    print_places(a.commitment1);
    printf(", challenge: %u, side: %u, phase: %u }", a.challenge, a.side, a.phase);
}

static void print_or_answer(DimkhorosOrAnswer a) {
    printf("OrAnswer { session: ");
    print_or_session(a.session);
    printf(", values0: ");
    print_places(a.values0);
    printf(", values1: ");
    print_places(a.values1);
    printf(", challenge0: %u, refusal: %u }\n", a.challenge0, a.refusal);
}

/* A watch: of rounds that are the same and follow each other the first, with how many they are; and the sheet's bytes. */
static void print_watch(const DimkhorosWatch *a) {
    printf("length: %u, count: %u\n", a->length, a->count);
    for (size_t i = 0, next; i < DIMKHOROS_MOST_REMEMBERED; i = next) {
        for (next = i; next < DIMKHOROS_MOST_REMEMBERED && memcmp(&a->rounds[next], &a->rounds[i], sizeof a->rounds[i]) == 0;) {
            next++;
        }
        printf("%zu of ", next - i);
        print_round(&a->rounds[i]);
        printf("\n");
    }
    print_bytes(a->sheet, sizeof a->sheet);
}

static void print_opened(DimkhorosOpened a) {
    print_watch(&a.watch);
    printf("refusal: %u\n", a.refusal);
}

static void print_heard(DimkhorosWatchAnswer a) {
    printf("witness: ");
    print_places(a.witness);
    printf(", back: %u, verdict: ", a.back);
    print_judgement(a.verdict);
}

static void print_line(const DimkhorosLine *a) {
    printf("Line { kind: %u, first: %u, second: %u, commitment: %u, t: [%u, %u], challenge: %u, response: [%u, %u, %u] }",
           a->kind, a->first, a->second, a->commitment, a->t[0], a->t[1], a->challenge, a->response[0], a->response[1],
           a->response[2]);
}

/* A ledger: of lines that are the same and follow each other the first, with how many they are. */
static void print_ledger(const DimkhorosLedger *a) {
    printf("count: %u\n", a->count);
    for (size_t i = 0, next; i < DIMKHOROS_MOST_LINES; i = next) {
        for (next = i; next < DIMKHOROS_MOST_LINES && memcmp(&a->lines[next], &a->lines[i], sizeof a->lines[i]) == 0;) {
            next++;
        }
        printf("%zu of ", next - i);
        print_line(&a->lines[i]);
        printf("\n");
    }
}

static void print_ledger_written(DimkhorosLedgerWritten a) {
    print_ledger(&a.ledger);
    printf("refusal: %u\n", a.refusal);
}

static void print_checked(DimkhorosChecked a) {
    printf("Checked { accepted: %u, line: %u, refusal: %u }\n", a.accepted, a.line, a.refusal);
}

/* --- What is called --- */

/* A sheet of 8 rows and 8 columns with 2 on the diagonal and 1 elsewhere: row i's image is 2 to the i-th coordinate. */
static uint8_t wide[DIMKHOROS_LONGEST_SHEET];

/* A root sheet of 8 rows. */
static uint8_t roots[52];

/* The shipped pattern file. */
static uint8_t shipped[DIMKHOROS_SHIPPED_PATTERNS];

static const uint32_t witness[8] = {1, 2, 3, 4, 5, 6, 7, 8};
static const uint32_t statement[8] = {2, 4, 8, 16, 9, 18, 13, 3};
static const uint32_t nonce[8] = {0, 3, 6, 9, 1, 4, 7, 10};
static const uint32_t commitment[8] = {1, 8, 18, 6, 2, 16, 13, 12};
static const uint32_t response[8] = {1, 5, 9, 2, 6, 10, 3, 7};

/* What the commitment and this multiply to is the statement. */
static const uint32_t rest[8] = {2, 12, 3, 18, 16, 4, 1, 6};
static const uint32_t ones[8] = {1, 1, 1, 1, 1, 1, 1, 1};

static const uint32_t root_witness[8] = {2, 3, 4, 5, 6, 8, 9, 10};
static const uint32_t root_statement[8] = {30, 38, 53, 26, 62, 50, 58, 10};
static const uint32_t root_nonce[8] = {12, 13, 15, 16, 17, 18, 19, 20};
static const uint32_t root_response[8] = {23, 24, 25, 26, 27, 29, 30, 31};

/* Eight numbers that rise from one. */
static void rise(uint32_t places[8], uint32_t first) {
    for (uint32_t i = 0; i < 8; i++) {
        places[i] = first + i;
    }
}

static DimkhorosRound rising_round(uint32_t first) {
    DimkhorosRound round;
    rise(round.commitment, first);
    round.challenge = first + 8;
    rise(round.response, first + 9);
    return round;
}

static DimkhorosRound honest_round(uint32_t challenge, const uint32_t r[8]) {
    DimkhorosRound round;
    memcpy(round.commitment, commitment, sizeof commitment);
    round.challenge = challenge;
    memcpy(round.response, r, 8 * sizeof r[0]);
    return round;
}

static DimkhorosOrRound rising_or_round(uint32_t first) {
    DimkhorosOrRound round;
    rise(round.commitment0, first);
    rise(round.commitment1, first + 8);
    rise(round.response0, first + 16);
    rise(round.response1, first + 24);
    round.challenge = first + 32;
    round.challenge0 = first + 33;
    return round;
}

/* Peggy's session of the OR proof, committed with the witness of this side. */
static DimkhorosOrAnswer or_committed(uint32_t side) {
    return dimkhoros_or_prover_commit(wide, sizeof wide, roots, sizeof roots, dimkhoros_or_prover_new(), side,
                                      side == 0 ? nonce : root_nonce, 3, side == 0 ? root_response : response);
}

/* What it answers to a challenge. */
static DimkhorosOrAnswer or_answered(uint32_t side, uint32_t challenge) {
    return dimkhoros_or_prover_respond(wide, sizeof wide, roots, sizeof roots, or_committed(side).session, challenge,
                                       side == 0 ? witness : root_witness);
}

/* The whole round. */
static DimkhorosOrRound or_round(uint32_t side, uint32_t challenge) {
    DimkhorosOrAnswer answer = or_answered(side, challenge);
    DimkhorosOrRound round;
    memcpy(round.commitment0, answer.session.commitment0, sizeof round.commitment0);
    memcpy(round.commitment1, answer.session.commitment1, sizeof round.commitment1);
    memcpy(round.response0, answer.values0, sizeof round.response0);
    memcpy(round.response1, answer.values1, sizeof round.response1);
    round.challenge = challenge;
    round.challenge0 = answer.challenge0;
    return round;
}

static void sheets(void) {
    uint8_t file[DIMKHOROS_SHIPPED_PATTERNS + 2];
    memset(file, 238, sizeof file);
    print_written(dimkhoros_patterns(file, sizeof file));
    print_bytes(file, sizeof file);
    memcpy(shipped, file, sizeof shipped);

    uint8_t product[DIMKHOROS_LONGEST_SHEET];
    const uint32_t values[3] = {2, 3, 3};
    const uint32_t z[2] = {12, 9};
    DimkhorosWritten made =
        dimkhoros_from_pattern(shipped, sizeof shipped, 5, 23, 11, 5, values, 3, z, 2, product, sizeof product);
    print_written(made);
    print_loaded(dimkhoros_load(product, made.length));
    print_entries(product, made.length);

    uint32_t entries[64];
    DimkhorosHeader header = {1, 23, 11, 5, 8, 8};
    for (int k = 0; k < 64; k++) {
        entries[k] = k % 9 == 0 ? 2 : 1;
    }
    print_written(dimkhoros_encode(header, entries, statement, wide, sizeof wide));
    print_loaded(dimkhoros_load(wide, sizeof wide));
    print_entries(wide, sizeof wide);
    header.rows = 9;
    print_written(dimkhoros_encode(header, entries, statement, product, sizeof product));
    print_written(
        dimkhoros_from_pattern(shipped, sizeof shipped, 0, 35, 5, 5, NULL, 0, z, 1, product, sizeof product));
    print_written(dimkhoros_from_pattern(file, sizeof file, 0, 35, 5, 5, NULL, 0, z, 1, product, sizeof product));

    const DimkhorosHeader of_roots = {2, 77, 13, 5, 8, 8};
    if (dimkhoros_encode(of_roots, entries, root_statement, roots, sizeof roots).length != sizeof roots) {
        printf("the root sheet is refused\n");
    }
}

/* Sheets from linear forms: 2 rows, 3 generators and 4 columns, with another form in each. */
static void forms(void) {
    const uint32_t good[3] = {2, 3, 4}, bad[3] = {2, 3, 5};
    const uint32_t z[2] = {13, 8}, bad_z[2] = {13, 7};
    uint32_t c[24];
    uint8_t sheet[62];
    for (uint32_t k = 0; k < 24; k++) {
        c[k] = k * k % 11;
    }
    memset(sheet, 238, sizeof sheet);
    DimkhorosWritten made = dimkhoros_linear(23, 11, 5, 2, 4, good, 3, c, 24, z, 2, sheet, sizeof sheet);
    print_written(made);
    print_loaded(dimkhoros_load(sheet, made.length));
    print_entries(sheet, made.length);
    print_bytes(sheet, sizeof sheet);
    print_written(dimkhoros_linear(23, 11, 5, 2, 9, good, 3, c, 24, z, 2, sheet, sizeof sheet));
    print_written(dimkhoros_linear(23, 11, 5, 2, 4, good, 2, c, 24, z, 2, sheet, sizeof sheet));
    print_written(dimkhoros_linear(23, 11, 5, 2, 4, good, 3, c, 23, z, 2, sheet, sizeof sheet));
    print_written(dimkhoros_linear(23, 11, 5, 2, 4, good, 3, c, 24, z, 1, sheet, sizeof sheet));
    print_written(dimkhoros_linear(23, 7, 5, 2, 4, good, 3, c, 24, z, 2, sheet, sizeof sheet));
    print_written(dimkhoros_linear(23, 11, 5, 2, 4, bad, 3, c, 24, z, 2, sheet, sizeof sheet));
    print_written(dimkhoros_linear(23, 11, 5, 2, 4, good, 3, c, 24, bad_z, 2, sheet, sizeof sheet));
    print_written(dimkhoros_linear(23, 11, 5, 2, 4, good, 3, c, 24, z, 2, sheet, 59));
    print_bytes(sheet, sizeof sheet);
}

static void files(void) {
    uint8_t buffer[200];
    print_written(dimkhoros_empty(1, buffer, sizeof buffer));
    print_written(dimkhoros_append(wide, sizeof wide, buffer, sizeof buffer, 7, rising_round(101)));
    print_written(dimkhoros_append(wide, sizeof wide, buffer, sizeof buffer, 75, rising_round(201)));
    print_written(dimkhoros_append(wide, sizeof wide, buffer, sizeof buffer, 143, rising_round(301)));
    print_counted(dimkhoros_count(wide, sizeof wide, buffer, 143));
    print_counted(dimkhoros_count(wide, sizeof wide, buffer, 142));
    print_part(dimkhoros_part(wide, sizeof wide, buffer, 143, 1));
    print_part(dimkhoros_part(wide, sizeof wide, buffer, 143, 2));
    print_fetched(dimkhoros_read(wide, sizeof wide, buffer, 143, 0));
    print_fetched(dimkhoros_read(wide, sizeof wide, buffer, 143, 1));
    print_fetched(dimkhoros_read(wide, sizeof wide, buffer, 143, 2));
    printf("%u\n", dimkhoros_check(wide, sizeof wide, buffer, 143, 1));
    printf("%u\n", dimkhoros_check(wide, sizeof wide, buffer, 143, (size_t)-1));
    print_compared(dimkhoros_same_commitment(wide, sizeof wide, buffer, 143, 1, 1));
    print_compared(dimkhoros_same_commitment(wide, sizeof wide, buffer, 143, 0, 1));
    print_compared(dimkhoros_same_commitment(wide, sizeof wide, buffer, 143, 0, SIZE_MAX));

    uint8_t narrow[141];
    memset(narrow, 238, sizeof narrow);
    DimkhorosRound wider = rising_round(1);
    print_written(dimkhoros_empty(65538, narrow, sizeof narrow));
    print_written(dimkhoros_convert(wide, sizeof wide, buffer, 143, narrow, 138));
    print_written(dimkhoros_convert(wide, sizeof wide, buffer, 143, narrow, sizeof narrow));
    print_bytes(narrow, sizeof narrow);
    print_fetched(dimkhoros_read(wide, sizeof wide, narrow, 139, 1));
    wider.challenge = 65536;
    print_written(dimkhoros_append(wide, sizeof wide, narrow, sizeof narrow, 139, wider));
    wider.challenge = 65535;
    print_written(dimkhoros_append(wide, sizeof wide, narrow, sizeof narrow, 139, wider));
    print_written(dimkhoros_convert(wide, sizeof wide, narrow, 139, buffer, sizeof buffer));
    print_fetched(dimkhoros_read(wide, sizeof wide, buffer, 143, 1));
}

static void rounds(void) {
    print_judgement(dimkhoros_judge(wide, sizeof wide, honest_round(1, response)));
    print_judgement(dimkhoros_judge(wide, sizeof wide, honest_round(2, response)));
    uint32_t wrong[8];
    memcpy(wrong, response, sizeof wrong);
    wrong[5] = 0;
    print_judgement(dimkhoros_judge(wide, sizeof wide, honest_round(1, wrong)));
    print_judgement(dimkhoros_judge(wide, sizeof wide, honest_round(5, response)));
    print_computed(dimkhoros_simulate(wide, sizeof wide, 1, response));
    wrong[5] = 11;
    print_computed(dimkhoros_simulate(wide, sizeof wide, 1, wrong));
    print_computed(dimkhoros_extract(wide, sizeof wide, honest_round(1, response), honest_round(0, nonce)));
    print_computed(dimkhoros_extract(wide, sizeof wide, honest_round(0, nonce), honest_round(1, nonce)));
}

/* A session of Peggy's whose numbers all differ. */
static DimkhorosProverSession odd_prover(void) {
    DimkhorosProverSession odd;
    odd.phase = 77;
    rise(odd.nonce, 401);
    rise(odd.commitment, 501);
    for (uint32_t i = 0; i < 8; i++) {
        rise(odd.memory.saved[i].nonce, 1000 + 100 * i);
        rise(odd.memory.saved[i].commitment, 1020 + 100 * i);
        odd.memory.saved[i].phase = 1040 + 100 * i;
        odd.memory.saved[i].kept = 1050 + 100 * i;
    }
    for (uint32_t i = 0; i < 64; i++) {
        rise(odd.memory.answered[i].commitment, 2000 + 10 * i);
    }
    odd.memory.count = 88;
    return odd;
}

static void provers(void) {
    const DimkhorosProverSession fresh = dimkhoros_prover_new();
    print_prover_session(fresh);
    printf("\n");
    print_memory(&fresh.memory);
    DimkhorosProverAnswer step = dimkhoros_prover_commit(wide, sizeof wide, dimkhoros_prover_new(), nonce);
    print_prover_answer(step);
    print_prover_answer(dimkhoros_prover_drop(step.session));
    print_prover_answer(dimkhoros_prover_respond(wide, sizeof wide, step.session, 1, witness));
    const DimkhorosProverSession odd = odd_prover();
    print_prover_refused(dimkhoros_prover_commit(wide, sizeof wide, odd, nonce), &odd);
    print_prover_refused(dimkhoros_prover_respond(wide, sizeof wide, odd, 1, witness), &odd);
    print_prover_refused(dimkhoros_prover_drop(odd), &odd);
    print_prover_refused(dimkhoros_prover_save(odd, 8), &odd);
    print_prover_refused(dimkhoros_prover_return(odd, 9), &odd);
    print_prover_answer(dimkhoros_prover_save(odd, 6));
    print_prover_answer(dimkhoros_prover_return(odd, 5));
}

static void verifiers(void) {
    print_verifier_session(dimkhoros_verifier_new());
    printf("\n");
    DimkhorosVerifierAnswer step =
        dimkhoros_verifier_commitment(wide, sizeof wide, dimkhoros_verifier_new(), commitment);
    print_verifier_answer(step);
    step = dimkhoros_verifier_challenge(wide, sizeof wide, step.session, 1);
    print_verifier_answer(step);
    print_verifier_judgement(dimkhoros_verifier_response(wide, sizeof wide, step.session, response));
    uint32_t wrong[8];
    memcpy(wrong, response, sizeof wrong);
    wrong[5] = 0;
    print_verifier_judgement(dimkhoros_verifier_response(wide, sizeof wide, step.session, wrong));
    DimkhorosVerifierSession odd;
    odd.phase = 78;
    rise(odd.commitment, 601);
    odd.challenge = 609;
    print_verifier_answer(dimkhoros_verifier_commitment(wide, sizeof wide, odd, commitment));
    print_verifier_answer(dimkhoros_verifier_challenge(wide, sizeof wide, odd, 1));
    print_verifier_judgement(dimkhoros_verifier_response(wide, sizeof wide, odd, response));
}

static void or_rounds(void) {
    print_or_judgement(dimkhoros_or_judge(wide, sizeof wide, roots, sizeof roots, or_round(0, 1)));
    print_or_judgement(dimkhoros_or_judge(roots, sizeof roots, wide, sizeof wide, rising_or_round(1)));
    DimkhorosOrRound wrong[5];
    for (int i = 0; i < 5; i++) {
        wrong[i] = or_round(0, 1);
    }
    wrong[0].response0[5] = 2;
    wrong[1].response1[6] = 1;
    wrong[2].challenge0 = 5;
    wrong[3].commitment1[7] = 7;
    wrong[4].response0[4] = 1;
    wrong[4].response1[2] = 1;
    for (int i = 0; i < 5; i++) {
        print_or_judgement(dimkhoros_or_judge(wide, sizeof wide, roots, sizeof roots, wrong[i]));
    }
    print_or_extracted(dimkhoros_or_extract(wide, sizeof wide, roots, sizeof roots, or_round(0, 1), or_round(0, 3)));
    print_or_extracted(dimkhoros_or_extract(wide, sizeof wide, roots, sizeof roots, or_round(1, 1), or_round(1, 3)));
    print_or_extracted(dimkhoros_or_extract(wide, sizeof wide, roots, sizeof roots, or_round(1, 1), or_round(0, 3)));
}

static void or_provers(void) {
    print_or_session(dimkhoros_or_prover_new());
    printf("\n");
    print_or_answer(or_committed(0));
    print_or_answer(or_committed(UINT32_MAX));
    print_or_answer(or_answered(0, 1));
    print_or_answer(or_answered(1, 2));
    print_or_answer(dimkhoros_or_prover_drop(or_committed(1).session));
    DimkhorosOrSession odd;
    rise(odd.nonce, 401);
    rise(odd.response, 409);
    rise(odd.commitment0, 501);
    rise(odd.commitment1, 509);
    odd.challenge = 517;
    odd.side = 518;
    odd.phase = 77;
    print_or_answer(dimkhoros_or_prover_commit(wide, sizeof wide, roots, sizeof roots, odd, 0, nonce, 1, root_response));
    print_or_answer(dimkhoros_or_prover_respond(wide, sizeof wide, roots, sizeof roots, odd, 1, root_witness));
    print_or_answer(dimkhoros_or_prover_drop(odd));
}

/* What two players bring, and numbers behind it that are not read. */
static void bring(uint32_t parts[64], const uint32_t first[8], const uint32_t second[8]) {
    for (uint32_t i = 0; i < 64; i++) {
        parts[i] = i < 8 ? first[i] : i < 16 ? second[i - 8] : 1001 + i;
    }
}

static void teams(void) {
    uint32_t images[64], root_images[64], commitments[64], responses[64], root_responses[64];
    bring(images, commitment, rest);
    bring(root_images, root_statement, ones);
    bring(commitments, statement, commitment);
    bring(responses, nonce, response);
    bring(root_responses, root_nonce, root_response);
    print_computed(dimkhoros_team_commitment(wide, sizeof wide, 2, images, commitments));
    print_computed(dimkhoros_team_response(wide, sizeof wide, 2, images, responses));
    print_computed(dimkhoros_team_commitment(roots, sizeof roots, 2, root_images, root_responses));
    print_computed(dimkhoros_team_response(roots, sizeof roots, 2, root_images, root_responses));
    print_computed(dimkhoros_team_commitment(wide, sizeof wide, 1, images, commitments));
    print_computed(dimkhoros_team_response(wide, sizeof wide, UINT32_MAX, images, responses));
    print_computed(dimkhoros_team_commitment(wide, sizeof wide, 3, images, commitments));
    print_computed(dimkhoros_team_response(wide, sizeof wide, 2, commitments, responses));
    print_computed(dimkhoros_team_commitment(wide, sizeof wide, 2, commitments, responses));
    print_computed(dimkhoros_team_response(wide, sizeof wide, 2, commitments, commitments));
}

/* A watch of the wide sheet that remembers 63 rounds: 62 that differ, and the oldest, which is accepted. */
static DimkhorosWatch full_watch(void) {
    DimkhorosWatch watch = dimkhoros_watch_open(wide, sizeof wide).watch;
    for (uint32_t i = 0; i < 62; i++) {
        watch.rounds[i] = rising_round(100 * i);
    }
    watch.rounds[62] = honest_round(0, nonce);
    watch.count = 63;
    return watch;
}

static void watches(void) {
    print_opened(dimkhoros_watch_open(wide, sizeof wide));
    print_opened(dimkhoros_watch_open(roots, sizeof roots));
    print_opened(dimkhoros_watch_open(wide, sizeof wide - 1));
    DimkhorosWatch watch = full_watch();
    DimkhorosWatchAnswer answer = dimkhoros_watch_round(wide, sizeof wide, watch, honest_round(1, response));
    print_heard(answer);
    print_watch(&answer.watch);
    print_heard(dimkhoros_watch_round(wide, sizeof wide, answer.watch, honest_round(0, nonce)));
    print_heard(dimkhoros_watch_round(wide, sizeof wide, watch, honest_round(2, response)));
    print_heard(dimkhoros_watch_round(wide, sizeof wide, watch, honest_round(5, response)));
    for (int i = 0; i < 5; i++) {
        DimkhorosWatch odd = watch;
        odd.count += i == 0;
        odd.length += i == 1;
        odd.sheet[0] = (uint8_t)(odd.sheet[0] + (i == 2));
        odd.sheet[307] = (uint8_t)(odd.sheet[307] + (i == 3));
        odd.rounds[62].response[7] += i == 4;
        answer = dimkhoros_watch_round(wide, sizeof wide, odd, honest_round(1, response));
        print_heard(answer);
        printf("%s\n", memcmp(&answer.watch, &odd, sizeof odd) == 0 ? "the same watch" : "another watch");
    }
}

/* What the lines of a ledger share. The order is above K, and is not prime. */
static const DimkhorosBase base = {4, 9, 143, 30, 2};

/* Entries of all 64 lines, with another number in each field: commitments, then sums, then products. */
static DimkhorosEntries full_entries(void) {
    DimkhorosEntries entries;
    for (uint32_t i = 0; i < 64; i++) {
        DimkhorosEntry *entry = &entries.entries[i];
        entry->kind = 1 + i % 3;
        entry->first = i < 2 ? 0 : i - 2;
        entry->second = i / 2;
        entry->value = i % 30;
        entry->blinding = (7 * i + 1) % 30;
        entry->nonce[0] = (i + 2) % 30;
        entry->nonce[1] = 3 * i % 30;
        entry->nonce[2] = (5 * i + 4) % 30;
        entry->challenge = i / 3 % 2;
    }
    entries.count = 64;
    return entries;
}

/* A line of ten numbers that rise from one. */
static DimkhorosLine rising_line(uint32_t first) {
    DimkhorosLine line = {first, first + 1, first + 2, first + 3, {first + 4, first + 5}, first + 6, {first + 7, first + 8, first + 9}};
    return line;
}

/* A ledger of 64 lines with numbers that differ where they are not read. */
static DimkhorosLedger full_ledger(void) {
    DimkhorosLedger ledger = dimkhoros_ledger_write(base, full_entries()).ledger;
    for (uint32_t i = 0; i < 64; i++) {
        DimkhorosLine *line = &ledger.lines[i], odd = rising_line(10 * (1000 + i));
        odd.kind = line->kind;
        if (line->kind == DIMKHOROS_LINE_COMMITMENT) {
            odd.commitment = line->commitment;
            *line = odd;
        } else if (line->kind == DIMKHOROS_LINE_SUM) {
            odd.first = line->first;
            odd.second = line->second;
            *line = odd;
        }
    }
    return ledger;
}

/* What is checked and made over another base, one number of which is changed. */
static void other_bases(void) {
    DimkhorosBase bases[5] = {base, base, base, base, base};
    bases[0].g = 5;
    bases[1].h = 11;
    bases[2].modulus = 2;
    bases[3].order = 1;
    bases[4].challenges = 3;
    for (int i = 0; i < 5; i++) {
        print_checked(dimkhoros_ledger_check(bases[i], full_ledger()));
        print_ledger_written(dimkhoros_ledger_write(bases[i], full_entries()));
    }
}

/* One number of a ledger is changed. */
static void odd_ledgers(void) {
    for (int i = 0; i < 11; i++) {
        DimkhorosLedger odd = full_ledger();
        DimkhorosLine *line = &odd.lines[62];
        odd.count += i == 0;
        line->kind = i == 1 ? 4 : line->kind;
        line->first = i == 2 ? 62 : line->first;
        line->second = i == 3 ? 63 : line->second;
        line->commitment = i == 4 ? 0 : line->commitment;
        line->t[1] = i == 5 ? 143 : line->t[1];
        line->challenge = i == 6 ? 2 : line->challenge;
        line->response[2] = i == 7 ? 30 : line->response[2];
        line->t[0] = i == 8 ? 1 : line->t[0];
        line->challenge ^= i == 9;
        odd.lines[5].response[0] ^= i == 10;
        print_checked(dimkhoros_ledger_check(base, odd));
    }
}

/* One number of the entries is changed. */
static void odd_entries(void) {
    for (int i = 0; i < 9; i++) {
        DimkhorosEntries odd = full_entries();
        DimkhorosEntry *entry = &odd.entries[62];
        odd.count = i == 0 ? UINT32_MAX : 64;
        odd.entries[63].kind = i == 1 ? 0 : odd.entries[63].kind;
        entry->first = i == 2 ? 62 : entry->first;
        odd.entries[61].second = i == 3 ? 61 : odd.entries[61].second;
        entry->challenge = i == 4 ? 2 : entry->challenge;
        odd.entries[63].value = i == 5 ? 30 : odd.entries[63].value;
        entry->blinding = i == 6 ? 30 : entry->blinding;
        entry->nonce[0] = i == 7 ? 30 : entry->nonce[0];
        entry->nonce[2] = i == 8 ? 30 : entry->nonce[2];
        print_ledger_written(dimkhoros_ledger_write(base, odd));
    }
}

static void ledgers(void) {
    DimkhorosLedger none;
    memset(&none, 0, sizeof none);
    print_ledger_written(dimkhoros_ledger_write(base, full_entries()));
    print_checked(dimkhoros_ledger_check(base, full_ledger()));
    print_checked(dimkhoros_ledger_check(base, none));
    other_bases();
    odd_ledgers();
    odd_entries();
}

/* The length of the marker's text on three files, the text, and two bytes behind it, which stay. */
static void print_mark(const uint8_t *sheet, size_t sheet_length, const uint8_t *file, size_t file_length,
                       const uint8_t *level, size_t level_length) {
    uint8_t text[DIMKHOROS_LONGEST_TEXT];
    memset(text, 238, sizeof text);
    size_t length = dimkhoros_mark(sheet, sheet_length, file, file_length, level, level_length, text);
    printf("%zu\n%.*s%u %u\n", length, (int)length, (const char *)text, text[length], text[sizeof text - 1]);
}

/* A file of one round with K = 5 passes at the level 2 and not at 3. */
static void marks(void) {
    const uint8_t levels[2] = {2, 3};
    uint8_t file[200];
    size_t used = dimkhoros_empty(1, file, sizeof file).length;
    used = dimkhoros_append(wide, sizeof wide, file, sizeof file, used, honest_round(1, response)).length;
    print_mark(wide, sizeof wide, file, used, levels, 1);
    print_mark(wide, sizeof wide, file, used, levels + 1, 1);
    print_mark(wide, sizeof wide, file, used, levels, 2);
    print_mark(wide, sizeof wide, file, used, NULL, 0);
    used = dimkhoros_append(wide, sizeof wide, file, sizeof file, used, honest_round(5, response)).length;
    print_mark(wide, sizeof wide, file, used, levels, 1);
    print_mark(NULL, 0, NULL, 0, NULL, 0);
}

/* The length of the reason's line on two files, two bytes behind it, which stay, and the line. */
static void print_reason(const uint8_t *sheet, size_t sheet_length, const uint8_t *file, size_t file_length) {
    uint8_t text[DIMKHOROS_LONGEST_REASON];
    memset(text, 238, sizeof text);
    size_t length = dimkhoros_reason(sheet, sheet_length, file, file_length, text);
    printf("%zu %u %u %.*s", length, text[length], text[sizeof text - 1], (int)length, (const char *)text);
}

static void reasons(void) {
    uint8_t file[200];
    uint32_t wrong[8];
    memcpy(wrong, response, sizeof wrong);
    wrong[5] = 0;
    size_t used = dimkhoros_empty(1, file, sizeof file).length;
    used = dimkhoros_append(wide, sizeof wide, file, sizeof file, used, honest_round(1, wrong)).length;
    print_reason(wide, sizeof wide, file, used);
    print_reason(wide, sizeof wide, file, used - 1);
    print_reason(wide, sizeof wide - 2, file, used - 1);
    print_reason(NULL, 0, file, used);
    print_reason(wide, sizeof wide, NULL, 0);
}

/* The length of the game's text on two files, the text, and two bytes behind it, which stay. */
static void print_game(const uint8_t *sheet, size_t sheet_length, const uint8_t *file, size_t file_length) {
    static uint8_t text[DIMKHOROS_LONGEST_GAME];
    memset(text, 238, sizeof text);
    size_t length = dimkhoros_game(sheet, sheet_length, file, file_length, text);
    printf("%zu\n%.*s%u %u\n", length, (int)length, (const char *)text, text[length], text[sizeof text - 1]);
}

/* A response has two numbers below 5, and the first leads. The challenge is not below 5. The wide sheet is too large. */
static void games(void) {
    const uint32_t h[2] = {3, 9}, z[1] = {4};
    const DimkhorosRound round = {{5}, 77, {88, 99}};
    uint8_t sheet[32], file[200];
    size_t length = dimkhoros_from_pattern(shipped, sizeof shipped, 2, 11, 5, 5, h, 2, z, 1, sheet, sizeof sheet).length;
    size_t used = dimkhoros_empty(1, file, sizeof file).length;
    print_game(sheet, length, file, used);
    used = dimkhoros_append(sheet, length, file, sizeof file, used, round).length;
    print_game(sheet, length, file, used);
    print_game(sheet, length, file, used - 1);
    print_game(sheet, length - 1, file, used);
    print_game(sheet, length, NULL, 0);
    print_game(NULL, 0, NULL, 0);
    used = dimkhoros_empty(1, file, sizeof file).length;
    used = dimkhoros_append(wide, sizeof wide, file, sizeof file, used, honest_round(1, response)).length;
    print_game(wide, sizeof wide, file, used);
}

/* Every slice of every call is empty. */
static void empty_slices(void) {
    print_entries(NULL, 0);
    print_loaded(dimkhoros_load(NULL, 0));
    uint32_t entries[64];
    if (dimkhoros_entries(wide, sizeof wide, entries) != 0) {
        printf("the wide sheet is refused\n");
        return;
    }
    print_written(dimkhoros_encode(dimkhoros_load(wide, sizeof wide).header, entries, statement, NULL, 0));
    print_written(dimkhoros_patterns(NULL, 0));
    print_written(dimkhoros_from_pattern(NULL, 0, 0, 35, 5, 5, NULL, 0, NULL, 0, NULL, 0));
    print_written(dimkhoros_from_pattern(shipped, sizeof shipped, 0, 35, 5, 5, NULL, 0, NULL, 0, NULL, 0));
    print_written(dimkhoros_from_pattern(shipped, sizeof shipped, 0, 35, 5, 5, NULL, 0, statement, 1, NULL, 0));
    print_written(dimkhoros_linear(23, 11, 5, 2, 4, NULL, 0, NULL, 0, NULL, 0, NULL, 0));
    print_written(dimkhoros_linear(23, 11, 5, 2, 4, statement, 2, NULL, 0, statement, 2, NULL, 0));
    print_counted(dimkhoros_count(NULL, 0, NULL, 0));
    print_counted(dimkhoros_count(wide, sizeof wide, NULL, 0));
    printf("%u\n", dimkhoros_check(wide, sizeof wide, NULL, 0, 0));
    print_part(dimkhoros_part(wide, sizeof wide, NULL, 0, 0));
    print_fetched(dimkhoros_read(wide, sizeof wide, NULL, 0, 0));
    print_compared(dimkhoros_same_commitment(NULL, 0, NULL, 0, 0, 0));
    print_compared(dimkhoros_same_commitment(wide, sizeof wide, NULL, 0, 0, 0));
    print_written(dimkhoros_empty(1, NULL, 0));
    print_written(dimkhoros_empty(0, NULL, 0));
    print_written(dimkhoros_append(wide, sizeof wide, NULL, 0, 0, rising_round(1)));
    print_written(dimkhoros_append(wide, sizeof wide, NULL, 0, 7, rising_round(1)));
    print_written(dimkhoros_convert(NULL, 0, NULL, 0, NULL, 0));
    print_written(dimkhoros_convert(wide, sizeof wide, NULL, 0, NULL, 0));
    print_written(dimkhoros_convert(wide, sizeof wide, (const uint8_t *)"RND\0\1\0", 7, NULL, 0));
    print_judgement(dimkhoros_judge(NULL, 0, rising_round(1)));
    print_computed(dimkhoros_simulate(NULL, 0, 0, response));
    print_computed(dimkhoros_extract(NULL, 0, rising_round(1), rising_round(2)));
    print_prover_answer(dimkhoros_prover_commit(NULL, 0, dimkhoros_prover_new(), nonce));
    print_prover_answer(dimkhoros_prover_respond(NULL, 0, dimkhoros_prover_new(), 1, witness));
    print_verifier_answer(dimkhoros_verifier_commitment(NULL, 0, dimkhoros_verifier_new(), commitment));
    print_verifier_answer(dimkhoros_verifier_challenge(NULL, 0, dimkhoros_verifier_new(), 1));
    print_verifier_judgement(dimkhoros_verifier_response(NULL, 0, dimkhoros_verifier_new(), response));
    print_or_judgement(dimkhoros_or_judge(NULL, 0, NULL, 0, rising_or_round(1)));
    print_or_extracted(dimkhoros_or_extract(wide, sizeof wide, NULL, 0, rising_or_round(1), rising_or_round(2)));
    print_or_answer(dimkhoros_or_prover_commit(NULL, 0, wide, sizeof wide, dimkhoros_or_prover_new(), 0, nonce, 1, response));
    print_or_answer(dimkhoros_or_prover_respond(NULL, 0, NULL, 0, dimkhoros_or_prover_new(), 1, witness));
    for (int i = 0; i < 64; i++) {
        entries[i] = 1;
    }
    print_computed(dimkhoros_team_commitment(NULL, 0, 2, entries, entries));
    print_computed(dimkhoros_team_response(NULL, 0, 2, entries, entries));
    print_opened(dimkhoros_watch_open(NULL, 0));
    print_heard(dimkhoros_watch_round(NULL, 0, dimkhoros_watch_open(NULL, 0).watch, rising_round(1)));
}

int main(void) {
    sheets();
    forms();
    files();
    rounds();
    provers();
    verifiers();
    or_rounds();
    or_provers();
    teams();
    watches();
    ledgers();
    marks();
    reasons();
    games();
    empty_slices();
    return 0;
}
