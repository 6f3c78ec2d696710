/*
 * The extractor, saved states, a watch, the simulator, rounds that multiply, the OR proof and the game, for a lecture. Two
 * rounds on one nonce give the witness away, so that nobody can make such rounds without knowing it; a session that returns
 * to a saved state does not answer the same commitment again; a watch that is given the rounds of a term tells of a nonce
 * that was used twice; rounds can be simulated without the witness, so a round tells Vic nothing about it; rounds of two
 * sheets of one table multiply to rounds of a third; Peggy, who knows a witness of one of two sheets, simulates the other, so
 * a round does not tell which of the two she knows; and on a small sheet all responses are tried, to see which challenges a
 * commitment can answer.
 */
#include "common.h"
#include <string.h>

#define MODULUS 23
#define ORDER 11

static const uint32_t witness[8] = {7};

/* The round in which a committed session answers this challenge. */
static DimkhorosRound answer(const uint8_t *sheet, size_t length, DimkhorosProverSession *peggy, uint32_t challenge) {
    DimkhorosRound round = {.challenge = challenge};
    memcpy(round.commitment, peggy->commitment, sizeof round.commitment);
    expect(dimkhoros_respond(sheet, length, peggy, challenge, witness, round.response));
    return round;
}

/* A copy of a session answers this challenge and the round is shown. The caller keeps the session itself. */
static DimkhorosRound answer_from_copy(const uint8_t *sheet, size_t length, DimkhorosProverSession copy, uint32_t challenge) {
    DimkhorosRound round = answer(sheet, length, &copy, challenge);
    DimkhorosJudgement verdict = dimkhoros_judge(sheet, length, round);
    expect(verdict.refusal);
    printf("one copy is asked %u: t = %u, c = %u, r = %u, %s\n", challenge, round.commitment[0], challenge,
           round.response[0], verdict.accepted ? "accepted" : "rejected");
    return round;
}

/* A session that is committed to a nonce. */
static DimkhorosProverSession committed(const uint8_t *sheet, size_t length, uint32_t nonce) {
    const uint32_t nonces[8] = {nonce};
    uint32_t commitment[8];
    DimkhorosProverSession peggy = dimkhoros_prover_new();
    expect(dimkhoros_commit(sheet, length, &peggy, nonces, commitment));
    return peggy;
}

/* What no box may do: a session is copied, both copies answer, and the two rounds give the witness away. */
static void show_extractor(const uint8_t *sheet, size_t length) {
    printf("\nThe extractor. A committed session is copied by hand, which no box may do.\n");
    DimkhorosProverSession peggy = committed(sheet, length, 5);
    DimkhorosRound first = answer_from_copy(sheet, length, peggy, 3);
    DimkhorosRound second = answer_from_copy(sheet, length, peggy, 1);
    DimkhorosComputed extracted = dimkhoros_extract(sheet, length, first, second);
    expect(extracted.refusal);
    printf("the two rounds give the witness away: x = %u\n", extracted.values[0]);
}

/* A session answers this challenge and the round is shown. The session goes on. */
static void answer_and_go_on(const uint8_t *sheet, size_t length, DimkhorosProverSession *peggy, uint32_t challenge) {
    DimkhorosRound round = answer(sheet, length, peggy, challenge);
    DimkhorosJudgement verdict = dimkhoros_judge(sheet, length, round);
    expect(verdict.refusal);
    printf("asked %u: t = %u, c = %u, r = %u, %s\n", challenge, round.commitment[0], challenge, round.response[0],
           verdict.accepted ? "accepted" : "rejected");
}

/* A demonstrator returns to a committed state, whose commitment is not answered again, and goes on from the new one. */
static void show_saved_states(const uint8_t *sheet, size_t length) {
    const uint32_t nonces[2][8] = {{5}, {6}};
    uint32_t commitment[8], response[8];
    printf("\nSaved states. A demonstrator saves the new session under 0 and, with the nonce 5, the committed one under 1.\n");
    DimkhorosProverSession peggy = dimkhoros_prover_new();
    expect(dimkhoros_save(&peggy, 0));
    expect(dimkhoros_commit(sheet, length, &peggy, nonces[0], commitment));
    expect(dimkhoros_save(&peggy, 1));
    answer_and_go_on(sheet, length, &peggy, 3);
    expect(dimkhoros_return_to(&peggy, 1));
    uint32_t refusal = dimkhoros_respond(sheet, length, &peggy, 1, witness, response);
    printf("back to 1, with the same nonce, and asked 1: refusal %u: %s\n", refusal, dimkhoros_sentence(refusal));
    expect(dimkhoros_return_to(&peggy, 0));
    expect(dimkhoros_commit(sheet, length, &peggy, nonces[1], commitment));
    printf("back to 0, and committed to the nonce 6\n");
    answer_and_go_on(sheet, length, &peggy, 1);
    printf("the session has answered %u commitments\n", peggy.memory.count);
}

/* The rounds of a term. The second is rejected. The nonce of the first comes again with the same challenge, then with another. */
static const DimkhorosRound term[] = {
    {{9}, 3, {4}}, {{3}, 3, {0}}, {{9}, 3, {4}}, {{4}, 9, {10}}, {{9}, 1, {1}}, {{3}, 4, {3}},
};

/* A watch is given the rounds one by one, and tells of a nonce that is used again. */
static void show_watch(const uint8_t *sheet, size_t length) {
    printf("\nA watch. It is given the rounds of a term one by one, and remembers the last %d accepted ones.\n",
           DIMKHOROS_MOST_REMEMBERED);
    DimkhorosWatch watch;
    expect(dimkhoros_open_watch(sheet, length, &watch));
    for (size_t i = 0; i < sizeof term / sizeof term[0]; i++) {
        DimkhorosHeard heard = dimkhoros_hear(sheet, length, &watch, term[i]);
        expect(heard.verdict.refusal);
        printf("t = %u, c = %u, r = %2u, %s", term[i].commitment[0], term[i].challenge, term[i].response[0],
               heard.verdict.accepted ? "accepted" : "rejected in row 0");
        if (heard.back != 0) {
            printf("; the nonce was used %u accepted rounds back: x = %u", heard.back, heard.witness[0]);
        }
        printf("\n");
    }
}

/* For one challenge, the rounds that anybody can simulate are those that Peggy can make. */
static void show_simulator(const uint8_t *sheet, size_t length, uint32_t challenge) {
    printf("\nThe simulator. All rounds with c = %u, simulated without x, and made by Peggy, who knows it.\n", challenge);
    uint32_t peggys[ORDER] = {0};
    for (uint32_t nonce = 0; nonce < ORDER; nonce++) {
        DimkhorosProverSession peggy = committed(sheet, length, nonce);
        DimkhorosRound round = answer(sheet, length, &peggy, challenge);
        peggys[round.response[0]] = round.commitment[0];
    }
    int same = 1;
    for (uint32_t r = 0; r < ORDER; r++) {
        const uint32_t response[8] = {r};
        DimkhorosComputed simulated = dimkhoros_simulate(sheet, length, challenge, response);
        expect(simulated.refusal);
        printf("r = %2u: simulated t = %2u, Peggy's t = %2u\n", r, simulated.values[0], peggys[r]);
        same = same && simulated.values[0] == peggys[r];
    }
    printf("%s\n", same ? "The rounds are the same, so none of them tells who made it." : "The rounds differ.");
}

/* A sheet of page A's table. */
typedef struct {
    uint32_t statement;
    uint8_t bytes[DIMKHOROS_LONGEST_SHEET];
    size_t length;
} Sheet;

/* The sheet of page A's table with another statement. */
static Sheet with_statement(const uint8_t *sheet, size_t length, uint32_t statement) {
    DimkhorosLoaded loaded = dimkhoros_load(sheet, length);
    expect(loaded.refusal);
    uint32_t entries[DIMKHOROS_ENTRIES];
    expect(dimkhoros_entries(sheet, length, entries));
    Sheet made = {.statement = statement};
    loaded.statement[0] = statement;
    DimkhorosWritten written = dimkhoros_encode(loaded.header, entries, loaded.statement, made.bytes, sizeof made.bytes);
    expect(written.refusal);
    made.length = written.length;
    return made;
}

/* Shows a round, and what it is. */
static void show_round(const Sheet *sheet, DimkhorosRound round, const char *what) {
    DimkhorosJudgement verdict = dimkhoros_judge(sheet->bytes, sheet->length, round);
    expect(verdict.refusal);
    printf("z = %2u: t = %2u, c = %u, r = %u, %s%s\n", sheet->statement, round.commitment[0], round.challenge,
           round.response[0], verdict.accepted ? "accepted" : "rejected in row 0", what);
}

/* The product of two rounds with one challenge: commitments are multiplied modulo m, and responses added modulo q. */
static DimkhorosRound multiplied(DimkhorosRound one, DimkhorosRound other) {
    DimkhorosRound product = {.challenge = one.challenge};
    product.commitment[0] = one.commitment[0] * other.commitment[0] % MODULUS;
    product.response[0] = (one.response[0] + other.response[0]) % ORDER;
    return product;
}

/* The witness that two rounds give. */
static uint32_t extracted_from(const Sheet *sheet, DimkhorosRound one, DimkhorosRound other) {
    DimkhorosComputed extracted = dimkhoros_extract(sheet->bytes, sheet->length, one, other);
    expect(extracted.refusal);
    return extracted.values[0];
}

/* Rounds of two sheets with equal challenges multiply to rounds of a third, and two products give the sum of the witnesses. */
static void show_products(const uint8_t *sheet, size_t length) {
    printf("\nRounds that multiply. Of the same table are 2^y = 4 and, since 13 * 4 leaves 6, 2^w = 6 modulo 23.\n");
    const Sheet first = with_statement(sheet, length, 13);
    const Sheet second = with_statement(sheet, length, 4);
    const Sheet third = with_statement(sheet, length, 13 * 4 % MODULUS);
    const DimkhorosRound ones[2] = {{{9}, 3, {4}}, {{9}, 1, {1}}};
    const DimkhorosRound others[2] = {{{4}, 3, {8}}, {{4}, 1, {4}}};
    DimkhorosRound products[2];
    for (int i = 0; i < 2; i++) {
        products[i] = multiplied(ones[i], others[i]);
        show_round(&first, ones[i], "");
        show_round(&second, others[i], "");
        show_round(&third, products[i], ", the product");
    }
    printf("the two products give w = %u, the sum of x = %u and y = %u, which their factors give\n",
           extracted_from(&third, products[0], products[1]), extracted_from(&first, ones[0], ones[1]),
           extracted_from(&second, others[0], others[1]));
}

/* Page A's sheet and a root sheet, y^11 = 18 modulo 35, with one K. */
typedef struct {
    const uint8_t *first;
    size_t first_length;
    uint8_t second[DIMKHOROS_LONGEST_SHEET];
    size_t second_length;
} Pair;

/* Who knows a witness of one side, and what is drawn: that side's nonce, and a challenge and a response to simulate the other. */
typedef struct {
    const char *knows;
    uint32_t side, witness[8], nonce[8], challenge, response[8];
} Holder;

/* Two Peggys, who draw what leads to the same round where they are asked 4. */
static const Holder holders[2] = {{"y = 2", 1, {2}, {3}, 6, {2}}, {"x = 7", 0, {7}, {4}, 9, {31}}};

static Pair paired(const uint8_t *sheet, size_t length) {
    const uint32_t z = 18;
    Pair pair = {.first = sheet, .first_length = length};
    uint8_t patterns[DIMKHOROS_SHIPPED_PATTERNS];
    expect(dimkhoros_patterns(patterns, sizeof patterns).refusal);
    DimkhorosWritten made = dimkhoros_from_pattern(patterns, sizeof patterns, DIMKHOROS_PATTERN_ROOT, 35, 11, 11, NULL, 0,
                                                   &z, 1, pair.second, sizeof pair.second);
    expect(made.refusal);
    pair.second_length = made.length;
    return pair;
}

/* A session that is committed to what its holder drew. */
static DimkhorosOrSession committed_either(const Pair *pair, const Holder *peggy) {
    uint32_t commitment0[8], commitment1[8];
    DimkhorosOrSession session = dimkhoros_or_prover_new();
    expect(dimkhoros_or_commit(pair->first, pair->first_length, pair->second, pair->second_length, &session, peggy->side,
                               peggy->nonce, peggy->challenge, peggy->response, commitment0, commitment1));
    return session;
}

/* A copy of a session answers this challenge and the round is shown. The caller keeps the session itself. */
static DimkhorosOrRound answer_either(const Pair *pair, const Holder *peggy, DimkhorosOrSession copy, uint32_t challenge) {
    DimkhorosOrRound round;
    expect(dimkhoros_or_respond(pair->first, pair->first_length, pair->second, pair->second_length, &copy, challenge,
                                peggy->witness, &round));
    DimkhorosOrJudgement verdict =
        dimkhoros_or_judge(pair->first, pair->first_length, pair->second, pair->second_length, round);
    expect(verdict.refusal);
    printf("asked %u: t0 = %u, t1 = %u, c0 = %u, c1 = %u, r0 = %u, r1 = %u, %s\n", challenge, round.commitment0[0],
           round.commitment1[0], round.challenge0, (challenge + ORDER - round.challenge0) % ORDER, round.response0[0],
           round.response1[0], verdict.accepted ? "accepted" : "rejected");
    return round;
}

/* Holders of either witness make the same round, and two rounds of one of them name the side. */
static void show_or_proof(const Pair *pair) {
    printf("\nThe OR proof. Peggy knows x with 2^x = 13 modulo 23, or y with y^11 = 18 modulo 35.\n");
    DimkhorosOrSession sessions[2];
    DimkhorosOrRound rounds[2];
    for (int i = 0; i < 2; i++) {
        printf("Peggy knows %s and simulates side %u.\n", holders[i].knows, 1 - holders[i].side);
        sessions[i] = committed_either(pair, &holders[i]);
        rounds[i] = answer_either(pair, &holders[i], sessions[i], 4);
    }
    int same = memcmp(&rounds[0], &rounds[1], sizeof rounds[0]) == 0;
    printf("%s\n", same ? "The rounds are the same, so none of them tells what she knows." : "The rounds differ.");
    for (int i = 0; i < 2; i++) {
        printf("A copy of her who knows %s answers once more, which no box may do.\n", holders[i].knows);
        DimkhorosOrRound second = answer_either(pair, &holders[i], sessions[i], 7);
        DimkhorosOrExtracted extracted = dimkhoros_or_extract(pair->first, pair->first_length, pair->second,
                                                              pair->second_length, rounds[i], second);
        expect(extracted.refusal);
        printf("the two rounds give away the witness of side %u: %u\n", extracted.side, extracted.values[0]);
    }
}

/* Writes a sheet whose statement has no witness, 1^x = 2 modulo 31, and answers its length. */
static size_t claim(uint8_t sheet[DIMKHOROS_LONGEST_SHEET]) {
    const uint32_t h = 1, z = 2;
    uint8_t patterns[DIMKHOROS_SHIPPED_PATTERNS];
    expect(dimkhoros_patterns(patterns, sizeof patterns).refusal);
    DimkhorosWritten made = dimkhoros_from_pattern(patterns, sizeof patterns, DIMKHOROS_PATTERN_SCHNORR, 31, 15, 3, &h, 1,
                                                   &z, 1, sheet, DIMKHOROS_LONGEST_SHEET);
    expect(made.refusal);
    return made.length;
}

/* Shows which challenges a commitment can answer, of a file with one round, whose challenge and response are not tested. */
static void show_answers(const uint8_t *sheet, size_t length, uint32_t t) {
    static uint8_t text[DIMKHOROS_LONGEST_GAME]; /* too large for a small stack */
    const DimkhorosRound round = {{t}, 0, {0}};
    uint8_t file[DIMKHOROS_EMPTY_FILE + 12];
    DimkhorosWritten written = dimkhoros_empty(1, file, sizeof file);
    expect(written.refusal);
    written = dimkhoros_append(sheet, length, file, sizeof file, written.length, round);
    expect(written.refusal);
    size_t text_length = dimkhoros_game(sheet, length, file, written.length, text);
    printf("t = %u:\n%.*s", t, (int)text_length, (const char *)text);
}

/* With a witness a commitment answers every challenge or none, without one it answers one at most. */
static void show_game(const uint8_t *sheet, size_t length) {
    const uint32_t commitments[3] = {1, 16, 2};
    uint8_t other[DIMKHOROS_LONGEST_SHEET];
    printf("\nPeggy against Vic. All responses are tried: each challenge that t can answer, with the smallest response.\n");
    show_answers(sheet, length, 9);
    printf("A claim without a witness: 1^x = 2 modulo 31, order 15, challenges 0 to 2.\n");
    size_t other_length = claim(other);
    for (int i = 0; i < 3; i++) {
        show_answers(other, other_length, commitments[i]);
    }
}

int main(void) {
    uint8_t sheet[DIMKHOROS_LONGEST_SHEET];
    size_t length = page_a(sheet);
    show_extractor(sheet, length);
    show_saved_states(sheet, length);
    show_watch(sheet, length);
    show_simulator(sheet, length, 3);
    show_products(sheet, length);
    Pair pair = paired(sheet, length);
    show_or_proof(&pair);
    show_game(sheet, length);
    return 0;
}
