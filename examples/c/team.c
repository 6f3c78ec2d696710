/*
 * Peggy as a team. Three players each hold a part of the witness of page A. Each proves a part on the sheet with that part's
 * image as its statement, and a combiner, who knows none of the parts, joins their rounds to the one that Vic judges.
 */
#include "common.h"
#include <string.h>

#define PLAYERS 3

/* A player's name, part, nonce and image. The parts make 7 modulo 11, the nonces 5. */
typedef struct {
    const char *name;
    uint32_t part[8], nonce[8], image[8];
} Player;

/* The images 2^3, 2^9 and 2^6 modulo 23 are public. */
static const Player players[PLAYERS] = {
    {"Ada", {3}, {2}, {8}},
    {"Bob", {9}, {4}, {6}},
    {"Cy", {6}, {10}, {18}},
};

typedef struct {
    uint8_t bytes[DIMKHOROS_LONGEST_SHEET];
    size_t length;
} Sheet;

/* The sheet with this statement in the place of its own. */
static Sheet with_statement(const Sheet *sheet, const uint32_t statement[8]) {
    Sheet other;
    uint32_t entries[DIMKHOROS_ENTRIES];
    DimkhorosLoaded loaded = dimkhoros_load(sheet->bytes, sheet->length);
    expect(loaded.refusal);
    expect(dimkhoros_entries(sheet->bytes, sheet->length, entries));
    DimkhorosWritten made = dimkhoros_encode(loaded.header, entries, statement, other.bytes, sizeof other.bytes);
    expect(made.refusal);
    other.length = made.length;
    return other;
}

/* What the combiner hears of a player: values that stand behind those of the players before. */
static void hear(uint32_t parts[DIMKHOROS_PARTS], int player, const uint32_t values[8]) {
    memcpy(parts + DIMKHOROS_PLACES * player, values, DIMKHOROS_PLACES * sizeof values[0]);
}

/* The images, as both calls of the combiner take them. */
static void hear_images(uint32_t images[DIMKHOROS_PARTS]) {
    for (int i = 0; i < PLAYERS; i++) {
        hear(images, i, players[i].image);
    }
}

/* A verdict in a word. */
static const char *word(DimkhorosJudgement verdict) { return verdict.accepted ? "accepted" : "rejected"; }

/* The verdict on a player's round, under the player's own image. */
static DimkhorosJudgement own_verdict(const Sheet *own, const uint32_t commitment[8], uint32_t challenge,
                                      const uint32_t response[8]) {
    DimkhorosRound round = {.challenge = challenge};
    memcpy(round.commitment, commitment, sizeof round.commitment);
    memcpy(round.response, response, sizeof round.response);
    DimkhorosJudgement verdict = dimkhoros_judge(own->bytes, own->length, round);
    expect(verdict.refusal);
    return verdict;
}

/* The players commit, each on a sheet of their own, and the combiner multiplies. */
static DimkhorosComputed commit_all(const Sheet *sheet, const Sheet own[PLAYERS], DimkhorosProverSession sessions[PLAYERS]) {
    uint32_t images[DIMKHOROS_PARTS] = {0}, commitments[DIMKHOROS_PARTS] = {0};
    hear_images(images);
    for (int i = 0; i < PLAYERS; i++) {
        uint32_t t[8];
        sessions[i] = dimkhoros_prover_new();
        expect(dimkhoros_commit(own[i].bytes, own[i].length, &sessions[i], players[i].nonce, t));
        printf("%s has the image %u and commits: t = %u\n", players[i].name, players[i].image[0], t[0]);
        hear(commitments, i, t);
    }
    DimkhorosComputed whole = dimkhoros_team_commitment(sheet->bytes, sheet->length, PLAYERS, images, commitments);
    expect(whole.refusal);
    printf("the combiner multiplies: t = %u\n", whole.values[0]);
    return whole;
}

/* The players respond, the second by this much too much, and the combiner joins. */
static DimkhorosComputed respond_all(const Sheet *sheet, const Sheet own[PLAYERS], DimkhorosProverSession sessions[PLAYERS],
                                     uint32_t challenge, uint32_t error) {
    uint32_t images[DIMKHOROS_PARTS] = {0}, responses[DIMKHOROS_PARTS] = {0};
    hear_images(images);
    for (int i = 0; i < PLAYERS; i++) {
        uint32_t r[8];
        expect(dimkhoros_respond(own[i].bytes, own[i].length, &sessions[i], challenge, players[i].part, r));
        r[0] += i == 1 ? error : 0;
        DimkhorosJudgement verdict = own_verdict(&own[i], sessions[i].commitment, challenge, r);
        printf("%s responds: r = %u, which is %s under the player's own image\n", players[i].name, r[0], word(verdict));
        hear(responses, i, r);
    }
    DimkhorosComputed whole = dimkhoros_team_response(sheet->bytes, sheet->length, PLAYERS, images, responses);
    expect(whole.refusal);
    return whole;
}

/* The players and the combiner play with Vic, who judges the whole. The second player's response is raised by this much. */
static void play(const Sheet *sheet, uint32_t error) {
    Sheet own[PLAYERS];
    DimkhorosProverSession sessions[PLAYERS];
    for (int i = 0; i < PLAYERS; i++) {
        own[i] = with_statement(sheet, players[i].image);
    }
    DimkhorosComputed t = commit_all(sheet, own, sessions);
    DimkhorosVerifierSession vic = dimkhoros_verifier_new();
    expect(dimkhoros_take_commitment(sheet->bytes, sheet->length, &vic, t.values));
    expect(dimkhoros_take_challenge(sheet->bytes, sheet->length, &vic, 3));
    printf("Vic asks c = %u\n", vic.challenge);

    DimkhorosComputed r = respond_all(sheet, own, sessions, vic.challenge, error);
    DimkhorosJudgement verdict = dimkhoros_take_response(sheet->bytes, sheet->length, &vic, r.values);
    expect(verdict.refusal);
    printf("the combiner joins: r = %u, and Vic says: %s\n", r.values[0], word(verdict));
}

/* The round of one Peggy who has all. */
static void show_single(const Sheet *sheet) {
    const uint32_t witness[8] = {7}, nonce[8] = {5};
    uint32_t t[8], r[8];
    DimkhorosProverSession peggy = dimkhoros_prover_new();
    expect(dimkhoros_commit(sheet->bytes, sheet->length, &peggy, nonce, t));
    expect(dimkhoros_respond(sheet->bytes, sheet->length, &peggy, 3, witness, r));
    printf("t = %u, c = 3, r = %u\n", t[0], r[0]);
}

/* What teams are refused with: one of one player, one with an image that is no group element, and one that lacks a player. */
static void show_refusals(const Sheet *sheet) {
    uint32_t images[DIMKHOROS_PARTS] = {0}, responses[DIMKHOROS_PARTS] = {0};
    hear_images(images);
    show_refusal(dimkhoros_team_response(sheet->bytes, sheet->length, 1, images, responses).refusal);
    images[DIMKHOROS_PLACES] = 5;
    show_refusal(dimkhoros_team_response(sheet->bytes, sheet->length, 2, images, responses).refusal);
    hear_images(images);
    show_refusal(dimkhoros_team_response(sheet->bytes, sheet->length, 2, images, responses).refusal);
}

int main(void) {
    Sheet sheet;
    sheet.length = page_a(sheet.bytes);
    printf("\nThree honest players.\n");
    play(&sheet, 0);
    printf("\nA single Peggy with the joined witness, 7, and the joined nonce, 5, sends the same round.\n");
    show_single(&sheet);
    printf("\nBob responds wrongly.\n");
    play(&sheet, 1);
    printf("\nTeams that are none.\n");
    show_refusals(&sheet);
    return 0;
}
