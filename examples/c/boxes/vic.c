/*
 * The box Vic: vic FOLDER COUNT. He judges COUNT rounds of a Peggy, over standard input and output, and exits with 0 where
 * all are accepted and with 1 where one is not. FOLDER has sheet.bin and the stored session, session.bin. The steps are those
 * of docs/BOXES.md.
 */
#define _POSIX_C_SOURCE 200809L
#include "wire.h"

typedef struct {
    Base base;
    DimkhorosVerifierSession session;
    unsigned long rounds, judged, accepted;
} Vic;

/* Stores the session as it stands. */
static void store_session(const Vic *vic) {
    uint8_t stored[DIMKHOROS_STORED_VERIFIER];
    dimkhoros_verifier_store(&vic->session, stored);
    store(&vic->base, stored, sizeof stored);
}

/* Whether the session has a commitment that is not judged yet, and it is this one. */
static int holds(const Vic *vic, const uint32_t *commitment) {
    const uint32_t phase = vic->session.phase;
    return (phase == DIMKHOROS_VERIFIER_HOLDING || phase == DIMKHOROS_VERIFIER_ASKED) &&
           same(commitment, vic->session.commitment, vic->base.header.rows);
}

/* Says that he waits for a commitment. */
static void say_ready(const Vic *vic) { send_line(&vic->base, "ready", NULL, 0, NULL, 0); }

/* Step 1: goes on with the session that is found, or with a new one, and says that he is ready. */
static void start(Vic *vic) {
    uint8_t stored[DIMKHOROS_STORED_VERIFIER + 1];
    ssize_t length = find_session(&vic->base, stored, sizeof stored);
    vic->session = dimkhoros_verifier_new();
    if (length >= 0 && !dimkhoros_verifier_restore(stored, (size_t)length, &vic->session)) {
        fprintf(stderr, "vic finds no session: the bytes are not a stored session, or they are damaged\n");
    }
    say_ready(vic);
}

/* Step 2: takes a commitment into a session of its own. Answers 0 where it is refused. */
static int take_commitment(Vic *vic, const uint32_t *commitment) {
    DimkhorosVerifierSession session = dimkhoros_verifier_new();
    uint32_t refusal = dimkhoros_take_commitment(vic->base.sheet, vic->base.sheet_length, &session, commitment);
    if (refusal != 0) {
        fprintf(stderr, "vic does not take it: %s\n", dimkhoros_sentence(refusal));
        return 0;
    }
    vic->session = session;
    store_session(vic);
    return 1;
}

/* Steps 3 and 4: draws the one challenge on a commitment, stores it, and only then sends it. */
static void ask(Vic *vic) {
    const Base *base = &vic->base;
    if (vic->session.phase == DIMKHOROS_VERIFIER_HOLDING) {
        uint32_t challenge = dimkhoros_box_below(base->header.challenges);
        expect(base, dimkhoros_take_challenge(base->sheet, base->sheet_length, &vic->session, challenge));
        store_session(vic);
    }
    send_line(base, "challenge", vic->session.commitment, base->header.rows, &vic->session.challenge, 1);
}

/* Says the verdict, with the rows that differ where it is rejected. */
static void say(DimkhorosJudgement verdict) {
    fprintf(stderr, "vic says %s", verdict.accepted ? "accepted" : "rejected");
    for (int row = 0; row < DIMKHOROS_PLACES; row++) {
        if ((verdict.rows >> row & 1) == 1) {
            fprintf(stderr, " %d", row);
        }
    }
    fprintf(stderr, "\n");
}

/* Steps 6 and 7: judges a response, stores that it is judged, and only then says the verdict. */
static void judge(Vic *vic, const uint32_t *response) {
    const Base *base = &vic->base;
    DimkhorosJudgement verdict = dimkhoros_take_response(base->sheet, base->sheet_length, &vic->session, response);
    if (verdict.refusal != 0) {
        fprintf(stderr, "vic does not take it: %s\n", dimkhoros_sentence(verdict.refusal));
        return;
    }
    store_session(vic);
    say(verdict);
    vic->judged += 1;
    vic->accepted += verdict.accepted;
    if (vic->judged < vic->rounds) {
        say_ready(vic);
    }
}

/* Steps 2 and 5: a response is judged only if it names the commitment of the session. */
static void take_line(Vic *vic, const DimkhorosBoxLine *line) {
    const size_t rows = vic->base.header.rows;
    if (dimkhoros_box_is(line, "commitment", rows)) {
        if (holds(vic, line->numbers) || take_commitment(vic, line->numbers)) {
            ask(vic);
        }
    } else if (dimkhoros_box_is(line, "response", rows + vic->base.header.columns) && holds(vic, line->numbers)) {
        judge(vic, line->numbers + rows);
    } else {
        fprintf(stderr, "vic does not take it: this is not for his commitment\n");
    }
}

int main(int argc, char **argv) {
    Vic vic = {0};
    DimkhorosBoxLine line;
    if (argc != 3) {
        fprintf(stderr, "usage: vic FOLDER COUNT\n");
        return 2;
    }
    vic.rounds = strtoul(argv[2], NULL, 10);
    open_base(&vic.base, "vic", argv[1]);
    start(&vic);
    while (vic.judged < vic.rounds && hear(&vic.base, &line)) {
        take_line(&vic, &line);
    }
    return vic.accepted == vic.rounds ? 0 : 1;
}
