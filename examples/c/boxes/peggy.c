/*
 * The box Peggy: peggy FOLDER. She proves, over standard input and output, that she knows the witness of a sheet, round after
 * round, until her input ends. FOLDER has sheet.bin, witness.txt and the stored session, session.bin. The steps are those of
 * docs/BOXES.md.
 */
#define _POSIX_C_SOURCE 200809L
#include "wire.h"

/* The tests also build a Peggy without one of these two rules, and without both, and find what she gives away. */
#ifndef ANSWER_FOUND_SESSION
#define ANSWER_FOUND_SESSION 0
#endif
#ifndef SEND_BEFORE_STORING
#define SEND_BEFORE_STORING 0
#endif

typedef struct {
    Base base;
    uint32_t witness[DIMKHOROS_PLACES];
    DimkhorosProverSession session;
} Peggy;

/* Reads the witness from its file, a line of the word `witness` and a number for each column. */
static void read_witness(Peggy *peggy) {
    DimkhorosBoxLine line;
    ssize_t length = dimkhoros_box_find(peggy->base.folder, "witness.txt", line.text, sizeof line.text - 1);
    line.text[length < 0 ? 0 : length] = '\0';
    line.length = strcspn(line.text, "\n");
    line.text[line.length] = '\0';
    dimkhoros_box_take_apart(&line);
    if (!dimkhoros_box_is(&line, "witness", peggy->base.header.columns)) {
        fail(&peggy->base, "there is no witness.txt for this sheet in the folder");
    }
    memcpy(peggy->witness, line.numbers, sizeof peggy->witness);
}

/* Stores the session as it stands. */
static void store_session(const Peggy *peggy) {
    uint8_t stored[DIMKHOROS_STORED_PROVER];
    dimkhoros_prover_store(&peggy->session, stored);
    store(&peggy->base, stored, sizeof stored);
}

/* Sends a line that names the commitment of the session. */
static void send_on_session(const Peggy *peggy, const char *word, const uint32_t *numbers, size_t count) {
    send_line(&peggy->base, word, peggy->session.commitment, peggy->base.header.rows, numbers, count);
}

/* Steps 2 to 4: begins a session. */
static void begin(Peggy *peggy) {
    const Base *base = &peggy->base;
    uint32_t nonce[DIMKHOROS_PLACES], commitment[DIMKHOROS_PLACES];
    expect(base, dimkhoros_box_nonce(base->sheet, base->sheet_length, nonce));
    peggy->session = dimkhoros_prover_new();
    expect(base, dimkhoros_commit(base->sheet, base->sheet_length, &peggy->session, nonce, commitment));
    store_session(peggy);
    send_on_session(peggy, "commitment", NULL, 0);
}

/* Says the commitment of the session that waits for its challenge, or begins one. */
static void say_commitment(Peggy *peggy) {
    if (peggy->session.phase == DIMKHOROS_PROVER_COMMITTED) {
        send_on_session(peggy, "commitment", NULL, 0);
    } else {
        begin(peggy);
    }
}

/* Stores a session that was dropped, and says so. */
static void store_dropped(const Peggy *peggy) {
    store_session(peggy);
    fprintf(stderr, "peggy drops a session\n");
}

/* Gives up a session that waits for its challenge, and with it the nonce. */
static void give_up(Peggy *peggy) {
    if (peggy->session.phase == DIMKHOROS_PROVER_COMMITTED) {
        expect(&peggy->base, dimkhoros_drop(&peggy->session));
        store_dropped(peggy);
    }
}

/* Reads the stored session back. One that holds a nonce is dropped. */
static void reopen(Peggy *peggy, const uint8_t *stored, size_t length) {
    if (ANSWER_FOUND_SESSION && dimkhoros_prover_restore_with_nonce(stored, length, &peggy->session)) {
        return;
    }
    uint32_t found = dimkhoros_prover_reopen(stored, length, &peggy->session);
    if (found == DIMKHOROS_FOUND_COMMITTED) {
        store_dropped(peggy);
    } else if (found == DIMKHOROS_FOUND_DAMAGED) {
        fprintf(stderr, "peggy finds no session: the bytes are not a stored session, or they are damaged\n");
    }
}

/*
 * Step 1. If nothing is stored, Peggy never ran. If something is, a run of hers has ended, and she begins another session,
 * since Vic may wait for her.
 */
static void start(Peggy *peggy) {
    uint8_t stored[DIMKHOROS_STORED_PROVER + 1];
    ssize_t length = find_session(&peggy->base, stored, sizeof stored);
    if (length < 0) {
        peggy->session = dimkhoros_prover_new();
        store_session(peggy);
        return;
    }
    reopen(peggy, stored, (size_t)length);
    say_commitment(peggy);
}

/* Stores the session that has answered, whose nonce is gone. */
static int store_answered(void *base, const uint8_t *stored, size_t length) {
    return SEND_BEFORE_STORING ? 0 : try_to_store(base, stored, length);
}

/* Steps 6 to 8: answers a challenge. The response is sent only after the session is stored. */
static void answer(Peggy *peggy, uint32_t challenge) {
    Base *base = &peggy->base;
    uint32_t response[DIMKHOROS_PLACES];
    uint32_t refusal = dimkhoros_respond_after(base->sheet, base->sheet_length, &peggy->session, challenge,
                                               peggy->witness, store_answered, base, response);
    if (refusal == DIMKHOROS_NOT_STORED) {
        fail(base, dimkhoros_sentence(refusal));
    }
    if (refusal != 0) {
        fprintf(stderr, "peggy does not answer: %s\n", dimkhoros_sentence(refusal));
        return;
    }
    send_on_session(peggy, "response", response, base->header.columns);
    if (SEND_BEFORE_STORING) {
        store_session(peggy);
    }
}

/* Step 5: a challenge is answered only if it names the commitment of the session. */
static void take_line(Peggy *peggy, const DimkhorosBoxLine *line) {
    const size_t rows = peggy->base.header.rows;
    if (dimkhoros_box_is(line, "ready", 0)) {
        say_commitment(peggy);
    } else if (dimkhoros_box_is(line, "challenge", rows + 1) && same(line->numbers, peggy->session.commitment, rows)) {
        answer(peggy, line->numbers[rows]);
    } else {
        fprintf(stderr, "peggy does not answer: this is not for her commitment\n");
    }
}

int main(int argc, char **argv) {
    Peggy peggy;
    DimkhorosBoxLine line;
    if (argc != 2) {
        fprintf(stderr, "usage: peggy FOLDER\n");
        return 2;
    }
    open_base(&peggy.base, "peggy", argv[1]);
    read_witness(&peggy);
    start(&peggy);
    while (hear(&peggy.base, &line)) {
        take_line(&peggy, &line);
    }
    give_up(&peggy);
    return 0;
}
