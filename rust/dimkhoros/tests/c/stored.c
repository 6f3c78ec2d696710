/*
 * Reads lines of bytes in hexadecimal, and prints of each what session it stores: whose, the values, and the bytes that the
 * session is stored as; or that it is refused. Of each session it also prints how many damaged forms were tried, and how many
 * of them were taken: every byte changed to every other value, or in every bit if there are over 256, every cut, every byte behind
 * it, and zeros behind it. A refused call has to leave the session alone.
 */
#include "dimkhoros.h"
#include <stdio.h>
#include <stdlib.h>
#include <string.h>

#define MOST 3000

static uint8_t bytes[MOST];

/* Reads a line into `bytes`, and answers how many bytes it has, or -1 at the end. */
static int read_line(void) {
    char line[2 * MOST + 2];
    if (fgets(line, sizeof line, stdin) == NULL) {
        return -1;
    }
    int length = (int)strcspn(line, "\n") / 2;
    for (int i = 0; i < length; i++) {
        const char digits[3] = {line[2 * i], line[2 * i + 1], 0};
        bytes[i] = (uint8_t)strtoul(digits, NULL, 16);
    }
    return length;
}

/* Whose session it is: Peggy's, Vic's, or Peggy's of the OR proof. */
typedef enum { PEGGY, VIC, EITHER } Whose;

typedef union {
    DimkhorosProverSession peggy;
    DimkhorosVerifierSession vic;
    DimkhorosOrSession either;
} Session;

/* Reads the session that these bytes hold, if they hold one of this kind. */
static int restore(Whose whose, const uint8_t *stored, size_t length, Session *session) {
    switch (whose) {
    case PEGGY:
        return dimkhoros_prover_restore_with_nonce(stored, length, &session->peggy);
    case VIC:
        return dimkhoros_verifier_restore(stored, length, &session->vic);
    default:
        return dimkhoros_or_prover_restore_with_nonce(stored, length, &session->either);
    }
}

/* Whether the first bytes of `bytes` are taken for a session of this kind. */
static int is_taken(Whose whose, size_t length) {
    Session session, other;
    memset(&session, 0xEE, sizeof session);
    other = session;
    int taken = restore(whose, bytes, length, &session);
    if (!taken && memcmp(&session, &other, sizeof session) != 0) {
        printf("a refused call changed the session\n");
    }
    return taken;
}

/* Tries every damaged form of the session in the first bytes of `bytes`. */
static void damage(Whose whose, size_t length) {
    int tried = 0, taken = 0, many = length > 256;
    for (size_t place = 0; place < length; place++) {
        uint8_t right = bytes[place];
        for (int change = 1; change < 256; change = many ? 2 * change : change + 1) {
            bytes[place] = (uint8_t)(right ^ change);
            taken += is_taken(whose, length);
            tried++;
        }
        bytes[place] = right;
        taken += is_taken(whose, place);
        tried++;
    }
    for (int byte = 0; byte < 256; byte++) {
        bytes[length] = (uint8_t)byte;
        taken += is_taken(whose, length + 1);
        tried++;
    }
    memset(bytes + length, 0, MOST - length);
    for (size_t longer = length + 1; longer <= MOST; longer++) {
        taken += is_taken(whose, longer);
        tried++;
    }
    printf("damaged %d taken %d\n", tried, taken);
}

static void print_values(const uint32_t *values, int count) {
    for (int i = 0; i < count; i++) {
        printf(" %u", values[i]);
    }
}

static void print_bytes(const uint8_t *stored, int length) {
    printf("\n");
    for (int i = 0; i < length; i++) {
        printf("%02x", stored[i]);
    }
    printf("\n");
}

static void show_peggy(const DimkhorosProverSession *peggy) {
    uint8_t stored[DIMKHOROS_STORED_PROVER];
    printf("peggy");
    print_values(peggy->nonce, 8);
    print_values(peggy->commitment, 8);
    print_values(&peggy->phase, 1);
    for (int name = 0; name < DIMKHOROS_SAVED_STATES; name++) {
        print_values(peggy->memory.saved[name].nonce, 8);
        print_values(peggy->memory.saved[name].commitment, 8);
        print_values(&peggy->memory.saved[name].phase, 1);
        print_values(&peggy->memory.saved[name].kept, 1);
    }
    for (int i = 0; i < DIMKHOROS_MOST_ANSWERED; i++) {
        print_values(peggy->memory.answered[i].commitment, 8);
    }
    print_values(&peggy->memory.count, 1);
    dimkhoros_prover_store(peggy, stored);
    print_bytes(stored, DIMKHOROS_STORED_PROVER);
    damage(PEGGY, DIMKHOROS_STORED_PROVER);
}

static void show_vic(const DimkhorosVerifierSession *vic) {
    uint8_t stored[DIMKHOROS_STORED_VERIFIER];
    printf("vic");
    print_values(vic->commitment, 8);
    print_values(&vic->challenge, 1);
    print_values(&vic->phase, 1);
    dimkhoros_verifier_store(vic, stored);
    print_bytes(stored, DIMKHOROS_STORED_VERIFIER);
    damage(VIC, DIMKHOROS_STORED_VERIFIER);
}

static void show_either(const DimkhorosOrSession *either) {
    uint8_t stored[DIMKHOROS_STORED_OR_PROVER];
    printf("either");
    print_values(either->nonce, 8);
    print_values(either->response, 8);
    print_values(either->commitment0, 8);
    print_values(either->commitment1, 8);
    print_values(&either->challenge, 1);
    print_values(&either->side, 1);
    print_values(&either->phase, 1);
    dimkhoros_or_prover_store(either, stored);
    print_bytes(stored, DIMKHOROS_STORED_OR_PROVER);
    damage(EITHER, DIMKHOROS_STORED_OR_PROVER);
}

int main(void) {
    Session peggy, vic, either;
    for (int length = read_line(); length >= 0; length = read_line()) {
        const uint8_t *stored = length == 0 ? NULL : bytes;
        int peggys = restore(PEGGY, stored, (size_t)length, &peggy);
        int vics = restore(VIC, stored, (size_t)length, &vic);
        int eithers = restore(EITHER, stored, (size_t)length, &either);
        if (peggys) {
            show_peggy(&peggy.peggy);
        }
        if (vics) {
            show_vic(&vic.vic);
        }
        if (eithers) {
            show_either(&either.either);
        }
        if (!peggys && !vics && !eithers) {
            printf("refused\n");
        }
    }
    return 0;
}
