/*
 * Reads lines of bytes in hexadecimal. Of each it prints what Peggy's session is found to be when these bytes are reopened, and the
 * stored form of the session that is then there, and the same of her session of the OR proof. Before each call the session is
 * a committed one, as it may be in a program that keeps one variable.
 */
#include "dimkhoros.h"
#include <stdio.h>
#include <stdlib.h>
#include <string.h>

#define MOST 3000

static uint8_t bytes[MOST];

/* Reads a line into `bytes`, and answers how many bytes it has, or -1 at the end. */
static int read_line(void) {
    char line[2 * MOST + 2];
    if (fgets(line, sizeof line, stdin) == NULL) {
        return -1;
    }
    int length = (int)strcspn(line, "\n") / 2;
    for (int i = 0; i < length; i++) {
        const char digits[3] = {line[2 * i], line[2 * i + 1], 0};
        bytes[i] = (uint8_t)strtoul(digits, NULL, 16);
    }
    return length;
}

static void print(uint32_t found, const uint8_t *stored, size_t length) {
    printf("%u ", found);
    for (size_t i = 0; i < length; i++) {
        printf("%02x", stored[i]);
    }
    printf("\n");
}

static void reopen_peggy(const uint8_t *stored, size_t length) {
    uint8_t after[DIMKHOROS_STORED_PROVER];
    DimkhorosProverSession peggy;
    memset(&peggy, 0xEE, sizeof peggy);
    peggy.phase = DIMKHOROS_PROVER_COMMITTED;
    uint32_t found = dimkhoros_prover_reopen(stored, length, &peggy);
    dimkhoros_prover_store(&peggy, after);
    print(found, after, sizeof after);
}

static void reopen_either(const uint8_t *stored, size_t length) {
    uint8_t after[DIMKHOROS_STORED_OR_PROVER];
    DimkhorosOrSession either;
    memset(&either, 0xEE, sizeof either);
    either.phase = DIMKHOROS_PROVER_COMMITTED;
    uint32_t found = dimkhoros_or_prover_reopen(stored, length, &either);
    dimkhoros_or_prover_store(&either, after);
    print(found, after, sizeof after);
}

int main(void) {
    for (int length = read_line(); length >= 0; length = read_line()) {
        const uint8_t *stored = length == 0 ? NULL : bytes;
        reopen_peggy(stored, (size_t)length);
        reopen_either(stored, (size_t)length);
    }
    return 0;
}
