/*
 * Draws many nonces of a sheet, which is read in hexadecimal from standard input, from the system's generator. Prints for each place
 * how many different values were drawn, the lowest and the highest. Each nonce has to be one that a session is committed to.
 */
#define _POSIX_C_SOURCE 200809L
#include "dimkhoros_box.h"

enum { NONCES = 4000, VALUES = 64 };

static uint8_t sheet[DIMKHOROS_LONGEST_SHEET];
static size_t length;
static int seen[DIMKHOROS_PLACES][VALUES];

static void read_sheet(void) {
    unsigned int byte;
    while (length < sizeof sheet && scanf("%2x", &byte) == 1) {
        sheet[length++] = (uint8_t)byte;
    }
}

/* Draws a nonce into places that hold something else, and counts its values. */
static int draw(void) {
    uint32_t nonce[DIMKHOROS_PLACES], commitment[DIMKHOROS_PLACES];
    DimkhorosProverSession peggy = dimkhoros_prover_new();
    memset(nonce, 0xEE, sizeof nonce);
    uint32_t refusal = dimkhoros_box_nonce(sheet, length, nonce);
    if (refusal != 0) {
        printf("refused %u, and the nonce is %s\n", refusal, nonce[0] == 0xEEEEEEEE ? "as it was" : "changed");
        return 0;
    }
    refusal = dimkhoros_commit(sheet, length, &peggy, nonce, commitment);
    for (int j = 0; j < DIMKHOROS_PLACES && refusal == 0; j++) {
        seen[j][nonce[j] % VALUES]++;
    }
    return refusal == 0;
}

static void print_place(const int *counts) {
    int different = 0, low = VALUES, high = -1;
    for (int value = 0; value < VALUES; value++) {
        different += counts[value] > 0;
        low = counts[value] > 0 && value < low ? value : low;
        high = counts[value] > 0 ? value : high;
    }
    printf("%d from %d to %d\n", different, low, high);
}

int main(void) {
    read_sheet();
    for (int i = 0; i < NONCES; i++) {
        if (!draw()) {
            return 0;
        }
    }
    for (int j = 0; j < DIMKHOROS_PLACES; j++) {
        print_place(seen[j]);
    }
    return 0;
}
