/* What the examples share: the sheet of page A, and how a refusal is shown. */
#ifndef COMMON_H
#define COMMON_H

#include "dimkhoros.h"
#include <stdio.h>
#include <stdlib.h>

/* Shows a refusal with what it says, on one line. */
static inline void show_refusal(uint32_t refusal) { printf("refusal %u: %s\n", refusal, dimkhoros_sentence(refusal)); }

/* Ends the program where something is refused that should not be. */
static inline void expect(uint32_t refusal) {
    if (refusal != 0) {
        show_refusal(refusal);
        exit(1);
    }
}

/* Writes the Schnorr sheet of page A, 2^x = 13 modulo 23, and answers its length. The witness is 7. */
static inline size_t page_a(uint8_t sheet[DIMKHOROS_LONGEST_SHEET]) {
    const uint32_t h = 2;
    const uint32_t z = 13;
    uint8_t patterns[DIMKHOROS_SHIPPED_PATTERNS];
    DimkhorosWritten shipped = dimkhoros_patterns(patterns, sizeof patterns);
    expect(shipped.refusal);
    DimkhorosWritten made = dimkhoros_from_pattern(patterns, shipped.length, DIMKHOROS_PATTERN_SCHNORR, 23, 11, 11, &h, 1,
                                                   &z, 1, sheet, DIMKHOROS_LONGEST_SHEET);
    expect(made.refusal);
    printf("The sheet: 2^x = 13 modulo 23, order 11, challenges 0 to 10.\n");
    return made.length;
}

#endif
