/*
 * What the programs share that make each call on a session in place and in its pure form on the same inputs. Both forms have to
 * answer the same number. Where it is 0, session and values have to be those of the pure form; else every byte that was lent has
 * to stay. No byte beside what is lent may change.
 */
#ifndef IN_PLACE_H
#define IN_PLACE_H

#include "dimkhoros.h"
#include <stdio.h>
#include <stdlib.h>
#include <string.h>

#define COUNT(array) (sizeof(array) / sizeof(array)[0])

typedef struct {
    uint8_t bytes[DIMKHOROS_LONGEST_SHEET];
    size_t length;
} Sheet;

/* Makes a sheet of a shipped pattern. */
static inline void make(Sheet *sheet, uint32_t pattern, uint32_t m, uint32_t l, uint32_t k, const uint32_t *values,
                        size_t count, const uint32_t *z, size_t rows) {
    uint8_t patterns[DIMKHOROS_SHIPPED_PATTERNS];
    DimkhorosWritten file = dimkhoros_patterns(patterns, sizeof patterns);
    DimkhorosWritten made = dimkhoros_from_pattern(patterns, file.length, pattern, m, l, k, values, count, z, rows,
                                                   sheet->bytes, sizeof sheet->bytes);
    if (file.refusal != 0 || made.refusal != 0) {
        exit(1);
    }
    sheet->length = made.length;
}

/* Which numbers a call answered, and by how many comparisons. */
typedef struct {
    const char *name;
    int answered[38];
    int accepted, rejected;
} Seen;

static inline void require(int holds, const Seen *seen, const char *what) {
    if (!holds) {
        printf("%s: %s\n", seen->name, what);
        exit(1);
    }
}

/* A lent thing between two runs of bytes that have to stay. */
typedef struct {
    uint8_t before[16];
    union {
        DimkhorosProverSession peggy;
        DimkhorosVerifierSession vic;
        DimkhorosOrSession either;
        DimkhorosOrRound round;
        uint32_t values[8];
    } lent;
    uint8_t behind[16];
} Lent;

/* A lent thing with this byte everywhere. */
static inline Lent filled(int byte) {
    Lent lent;
    memset(&lent, byte, sizeof lent);
    return lent;
}

/* Compares a lent thing after a call with what it was before, and its first bytes with what the pure form answers. */
static inline void compare(const Lent *after, Lent expected, const void *answer, size_t length, uint32_t refusal, const Seen *seen) {
    if (refusal == 0) {
        memcpy(&expected.lent, answer, length);
    }
    require(memcmp(after, &expected, sizeof expected) == 0, seen, "a byte differs");
}

/* Counts a number that both forms answered. */
static inline void count(Seen *seen, uint32_t in_place, uint32_t pure) {
    require(in_place == pure && pure < COUNT(seen->answered), seen, "the numbers differ");
    seen->answered[pure]++;
}

/* What a store of a test does: it fails or not, and keeps what it is given. It must be called before the answer is given. */
typedef struct {
    int fails;
    int called;
    uint8_t stored[DIMKHOROS_STORED_PROVER]; /* the longest form */
    size_t length;
    const Lent *answer; /* where the answer is put later */
} Disk;

static inline int keep(void *disk, const uint8_t *stored, size_t length) {
    const Seen seen = {"store", {0}, 0, 0};
    Disk *kept = (Disk *)disk;
    const Lent untouched = filled(0xEE);
    require(memcmp(kept->answer, &untouched, sizeof untouched) == 0, &seen, "the answer is given before it is stored");
    require(length <= sizeof kept->stored, &seen, "too many bytes");
    memcpy(kept->stored, stored, length);
    kept->length = length;
    kept->called++;
    return kept->fails;
}

/* A disk is given these bytes once where the call is carried out, and nothing where it is refused. */
static inline void look_at(const Disk *disk, const uint8_t *stored, size_t length, uint32_t refusal, const Seen *seen) {
    require(disk->called == (refusal == 0), seen, "the store is called another number of times");
    require(refusal != 0 || (disk->length == length && memcmp(disk->stored, stored, length) == 0), seen,
            "other bytes are stored");
}

static inline void print(const Seen *seen) {
    printf("%s", seen->name);
    for (size_t number = 0; number < COUNT(seen->answered); number++) {
        if (seen->answered[number] > 0) {
            printf(" %zu", number);
        }
    }
    printf("%s%s\n", seen->accepted ? " accepted" : "", seen->rejected ? " rejected" : "");
}

#endif
