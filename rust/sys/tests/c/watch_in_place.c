/*
 * Makes each call on a watch in place and in its pure form, and compares both. Prints the numbers that each call answered, and
 * how many accepted rounds back the named rounds stood.
 */
#include "in_place.h"

/* --- What is tried --- */

/* A Schnorr sheet, the same with another statement, a product sheet of two rows and three columns, and one that is refused. */
static Sheet sheets[4];

/*
 * Rounds that are accepted on the first sheet and on the product sheet, with commitments that come twice, with the same challenge
 * and with another one. Then rounds that are rejected, and refused with 14, 15 and 16.
 */
static const DimkhorosRound rounds[] = {
    {{9}, 3, {4}},       {{9}, 1, {1}},          {{9}, 3, {4}},    {{2}, 3, {0}},       {{1, 1}, 1, {2, 1}},
    {{1, 1}, 0, {0, 0}}, {{1, 1}, 2, {4, 2, 0}}, {{9}, 1, {2}},    {{5}, 3, {4}},       {{9}, 5, {4}},
    {{9}, 3, {11}},      {{1, 1}, 1, {2, 2}},    {{1, 5}, 1, {2}}, {{1, 1}, 1, {2, 11}},
};

/* What a watch made by hand counts. */
static const uint32_t counts[] = {0, 1, 2, 62, 63, 64, UINT32_MAX};

static void make_sheets(void) {
    const uint32_t values[3] = {2, 3, 3};
    const uint32_t schnorr[1] = {13}, other[1] = {3};
    const uint32_t product[2] = {12, 9};
    make(&sheets[0], DIMKHOROS_PATTERN_SCHNORR, 23, 11, 5, values, 1, schnorr, 1);
    make(&sheets[1], DIMKHOROS_PATTERN_SCHNORR, 23, 11, 5, values, 1, other, 1);
    make(&sheets[2], DIMKHOROS_PATTERN_PRODUCT, 23, 11, 5, values, 3, product, 2);
}

static Seen opens = {"open_watch", {0}, 0, 0};
static Seen hears = {"hear", {0}, 0, 0};

/* How often a round was named that stood so many accepted rounds back. */
static int named[DIMKHOROS_MOST_REMEMBERED + 1];

/* --- The calls --- */

/* A lent watch between two runs of bytes that have to stay. */
typedef struct {
    uint8_t before[16];
    DimkhorosWatch watch;
    uint8_t behind[16];
} LentWatch;

static LentWatch lent(const DimkhorosWatch *watch) {
    LentWatch held;
    memset(&held, 0xDD, sizeof held);
    held.watch = *watch;
    return held;
}

static void try_open(const Sheet *sheet, const DimkhorosWatch *watch) {
    LentWatch after = lent(watch), expected = lent(watch);
    DimkhorosOpened pure = dimkhoros_watch_open(sheet->bytes, sheet->length);
    uint32_t refusal = dimkhoros_open_watch(sheet->bytes, sheet->length, &after.watch);
    count(&opens, refusal, pure.refusal);
    if (refusal == 0) {
        expected.watch = pure.watch;
    }
    require(memcmp(&after, &expected, sizeof expected) == 0, &opens, "a byte differs");
}

/* Gives a watch a round, and answers the watch to go on with. */
static DimkhorosWatch try_hear(const Sheet *sheet, const DimkhorosWatch *watch, DimkhorosRound round) {
    const uint32_t zeros[8] = {0};
    LentWatch after = lent(watch);
    DimkhorosWatchAnswer pure = dimkhoros_watch_round(sheet->bytes, sheet->length, *watch, round);
    LentWatch expected = lent(&pure.watch);
    DimkhorosHeard heard = dimkhoros_hear(sheet->bytes, sheet->length, &after.watch, round);
    count(&hears, heard.verdict.refusal, pure.verdict.refusal);
    require(memcmp(&after, &expected, sizeof expected) == 0, &hears, "a byte differs");
    require(memcmp(&heard.verdict, &pure.verdict, sizeof heard.verdict) == 0, &hears, "the verdicts differ");
    require(heard.back == pure.back && memcmp(heard.witness, pure.witness, sizeof zeros) == 0, &hears, "the reuses differ");
    if (heard.verdict.accepted == 0) {
        require(memcmp(&after.watch, watch, sizeof *watch) == 0, &hears, "a round that is not accepted changes the watch");
        require(heard.back == 0 && memcmp(heard.witness, zeros, sizeof zeros) == 0, &hears, "it has a reuse");
        hears.rejected += heard.verdict.refusal == 0;
        require(heard.verdict.refusal == 0 || heard.verdict.rows == 0, &hears, "a refused round has a verdict");
    } else {
        hears.accepted++;
        named[heard.back]++;
    }
    return after.watch;
}

/* Every sheet and every round, on one watch. */
static void try_watch(const DimkhorosWatch *watch) {
    for (size_t s = 0; s < COUNT(sheets); s++) {
        try_open(&sheets[s], watch);
        for (size_t i = 0; i < COUNT(rounds); i++) {
            try_hear(&sheets[s], watch, rounds[i]);
        }
    }
}

/* A watch that is given rounds one by one, and watches made by hand of each that it becomes. */
static void try_chain(const Sheet *sheet) {
    DimkhorosWatch watch = dimkhoros_watch_open(sheet->bytes, sheet->length).watch;
    for (size_t i = 0; i < 140; i++) {
        watch = try_hear(sheet, &watch, rounds[i < 6 ? i : 3 + i % 2]);
        for (size_t c = 0; c < COUNT(counts); c++) {
            DimkhorosWatch odd = watch;
            odd.count = counts[c];
            try_watch(&odd);
            odd.rounds[0].response[0] ^= 1;
            try_watch(&odd);
            odd.length ^= 1;
            try_watch(&odd);
        }
    }
}

int main(void) {
    make_sheets();
    for (size_t s = 0; s < COUNT(sheets); s++) {
        try_chain(&sheets[s]);
    }
    print(&opens);
    print(&hears);
    printf("back");
    for (size_t back = 0; back < COUNT(named); back++) {
        if (named[back] > 0) {
            printf(" %zu", back);
        }
    }
    printf("\n");
    return 0;
}
