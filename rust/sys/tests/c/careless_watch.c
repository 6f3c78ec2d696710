/*
 * A careless lab: one variable holds what its watch says of all rounds, and `refusal` is never looked at. After each round that
 * uses a nonce again comes one that is rejected, or refused by a value, by the sheet or by the watch. Prints what the lab hears.
 */
#include "in_place.h"

/* Page A's sheet, and the same with another statement. */
static Sheet sheet, other;

static DimkhorosWatch watch;

/* The one variable. */
static DimkhorosHeard heard;

static void hear(const char *what, const Sheet *of, size_t length, DimkhorosRound round) {
    heard = dimkhoros_hear(of->bytes, length, &watch, round);
    printf("%s: %s, ", what, heard.verdict.accepted ? "accepted" : "not accepted");
    if (heard.back == 0) {
        printf("no reuse");
    } else {
        printf("%u back, x = %u", heard.back, heard.witness[0]);
    }
    printf(" %u\n", heard.verdict.refusal);
}

int main(void) {
    const uint32_t values[1] = {2}, z[2] = {13, 3};
    const DimkhorosRound first = {{9}, 3, {4}}, second = {{9}, 1, {1}};
    const DimkhorosRound wrong = {{9}, 1, {2}}, too_large = {{9}, 1, {4000000000u}};
    make(&sheet, DIMKHOROS_PATTERN_SCHNORR, 23, 11, 11, values, 1, z, 1);
    make(&other, DIMKHOROS_PATTERN_SCHNORR, 23, 11, 11, values, 1, z + 1, 1);
    if (dimkhoros_open_watch(sheet.bytes, sheet.length, &watch) != 0) {
        return 1;
    }
    hear("first", &sheet, sheet.length, first);
    hear("second", &sheet, sheet.length, second);
    hear("wrong", &sheet, sheet.length, wrong);
    hear("first", &sheet, sheet.length, first);
    hear("too large", &sheet, sheet.length, too_large);
    hear("second", &sheet, sheet.length, second);
    hear("no sheet", &sheet, 0, first);
    hear("first", &sheet, sheet.length, first);
    hear("other sheet", &other, other.length, second);
    watch.count = 64;
    hear("a count of 64", &sheet, sheet.length, second);
    return 0;
}
