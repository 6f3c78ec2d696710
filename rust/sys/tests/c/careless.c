/*
 * A careless Vic: one variable holds the verdicts of all rounds, and `refusal` is never looked at. After each round that is
 * accepted comes one whose response is refused, by its value or by the session's state. Prints what he says of each round.
 */
#include "in_place.h"

static Sheet sheet;

/* The one variable. */
static DimkhorosJudgement verdict;

/* What Vic says. */
static void say(const char *round) {
    printf("%s: %s %u\n", round, verdict.accepted ? "accepted" : "not accepted", verdict.refusal);
}

/* A session on page A's sheet that has heard t = 9 and has asked c = 3, to which r = 4 is the response. */
static DimkhorosVerifierSession asked(void) {
    const uint32_t t[8] = {9};
    DimkhorosVerifierSession vic = dimkhoros_verifier_new();
    if (dimkhoros_take_commitment(sheet.bytes, sheet.length, &vic, t) != 0 ||
        dimkhoros_take_challenge(sheet.bytes, sheet.length, &vic, 3) != 0) {
        exit(1);
    }
    return vic;
}

/* A round with this response. */
static void judge(const char *round, const uint32_t *response) {
    DimkhorosVerifierSession vic = asked();
    verdict = dimkhoros_take_response(sheet.bytes, sheet.length, &vic, response);
    say(round);
}

int main(void) {
    const uint32_t values[1] = {2}, z[1] = {13};
    const uint32_t right[8] = {4}, wrong[8] = {5}, too_large[8] = {4000000000u};
    make(&sheet, DIMKHOROS_PATTERN_SCHNORR, 23, 11, 11, values, 1, z, 1);
    judge("right", right);
    judge("too large", too_large);
    judge("right", right);
    judge("wrong", wrong);
    judge("right", right);
    DimkhorosVerifierSession vic = dimkhoros_verifier_new();
    verdict = dimkhoros_take_response(sheet.bytes, sheet.length, &vic, right);
    say("nothing was asked");
    judge("right", right);
    vic = asked();
    verdict = dimkhoros_take_response(sheet.bytes, 0, &vic, right);
    say("no sheet");
    return 0;
}
