// The header serves C++: Peggy runs the session of page A, and her round is judged.
#include "dimkhoros.h"
#include <cstdio>

int main() {
    const uint32_t h = 2;
    const uint32_t z = 13;
    uint8_t patterns[DIMKHOROS_SHIPPED_PATTERNS];
    DimkhorosWritten file = dimkhoros_patterns(patterns, sizeof patterns);
    uint8_t sheet[DIMKHOROS_LONGEST_SHEET];
    DimkhorosWritten made = dimkhoros_from_pattern(patterns, file.length, DIMKHOROS_PATTERN_SCHNORR, 23, 11, 11, &h, 1,
                                                   &z, 1, sheet, sizeof sheet);
    const uint32_t nonce[8] = {5};
    const uint32_t witness[8] = {7};
    DimkhorosProverSession peggy = dimkhoros_prover_new();
    DimkhorosRound round = {{0}, 3, {0}};
    uint32_t refusal = dimkhoros_commit(sheet, made.length, &peggy, nonce, round.commitment);
    if (refusal == 0) {
        refusal = dimkhoros_respond(sheet, made.length, &peggy, round.challenge, witness, round.response);
    }
    DimkhorosJudgement verdict = dimkhoros_judge(sheet, made.length, round);
    std::printf("%u %u %s\n", refusal, verdict.accepted, dimkhoros_sentence(DIMKHOROS_REFUSED_BUFFER));
    return 0;
}
