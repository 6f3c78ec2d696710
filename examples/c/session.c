/* The box Peggy and the box Vic run the session of page A. In this program both boxes are one; only t, c and r pass over. */
#include "common.h"

int main(void) {
    uint8_t sheet[DIMKHOROS_LONGEST_SHEET];
    size_t length = page_a(sheet);
    const uint32_t nonce[8] = {5};
    const uint32_t witness[8] = {7};
    DimkhorosProverSession peggy = dimkhoros_prover_new();
    DimkhorosVerifierSession vic = dimkhoros_verifier_new();

    printf("Vic asks before he has heard a commitment: ");
    show_refusal(dimkhoros_take_challenge(sheet, length, &vic, 3));

    uint32_t t[8];
    expect(dimkhoros_commit(sheet, length, &peggy, nonce, t));
    printf("Peggy commits to the nonce 5: t = %u\n", t[0]);

    expect(dimkhoros_take_commitment(sheet, length, &vic, t));
    printf("Vic hears t = %u\n", vic.commitment[0]);

    expect(dimkhoros_take_challenge(sheet, length, &vic, 3));
    uint32_t c = vic.challenge;
    printf("Vic asks c = %u\n", c);

    uint32_t r[8];
    expect(dimkhoros_respond(sheet, length, &peggy, c, witness, r));
    printf("Peggy responds by the witness 7: r = %u\n", r[0]);

    DimkhorosJudgement verdict = dimkhoros_take_response(sheet, length, &vic, r);
    expect(verdict.refusal);
    printf("Vic judges r = %u: %s\n", r[0], verdict.accepted ? "accepted" : "rejected");

    printf("Peggy is asked c = 1 on the same nonce: ");
    show_refusal(dimkhoros_respond(sheet, length, &peggy, 1, witness, r));
    return 0;
}
