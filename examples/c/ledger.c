/*
 * A ledger of committed values. A shop commits to a price and two counts, and computes the bill on the commitments: the sum of the
 * counts, and the price times the sum. Its customer checks the ledger without the values, and opens the bill alone.
 */
#include "common.h"

/* What all lines share: 2^v * 3^b modulo 23 commits to v with the blinding number b. */
static const DimkhorosBase base = {2, 3, 23, 11, 11};

/* The bill's line. The lines above are the price, two counts and the sum of the counts. */
#define BILL 4

/* The shop's entries: the price 2, the counts 1 and 3, with blinding numbers, and the bill's blinding number, nonce and challenge. */
static DimkhorosEntries shop(uint32_t challenge) {
    const uint32_t nonce[3] = {1, 2, 3};
    DimkhorosEntries entries = dimkhoros_no_entries();
    const uint32_t price = dimkhoros_add_commitment(&entries, 2, 1);
    const uint32_t first = dimkhoros_add_commitment(&entries, 1, 7);
    const uint32_t second = dimkhoros_add_commitment(&entries, 3, 8);
    const uint32_t sum = dimkhoros_add_sum(&entries, first, second);
    dimkhoros_add_product(&entries, price, sum, 4, nonce, challenge);
    return entries;
}

/* The shop's ledger. */
static DimkhorosLedger written(uint32_t challenge) {
    const DimkhorosEntries entries = shop(challenge);
    DimkhorosLedger ledger;
    expect(dimkhoros_write_ledger(&base, &entries, &ledger));
    return ledger;
}

/* What is found of a ledger. */
static void show_checked(const DimkhorosLedger *ledger) {
    const DimkhorosChecked checked = dimkhoros_check_ledger(&base, ledger);
    if (checked.refusal != 0) {
        show_refusal(checked.refusal);
    } else if (checked.accepted) {
        printf("the ledger is accepted\n");
    } else {
        printf("the ledger is rejected in line %u\n", checked.line);
    }
}

/* The lines as the customer sees them. */
static void show_lines(const DimkhorosLedger *ledger) {
    uint32_t commitments[DIMKHOROS_MOST_LINES];
    expect(dimkhoros_line_commitments(&base, ledger, commitments));
    for (uint32_t i = 0; i < ledger->count; i++) {
        const DimkhorosLine *line = &ledger->lines[i];
        printf("line %u: commitment %u", i, commitments[i]);
        if (line->kind == DIMKHOROS_LINE_SUM) {
            printf(", the sum of lines %u and %u", line->first, line->second);
        } else if (line->kind == DIMKHOROS_LINE_PRODUCT) {
            printf(", the product of lines %u and %u by t = (%u, %u), c = %u, r = (%u, %u, %u)", line->first, line->second,
                   line->t[0], line->t[1], line->challenge, line->response[0], line->response[1], line->response[2]);
        }
        printf("\n");
    }
}

/* The commitment to a value: that of a ledger of one line. */
static uint32_t commitment_to(uint32_t value, uint32_t blinding) {
    DimkhorosEntries entries = dimkhoros_no_entries();
    DimkhorosLedger ledger;
    dimkhoros_add_commitment(&entries, value, blinding);
    expect(dimkhoros_write_ledger(&base, &entries, &ledger));
    return ledger.lines[0].commitment;
}

/* A second challenge on the bill's nonce gives the price away, and what the bill opens to follows from an opening of the sum. */
static void show_extracted(void) {
    const DimkhorosLedger first = written(3), second = written(5);
    uint8_t sheet[DIMKHOROS_LONGEST_SHEET];
    const DimkhorosWritten made = dimkhoros_line_sheet(&base, &first, BILL, sheet, sizeof sheet);
    expect(made.refusal);
    const DimkhorosComputed found = dimkhoros_extract(sheet, made.length, dimkhoros_line_round(&first.lines[BILL]),
                                                      dimkhoros_line_round(&second.lines[BILL]));
    expect(found.refusal);
    const uint32_t a = found.values[0], b = 4, beta = 4;
    printf("the challenges 3 and 5 give (%u, %u, %u): the price is %u\n", found.values[0], found.values[1], found.values[2], a);
    const uint32_t value = a * b % base.order, blinding = (a * beta + found.values[2]) % base.order;
    printf("the sum opens to %u with %u, so the bill opens to %u with %u: %u\n", b, beta, value, blinding,
           commitment_to(value, blinding));
}

/* What is refused: a price of q, a line that is not above, a kind that is none, and a commitment outside the group. */
static void show_refusals(void) {
    DimkhorosEntries entries = shop(3);
    DimkhorosLedger ledger = written(3);
    entries.entries[0].value = base.order;
    show_refusal(dimkhoros_write_ledger(&base, &entries, &ledger));
    entries.entries[3].second = 3;
    show_refusal(dimkhoros_write_ledger(&base, &entries, &ledger));
    entries.entries[3].kind = 4;
    show_refusal(dimkhoros_write_ledger(&base, &entries, &ledger));
    show_checked(&ledger);
    ledger.lines[0].commitment = 5;
    show_checked(&ledger);
    ledger.count = 65;
    show_checked(&ledger);
}

int main(void) {
    DimkhorosLedger ledger = written(3);
    printf("A commitment to v with b is 2^v * 3^b modulo 23, order 11, challenges 0 to 10.\n");
    printf("\nThe shop hands the customer a ledger.\n");
    show_lines(&ledger);
    show_checked(&ledger);
    printf("the shop opens the bill to 8 with 4: %u\n", commitment_to(8, 4));
    printf("\nA response is changed.\n");
    ledger.lines[BILL].response[2] ^= 1;
    show_checked(&ledger);
    printf("\nThe shop answers two challenges on one nonce.\n");
    show_extracted();
    printf("\nLedgers that are none.\n");
    show_refusals();
    return 0;
}
