/*
 * A careless checker: one variable holds what it is told of all ledgers, another the ledger that was made last, and no refusal is
 * looked at. Between right ledgers come wrong ones. Prints what the checker takes them for, and the first commitment of the ledger.
 */
#include "in_place.h"

static const DimkhorosBase base = {2, 3, 23, 11, 11}, no_base = {5, 3, 23, 11, 11};

/* The one variable, and the ledger. */
static DimkhorosChecked checked;
static DimkhorosLedger ledger;

static void look(const char *what, const DimkhorosBase *over) {
    checked = dimkhoros_check_ledger(over, &ledger);
    printf("%s: %s, line %u, %u\n", what, checked.accepted ? "accepted" : "not accepted", checked.line, checked.refusal);
}

/* Makes the ledger of a commitment to a value, another to 3, and their product. */
static void make_ledger(uint32_t value) {
    const uint32_t nonce[3] = {1, 2, 3};
    DimkhorosEntries entries = dimkhoros_no_entries();
    dimkhoros_add_commitment(&entries, value, 1);
    dimkhoros_add_commitment(&entries, 3, 0);
    dimkhoros_add_product(&entries, 0, 1, 4, nonce, 3);
    const uint32_t refusal = dimkhoros_write_ledger(&base, &entries, &ledger);
    printf("%u: refusal %u, commitment %u\n", value, refusal, ledger.lines[0].commitment);
}

int main(void) {
    make_ledger(2);
    look("right", &base);
    ledger.lines[2].response[0] ^= 1;
    look("wrong", &base);
    ledger.lines[2].response[0] ^= 1;
    look("right", &base);
    look("no base", &no_base);
    look("right", &base);
    ledger.lines[2].response[0] = 11;
    look("too large", &base);
    make_ledger(11);
    look("after a refused one", &base);
    make_ledger(5);
    look("right", &base);
    ledger.count = 65;
    look("a count of 65", &base);
    return 0;
}
