/*
 * Makes each call on a ledger by pointer and in its pure form, and compares both, and the checker's answer with judging on the sheets
 * of the products. Prints the numbers that each call answered, and the lines that were named.
 */
#include "in_place.h"

/* --- What is tried --- */

/* A base, the same with q not prime, and others that are refused with 5, 6, 8 and 10. */
static const DimkhorosBase bases[] = {
    {2, 3, 23, 11, 11}, {4, 9, 143, 30, 2}, {2, 3, 2, 11, 11}, {2, 3, 23, 1, 11}, {2, 3, 23, 11, 12}, {5, 3, 23, 11, 11}, {2, 0, 23, 11, 11},
};

/* How many lines there are. */
static const uint32_t counts[] = {0, 1, 4, 5, 63, 64, 65, UINT32_MAX};

static Seen writes = {"write_ledger", {0}, 0, 0};
static Seen checks = {"check_ledger", {0}, 0, 0};

/* How often a line was named. */
static int named[DIMKHOROS_MOST_LINES];

/* Adds a line: commitments to 2 and 3, their sum, their product, the product of the two last lines, and so on with these five. */
static uint32_t add_line(DimkhorosEntries *entries, uint32_t i) {
    const uint32_t nonce[3] = {1, 2, 3};
    switch (i % 5) {
    case 0:
        return dimkhoros_add_commitment(entries, 2, 1);
    case 1:
        return dimkhoros_add_commitment(entries, 3, 0);
    case 2:
        return dimkhoros_add_sum(entries, i - 2, i - 1);
    case 3:
        return dimkhoros_add_product(entries, i - 3, i - 2, 4, nonce, i % 2);
    default:
        return dimkhoros_add_product(entries, i - 1, i - 2, i % 11, nonce, 1);
    }
}

/* So many lines of all 64. */
static DimkhorosEntries entries_of(uint32_t count) {
    DimkhorosEntries entries = dimkhoros_no_entries();
    for (uint32_t i = 0; i < DIMKHOROS_MOST_LINES; i++) {
        require(add_line(&entries, i) == i, &writes, "a line has another number");
    }
    require(entries.count == DIMKHOROS_MOST_LINES, &writes, "there are more or fewer lines");
    entries.count = count;
    return entries;
}

/* Lines behind the 64th are counted and not written, whatever the count is. */
static void try_longer(const DimkhorosBase *base) {
    struct {
        DimkhorosEntries entries;
        uint8_t behind[64];
    } lent, expected;
    const uint32_t found[] = {64, 65, 66, 4711, UINT32_MAX};
    DimkhorosLedger ledger;
    memset(&lent, 0xDD, sizeof lent);
    lent.entries = entries_of(64);
    for (size_t c = 0; c < COUNT(found); c++) {
        for (uint32_t i = 0; i < 5; i++) {
            lent.entries.count = found[c];
            expected = lent;
            expected.entries.count = 65;
            require(add_line(&lent.entries, i) == 64, &writes, "the 65th line has another number");
            require(memcmp(&lent, &expected, sizeof lent) == 0, &writes, "the 65th line is written");
            count(&writes, dimkhoros_write_ledger(base, &lent.entries, &ledger), 37);
        }
    }
}

/* --- The calls --- */

/* A lent ledger between two runs of bytes that have to stay. */
typedef struct {
    uint8_t before[16];
    DimkhorosLedger ledger;
    uint8_t behind[16];
} LentLedger;

/* Makes a ledger. Answers it, or one of this byte everywhere if it is refused. */
static DimkhorosLedger try_write(const DimkhorosBase *base, const DimkhorosEntries *entries) {
    LentLedger after, expected;
    const DimkhorosEntries given = *entries;
    memset(&after, 0xDD, sizeof after);
    memset(&expected, 0xDD, sizeof expected);
    DimkhorosLedgerWritten pure = dimkhoros_ledger_write(*base, *entries);
    count(&writes, dimkhoros_write_ledger(base, entries, &after.ledger), pure.refusal);
    if (pure.refusal == 0) {
        expected.ledger = pure.ledger;
    }
    require(memcmp(&after, &expected, sizeof expected) == 0, &writes, "a byte differs");
    require(memcmp(&given, entries, sizeof given) == 0, &writes, "the entries are changed");
    return after.ledger;
}

static void try_check(const DimkhorosBase *base, const DimkhorosLedger *ledger) {
    const DimkhorosLedger given = *ledger;
    DimkhorosChecked pure = dimkhoros_ledger_check(*base, *ledger);
    DimkhorosChecked checked = dimkhoros_check_ledger(base, ledger);
    count(&checks, checked.refusal, pure.refusal);
    require(memcmp(&checked, &pure, sizeof pure) == 0, &checks, "the answers differ");
    require(memcmp(&given, ledger, sizeof given) == 0, &checks, "the ledger is changed");
    if (checked.refusal == 0 && checked.accepted == 0) {
        checks.rejected++;
        named[checked.line]++;
        return;
    }
    require(checked.line == 0, &checks, "a line is named");
    checks.accepted += checked.accepted == 1;
}

/* The lent bytes of a sheet. */
static uint8_t lent[DIMKHOROS_LONGEST_SHEET];

/* Judges a product by its sheet and its round. Every other line has no sheet. A buffer that is too short stays as it is. */
static int accepts(const DimkhorosBase *base, const DimkhorosLedger *ledger, uint32_t i) {
    memset(lent, 0xDD, sizeof lent);
    const DimkhorosWritten made = dimkhoros_line_sheet(base, ledger, i, lent, sizeof lent);
    const int is_product = i < ledger->count && ledger->lines[i].kind == DIMKHOROS_LINE_PRODUCT;
    require(made.refusal == 0 && made.length == (is_product ? 52u : 0u), &checks, "the sheet has another length");
    require(lent[made.length] == 0xDD, &checks, "a byte behind the sheet is changed");
    if (!is_product) {
        return 1;
    }
    const DimkhorosJudgement verdict = dimkhoros_judge(lent, made.length, dimkhoros_line_round(&ledger->lines[i]));
    require(verdict.refusal == 0, &checks, "a round is refused");
    memset(lent, 0xDD, sizeof lent);
    require(dimkhoros_line_sheet(base, ledger, i, lent, 51).refusal == 22 && lent[0] == 0xDD, &checks, "51 bytes will do");
    return verdict.accepted == 1;
}

/* The checker names the first product whose round is rejected on its own sheet. What is refused has no commitments and no sheets. */
static void try_lines(const DimkhorosBase *base, const DimkhorosLedger *ledger) {
    const DimkhorosChecked checked = dimkhoros_check_ledger(base, ledger);
    uint32_t commitments[DIMKHOROS_MOST_LINES], i = 0;
    memset(commitments, 0xDD, sizeof commitments);
    require(dimkhoros_line_commitments(base, ledger, commitments) == checked.refusal, &checks, "the numbers differ");
    if (checked.refusal != 0) {
        const DimkhorosWritten made = dimkhoros_line_sheet(base, ledger, 3, lent, sizeof lent);
        require(commitments[0] == 0xDDDDDDDDu, &checks, "a refused ledger has commitments");
        require(made.refusal == checked.refusal && made.length == 0, &checks, "a refused ledger has a sheet");
        return;
    }
    while (i <= DIMKHOROS_MOST_LINES && accepts(base, ledger, i)) {
        i++;
    }
    require(checked.accepted ? i > DIMKHOROS_MOST_LINES : i == checked.line, &checks, "another line is rejected on its sheet");
    for (i = ledger->count; i < DIMKHOROS_MOST_LINES; i++) {
        require(commitments[i] == 0, &checks, "a line that is not there has a commitment");
    }
}

/* The address of a number of a line, by its place among the ten. */
static uint32_t *number_of(DimkhorosLine *line, size_t place) {
    uint32_t *const numbers[10] = {&line->kind, &line->first,     &line->second,      &line->commitment,  &line->t[0],
                                   &line->t[1], &line->challenge, &line->response[0], &line->response[1], &line->response[2]};
    return numbers[place];
}

/* A ledger with each of its numbers changed. */
static void try_changed(const DimkhorosBase *base, const DimkhorosLedger *ledger) {
    const uint32_t numbers[] = {0, 1, 3, 4, 6, 63, UINT32_MAX};
    for (size_t i = 0; i < 10 * DIMKHOROS_MOST_LINES; i++) {
        for (size_t n = 0; n < COUNT(numbers); n++) {
            DimkhorosLedger odd = *ledger;
            *number_of(&odd.lines[i / 10], i % 10) = numbers[n];
            try_check(base, &odd);
            if (n == i % COUNT(numbers)) {
                try_lines(base, &odd);
            }
        }
    }
}

/* Entries with each number of a line changed. */
static void try_entries(const DimkhorosBase *base, const DimkhorosEntries *entries) {
    for (uint32_t i = 0; i < DIMKHOROS_MOST_LINES; i++) {
        for (int n = 0; n < 8; n++) {
            DimkhorosEntries odd = *entries;
            DimkhorosEntry *entry = &odd.entries[i];
            entry->kind ^= n == 0 ? 4 : 0;
            entry->first = n == 1 ? i : entry->first;
            entry->second = n == 2 ? i : entry->second;
            entry->value = n == 3 ? base->order : entry->value;
            entry->blinding = n == 4 ? base->order : entry->blinding;
            entry->nonce[0] = n == 5 ? base->order : entry->nonce[0];
            entry->nonce[2] = n == 6 ? base->order : entry->nonce[2];
            entry->challenge = n == 7 ? base->challenges : entry->challenge;
            try_write(base, &odd);
        }
    }
}

int main(void) {
    for (size_t b = 0; b < COUNT(bases); b++) {
        for (size_t c = 0; c < COUNT(counts); c++) {
            const DimkhorosEntries entries = entries_of(counts[c]);
            const DimkhorosLedger ledger = try_write(&bases[b], &entries);
            try_check(&bases[b], &ledger);
            try_lines(&bases[b], &ledger);
            try_changed(&bases[b], &ledger);
            try_entries(&bases[b], &entries);
        }
    }
    try_longer(&bases[0]);
    print(&writes);
    print(&checks);
    printf("line");
    for (size_t i = 0; i < COUNT(named); i++) {
        if (named[i] > 0) {
            printf(" %zu", i);
        }
    }
    printf("\n");
    return 0;
}
