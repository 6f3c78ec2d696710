/*
 * A course author makes a sheet of each shipped pattern, one of a pattern of her own and one of linear forms, and bad ones are
 * refused by number.
 */
#include "common.h"

/* A pattern file. */
typedef struct {
    const char *name;
    const uint8_t *bytes;
    size_t length;
} File;

/* What a sheet is made of. */
typedef struct {
    const char *name;
    uint32_t pattern, modulus, order, challenges;
    uint32_t values[3];
    size_t value_count;
    uint32_t statement[2];
    size_t statement_count;
} Plan;

static const Plan good[] = {
    {"Schnorr", DIMKHOROS_PATTERN_SCHNORR, 23, 11, 11, {2}, 1, {13}, 1},
    {"Okamoto", DIMKHOROS_PATTERN_OKAMOTO, 23, 11, 11, {2, 3}, 2, {18}, 1},
    {"equality", DIMKHOROS_PATTERN_EQUALITY, 23, 11, 11, {2, 3}, 2, {13, 2}, 2},
    {"Diffie-Hellman", DIMKHOROS_PATTERN_DIFFIE_HELLMAN, 23, 11, 11, {2, 16}, 2, {13, 18}, 2},
    {"product", DIMKHOROS_PATTERN_PRODUCT, 23, 11, 11, {2, 3, 3}, 3, {12, 9}, 2},
    {"root", DIMKHOROS_PATTERN_ROOT, 35, 5, 5, {0}, 0, {32}, 1},
};

static const Plan bad[] = {
    {"pattern 6", 6, 23, 11, 11, {2}, 1, {13}, 1},
    {"Okamoto with one value", DIMKHOROS_PATTERN_OKAMOTO, 23, 11, 11, {2}, 1, {18}, 1},
    {"12 challenges for order 11", DIMKHOROS_PATTERN_SCHNORR, 23, 11, 12, {2}, 1, {13}, 1},
    {"4 challenges for order 15", DIMKHOROS_PATTERN_SCHNORR, 31, 15, 4, {1}, 1, {1}, 1},
    {"statement 5", DIMKHOROS_PATTERN_SCHNORR, 23, 11, 11, {2}, 1, {5}, 1},
};

/* A file with one pattern, ElGamal's commitments: rows (1 g) and (g h) over the public values g and h. */
static const uint8_t elgamal[] = {'P', 'A', 'T', 0, 1, 1, 2, 2, 2, 0, 1, 1, 2};

static const Plan commitment = {"ElGamal", 1, 23, 11, 11, {2, 3}, 2, {9, 8}, 2};

/* The same with the digit 3, for which there is no value, and with a byte behind it. */
static const uint8_t digit_3[] = {'P', 'A', 'T', 0, 1, 1, 2, 2, 2, 0, 1, 1, 3};
static const uint8_t byte_behind[] = {'P', 'A', 'T', 0, 1, 1, 2, 2, 2, 0, 1, 1, 2, 0};

static const File bad_files[] = {
    {"digit 3 of two values", digit_3, sizeof digit_3},
    {"a byte behind", byte_behind, sizeof byte_behind},
};

/* A statement of two rows over generators, in four secrets. */
typedef struct {
    const char *name;
    uint32_t generators[3];
    size_t generator_count;
    uint32_t coefficients[24];
} Forms;

/* Maurer's example, over h1 = 2, h2 = 3 and h3 = 4: z1 = h1^x3 * h2^x1 and z2 = h1^x2 * h2^x4 * h3^x1. */
#define ROW_1 0, 0, 1, 0, 1, 0, 0, 0, 0, 0, 0, 0
#define ROW_2 0, 1, 0, 0, 0, 0, 0, 1, 1, 0, 0, 0

static const Forms maurer = {"Maurer's example", {2, 3, 4}, 3, {ROW_1, ROW_2}};

static const Forms bad_forms[] = {
    {"two generators for three forms in a row", {2, 3}, 2, {ROW_1, ROW_2}},
    {"coefficient 11", {2, 3, 4}, 3, {11}},
    {"generator 5", {2, 3, 5}, 3, {ROW_1, ROW_2}},
};

static DimkhorosWritten make_forms(const Forms *forms, uint8_t sheet[DIMKHOROS_LONGEST_SHEET]) {
    const uint32_t statement[2] = {1, 8};
    return dimkhoros_linear(23, 11, 11, 2, 4, forms->generators, forms->generator_count, forms->coefficients, 24,
                            statement, 2, sheet, DIMKHOROS_LONGEST_SHEET);
}

static DimkhorosWritten make(const File *file, const Plan *plan, uint8_t sheet[DIMKHOROS_LONGEST_SHEET]) {
    return dimkhoros_from_pattern(file->bytes, file->length, plan->pattern, plan->modulus, plan->order, plan->challenges,
                                  plan->values, plan->value_count, plan->statement, plan->statement_count, sheet,
                                  DIMKHOROS_LONGEST_SHEET);
}

/* Says what a sheet has that was made. */
static void show(const char *name, const uint8_t *sheet, DimkhorosWritten made) {
    expect(made.refusal);
    DimkhorosLoaded loaded = dimkhoros_load(sheet, made.length);
    expect(loaded.refusal);
    printf("%s: rows %u, columns %u, %zu bytes\n", name, loaded.header.rows, loaded.header.columns, made.length);
}

/* Makes Maurer's sheet, and says what the bad ones are refused with. */
static void linear_forms(void) {
    uint8_t sheet[DIMKHOROS_LONGEST_SHEET];
    printf("Linear forms over three generators.\n");
    show(maurer.name, sheet, make_forms(&maurer, sheet));
    for (size_t i = 0; i < sizeof bad_forms / sizeof bad_forms[0]; i++) {
        printf("%s: ", bad_forms[i].name);
        show_refusal(make_forms(&bad_forms[i], sheet).refusal);
    }
}

int main(void) {
    uint8_t patterns[DIMKHOROS_SHIPPED_PATTERNS];
    uint8_t sheet[DIMKHOROS_LONGEST_SHEET];
    DimkhorosWritten written = dimkhoros_patterns(patterns, sizeof patterns);
    expect(written.refusal);
    File shipped = {"shipped", patterns, written.length};
    printf("The shipped file: %zu bytes.\n", shipped.length);
    for (size_t i = 0; i < sizeof good / sizeof good[0]; i++) {
        show(good[i].name, sheet, make(&shipped, &good[i], sheet));
    }
    for (size_t i = 0; i < sizeof bad / sizeof bad[0]; i++) {
        printf("%s: ", bad[i].name);
        show_refusal(make(&shipped, &bad[i], sheet).refusal);
    }
    File own = {"own", elgamal, sizeof elgamal};
    printf("A file of her own: %zu bytes.\n", own.length);
    show(commitment.name, sheet, make(&own, &commitment, sheet));
    for (size_t i = 0; i < sizeof bad_files / sizeof bad_files[0]; i++) {
        printf("%s: ", bad_files[i].name);
        show_refusal(make(&bad_files[i], &commitment, sheet).refusal);
    }
    linear_forms();
    return 0;
}
