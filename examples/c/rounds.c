/* Vic keeps a file of rounds, a marker judges each of them and says whether they are enough for a level, a student is told the
 * reason, and the file is converted to version 2 and back. A sheet of two rows shows how the rows that differ are named. */
#include "common.h"
#include <string.h>

static const DimkhorosRound mixed[] = {
    {{9}, 3, {4}},
    {{9}, 1, {1}},
    {{9}, 1, {2}},
    {{5}, 0, {0}},
};

static const DimkhorosRound accepted[] = {
    {{9}, 3, {4}},
    {{9}, 1, {1}},
    {{2}, 3, {0}},
};

/* Rounds of a sheet of two rows, whose two sides differ nowhere, in row 0, in row 1 and in both. */
static const DimkhorosRound of_two_rows[] = {
    {{9, 6}, 3, {4}},
    {{6, 6}, 3, {4}},
    {{9, 9}, 3, {4}},
    {{6, 9}, 3, {4}},
};

/* Writes the file of so many rounds and answers its length. */
static size_t write_file(const uint8_t *sheet, size_t length, const DimkhorosRound *rounds, size_t count,
                         uint8_t file[DIMKHOROS_LONGEST_FILE]) {
    DimkhorosWritten written = dimkhoros_empty(1, file, DIMKHOROS_LONGEST_FILE);
    expect(written.refusal);
    for (size_t i = 0; i < count; i++) {
        written = dimkhoros_append(sheet, length, file, DIMKHOROS_LONGEST_FILE, written.length, rounds[i]);
        expect(written.refusal);
    }
    return written.length;
}

/* Shows a verdict: the rows that differ are the bits of a mask. */
static void show_verdict(DimkhorosJudgement verdict) {
    if (verdict.refusal != 0) {
        show_refusal(verdict.refusal);
    } else if (verdict.accepted) {
        printf("accepted\n");
    } else {
        printf("rejected in %s", (verdict.rows & (verdict.rows - 1)) == 0 ? "row" : "rows");
        for (int row = 0; row < DIMKHOROS_PLACES; row++) {
            if ((verdict.rows >> row & 1) == 1) {
                printf(" %d", row);
            }
        }
        printf("\n");
    }
}

/* Shows a round of the file with the verdict on it, and where it stands in the file. */
static void show_round(const uint8_t *sheet, size_t length, const uint8_t *file, size_t file_length, size_t number) {
    printf("round %zu: ", number);
    DimkhorosFetched fetched = dimkhoros_read(sheet, length, file, file_length, number);
    if (fetched.refusal != 0) {
        show_refusal(fetched.refusal);
        return;
    }
    DimkhorosPart part = dimkhoros_part(sheet, length, file, file_length, number);
    printf("%zu bytes from byte %zu on, t = %u, c = %u, r = %u, ", part.length, part.offset,
           fetched.round.commitment[0], fetched.round.challenge, fetched.round.response[0]);
    show_verdict(dimkhoros_judge(sheet, length, fetched.round));
}

/* Shows the marker's text on a file at a level, the byte of a level file. */
static void show_mark(const uint8_t *sheet, size_t length, const uint8_t *file, size_t file_length, uint8_t level) {
    uint8_t text[DIMKHOROS_LONGEST_TEXT];
    size_t text_length = dimkhoros_mark(sheet, length, file, file_length, &level, 1, text);
    printf("The marker's text at the level %u:\n%.*s", level, (int)text_length, (const char *)text);
}

/* Shows the reason's line on a file of one of these rounds. */
static void show_reason(const uint8_t *sheet, size_t length, const DimkhorosRound *rounds, size_t number) {
    uint8_t file[DIMKHOROS_LONGEST_FILE];
    uint8_t line[DIMKHOROS_LONGEST_REASON];
    size_t file_length = write_file(sheet, length, &rounds[number], 1, file);
    size_t line_length = dimkhoros_reason(sheet, length, file, file_length, line);
    printf("The reason on round %zu alone: %.*s", number, (int)line_length, (const char *)line);
}

/* Converts a file of version 1 to version 2 and back, and shows what becomes of it. */
static void show_versions(const uint8_t *sheet, size_t length, const uint8_t *file, size_t file_length) {
    uint8_t narrow[DIMKHOROS_LONGEST_FILE_2];
    uint8_t again[DIMKHOROS_LONGEST_FILE];
    DimkhorosWritten two = dimkhoros_convert(sheet, length, file, file_length, narrow, sizeof narrow);
    expect(two.refusal);
    printf("The file in version 2: %zu bytes.\n", two.length);
    show_round(sheet, length, narrow, two.length, 2);
    DimkhorosWritten one = dimkhoros_convert(sheet, length, narrow, two.length, again, sizeof again);
    expect(one.refusal);
    int same = one.length == file_length && memcmp(again, file, file_length) == 0;
    printf("Converted back: %zu bytes, %s.\n", one.length, same ? "the same as before" : "other ones");
}

/* Shows what becomes of a challenge that 16 bits do not hold. */
static void show_wide(const uint8_t *sheet, size_t length) {
    const DimkhorosRound wide = {{9}, 65536, {4}};
    uint8_t file[DIMKHOROS_LONGEST_FILE];
    uint8_t narrow[DIMKHOROS_LONGEST_FILE_2];
    size_t file_length = write_file(sheet, length, &wide, 1, file);
    printf("A file of version 1 with the challenge 65536, converted: ");
    show_refusal(dimkhoros_convert(sheet, length, file, file_length, narrow, sizeof narrow).refusal);
    DimkhorosWritten empty = dimkhoros_empty(2, narrow, sizeof narrow);
    expect(empty.refusal);
    printf("The same round added to a file of version 2: ");
    show_refusal(dimkhoros_append(sheet, length, narrow, sizeof narrow, empty.length, wide).refusal);
    printf("A file of version 3: ");
    show_refusal(dimkhoros_empty(3, narrow, sizeof narrow).refusal);
}

/* Shows how the rows that differ are told: in a verdict, by the marker and by the reason. */
static void show_rows(void) {
    const uint32_t values[2] = {2, 16}, statement[2] = {13, 18};
    uint8_t patterns[DIMKHOROS_SHIPPED_PATTERNS];
    uint8_t sheet[DIMKHOROS_LONGEST_SHEET];
    uint8_t file[DIMKHOROS_LONGEST_FILE];
    expect(dimkhoros_patterns(patterns, sizeof patterns).refusal);
    DimkhorosWritten made = dimkhoros_from_pattern(patterns, sizeof patterns, DIMKHOROS_PATTERN_DIFFIE_HELLMAN, 23, 11, 11,
                                                   values, 2, statement, 2, sheet, sizeof sheet);
    expect(made.refusal);
    printf("\nA sheet of two rows: 2^x = 13 and 16^x = 18 modulo 23.\n");
    for (size_t number = 0; number < 4; number++) {
        printf("round %zu: ", number);
        show_verdict(dimkhoros_judge(sheet, made.length, of_two_rows[number]));
    }
    size_t file_length = write_file(sheet, made.length, of_two_rows, 4, file);
    show_mark(sheet, made.length, file, file_length, 7);
    for (size_t number = 1; number < 4; number++) {
        show_reason(sheet, made.length, of_two_rows, number);
    }
}

int main(void) {
    uint8_t sheet[DIMKHOROS_LONGEST_SHEET];
    uint8_t file[DIMKHOROS_LONGEST_FILE];
    size_t length = page_a(sheet);
    size_t file_length = write_file(sheet, length, mixed, 4, file);
    DimkhorosCounted counted = dimkhoros_count(sheet, length, file, file_length);
    expect(counted.refusal);
    printf("The file: %u rounds in %zu bytes.\n", counted.count, file_length);
    for (size_t number = 0; number <= counted.count; number++) {
        show_round(sheet, length, file, file_length, number);
    }
    show_versions(sheet, length, file, file_length);
    show_wide(sheet, length);
    show_mark(sheet, length, file, file_length, 7);
    for (size_t count = 2; count <= 3; count++) {
        file_length = write_file(sheet, length, accepted, count, file);
        show_mark(sheet, length, file, file_length, 7);
    }
    show_mark(sheet, length, file, file_length, 65);
    for (size_t number = 0; number < 4; number++) {
        show_reason(sheet, length, mixed, number);
    }
    show_rows();
    return 0;
}
