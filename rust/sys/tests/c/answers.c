/*
 * Every call whose answer has to be looked at, once and on a line of its own. Each answer is looked at, or, where WRONG is
 * defined, thrown away. This file is C and C++.
 */
#include "dimkhoros.h"

#ifdef WRONG
#define LOOK(call, at) call
#else
#define LOOK(call, at) seen += (call) at
#endif

size_t look(const uint8_t *sheet, size_t length, uint8_t *bytes, uint32_t *eight, uint32_t *table, DimkhorosStore store);

size_t look(const uint8_t *sheet, size_t length, uint8_t *bytes, uint32_t *eight, uint32_t *table, DimkhorosStore store) {
    size_t seen = 0;
    DimkhorosHeader header = {1, 23, 11, 11, 1, 1};
    DimkhorosRound round = {{9}, 3, {4}};
    DimkhorosProverSession peggy = {{0}, {0}, DIMKHOROS_PROVER_NEW, {{{{0}, {0}, 0, 0}}, {{{0}}}, 0}};
    DimkhorosVerifierSession vic = {{0}, 0, DIMKHOROS_VERIFIER_WAITING};
    DimkhorosOrRound two = {{9}, {33}, {4}, {6}, 3, 2};
    DimkhorosOrSession either = {{0}, {0}, {0}, {0}, 0, 0, DIMKHOROS_PROVER_NEW};
    DimkhorosWatch watch = {{{{0}, 0, {0}}}, {0}, 0, 0};
    DimkhorosBase base = {2, 3, 23, 11, 11};
    DimkhorosLedger ledger = {{{1, 0, 0, 12, {0}, 0, {0}}}, 1};
    DimkhorosEntries entries = {{{1, 0, 0, 2, 1, {0}, 0}}, 1};

    LOOK(dimkhoros_load(sheet, length), .refusal);
    LOOK(dimkhoros_entries(sheet, length, table), );
    LOOK(dimkhoros_encode(header, table, eight, bytes, length), .refusal);
    LOOK(dimkhoros_patterns(bytes, length), .refusal);
    LOOK(dimkhoros_from_pattern(sheet, length, 1, 23, 11, 11, eight, 1, eight, 1, bytes, length), .refusal);
    LOOK(dimkhoros_linear(23, 11, 11, 1, 1, eight, 1, eight, 1, eight, 1, bytes, length), .refusal);

    LOOK(dimkhoros_prover_new(), .phase);
    LOOK(dimkhoros_commit(sheet, length, &peggy, eight, eight), );
    LOOK(dimkhoros_respond(sheet, length, &peggy, 3, eight, eight), );
    LOOK(dimkhoros_respond_after(sheet, length, &peggy, 3, eight, store, NULL, eight), );
    LOOK(dimkhoros_drop(&peggy), );
    LOOK(dimkhoros_save(&peggy, 0), );
    LOOK(dimkhoros_return_to(&peggy, 0), );
    LOOK(dimkhoros_prover_reopen(bytes, length, &peggy), );
    LOOK(dimkhoros_prover_restore_with_nonce(bytes, length, &peggy), != 0);

    LOOK(dimkhoros_verifier_new(), .phase);
    LOOK(dimkhoros_take_commitment(sheet, length, &vic, eight), );
    LOOK(dimkhoros_take_challenge(sheet, length, &vic, 3), );
    LOOK(dimkhoros_take_response(sheet, length, &vic, eight), .accepted);
    LOOK(dimkhoros_verifier_restore(bytes, length, &vic), != 0);

    LOOK(dimkhoros_judge(sheet, length, round), .refusal);
    LOOK(dimkhoros_simulate(sheet, length, 3, eight), .refusal);
    LOOK(dimkhoros_extract(sheet, length, round, round), .refusal);

    LOOK(dimkhoros_or_prover_new(), .phase);
    LOOK(dimkhoros_or_commit(sheet, length, sheet, length, &either, 0, eight, 3, eight, eight, table), );
    LOOK(dimkhoros_or_respond(sheet, length, sheet, length, &either, 3, eight, &two), );
    LOOK(dimkhoros_or_respond_after(sheet, length, sheet, length, &either, 3, eight, store, NULL, &two), );
    LOOK(dimkhoros_or_drop(&either), );
    LOOK(dimkhoros_or_prover_reopen(bytes, length, &either), );
    LOOK(dimkhoros_or_prover_restore_with_nonce(bytes, length, &either), != 0);
    LOOK(dimkhoros_or_judge(sheet, length, sheet, length, two), .refusal);
    LOOK(dimkhoros_or_extract(sheet, length, sheet, length, two, two), .refusal);

    LOOK(dimkhoros_team_commitment(sheet, length, 2, table, table), .refusal);
    LOOK(dimkhoros_team_response(sheet, length, 2, table, table), .refusal);

    LOOK(dimkhoros_open_watch(sheet, length, &watch), );
    LOOK(dimkhoros_hear(sheet, length, &watch, round), .back);

    LOOK(dimkhoros_no_entries(), .count);
    LOOK(dimkhoros_write_ledger(&base, &entries, &ledger), );
    LOOK(dimkhoros_check_ledger(&base, &ledger), .accepted);
    LOOK(dimkhoros_line_commitments(&base, &ledger, table), );
    LOOK(dimkhoros_line_sheet(&base, &ledger, 0, bytes, length), .refusal);
    LOOK(dimkhoros_line_round(&ledger.lines[0]), .challenge);

    LOOK(dimkhoros_count(sheet, length, bytes, length), .refusal);
    LOOK(dimkhoros_check(sheet, length, bytes, length, 0), );
    LOOK(dimkhoros_part(sheet, length, bytes, length, 0), .length);
    LOOK(dimkhoros_read(sheet, length, bytes, length, 0), .refusal);
    LOOK(dimkhoros_same_commitment(sheet, length, bytes, length, 0, 1), .refusal);
    LOOK(dimkhoros_empty(1, bytes, length), .refusal);
    LOOK(dimkhoros_append(sheet, length, bytes, length, length, round), .refusal);
    LOOK(dimkhoros_convert(sheet, length, sheet, length, bytes, length), .refusal);
    LOOK(dimkhoros_mark(sheet, length, bytes, length, bytes, length, bytes), );
    LOOK(dimkhoros_reason(sheet, length, bytes, length, bytes), );
    LOOK(dimkhoros_game(sheet, length, bytes, length, bytes), );

    LOOK(dimkhoros_prover_commit(sheet, length, peggy, eight), .refusal);
    LOOK(dimkhoros_prover_respond(sheet, length, peggy, 3, eight), .refusal);
    LOOK(dimkhoros_prover_drop(peggy), .refusal);
    LOOK(dimkhoros_prover_save(peggy, 0), .refusal);
    LOOK(dimkhoros_prover_return(peggy, 0), .refusal);
    LOOK(dimkhoros_verifier_commitment(sheet, length, vic, eight), .refusal);
    LOOK(dimkhoros_verifier_challenge(sheet, length, vic, 3), .refusal);
    LOOK(dimkhoros_verifier_response(sheet, length, vic, eight), .verdict.refusal);
    LOOK(dimkhoros_or_prover_commit(sheet, length, sheet, length, either, 0, eight, 3, eight), .refusal);
    LOOK(dimkhoros_or_prover_respond(sheet, length, sheet, length, either, 3, eight), .refusal);
    LOOK(dimkhoros_or_prover_drop(either), .refusal);
    LOOK(dimkhoros_watch_open(sheet, length), .refusal);
    LOOK(dimkhoros_watch_round(sheet, length, watch, round), .verdict.refusal);
    LOOK(dimkhoros_ledger_check(base, ledger), .refusal);
    LOOK(dimkhoros_ledger_write(base, entries), .refusal);

    /* The calls whose answer need not be looked at. */
    dimkhoros_prover_store(&peggy, bytes);
    dimkhoros_verifier_store(&vic, bytes);
    dimkhoros_or_prover_store(&either, bytes);
    dimkhoros_add_commitment(&entries, 2, 1);
    dimkhoros_add_sum(&entries, 0, 1);
    dimkhoros_add_product(&entries, 0, 1, 4, eight, 3);
    dimkhoros_sentence(DIMKHOROS_REFUSED_SESSION);
    dimkhoros_version();
    return seen;
}
