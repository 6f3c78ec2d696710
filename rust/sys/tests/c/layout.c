/* Prints the size of every struct of the header, and the place and size of every field. */
#include "dimkhoros.h"
#include <stdio.h>

#define STRUCT(type) printf("%s %zu\n", #type, sizeof(type))
#define FIELD(type, field) printf("%s.%s %zu %zu\n", #type, #field, offsetof(type, field), sizeof(((type *)0)->field))

static void print_sheets_and_rounds(void) {
    STRUCT(DimkhorosHeader);
    FIELD(DimkhorosHeader, kind);
    FIELD(DimkhorosHeader, modulus);
    FIELD(DimkhorosHeader, order);
    FIELD(DimkhorosHeader, challenges);
    FIELD(DimkhorosHeader, rows);
    FIELD(DimkhorosHeader, columns);
    STRUCT(DimkhorosLoaded);
    FIELD(DimkhorosLoaded, header);
    FIELD(DimkhorosLoaded, statement);
    FIELD(DimkhorosLoaded, refusal);
    STRUCT(DimkhorosWritten);
    FIELD(DimkhorosWritten, length);
    FIELD(DimkhorosWritten, refusal);
    STRUCT(DimkhorosRound);
    FIELD(DimkhorosRound, commitment);
    FIELD(DimkhorosRound, challenge);
    FIELD(DimkhorosRound, response);
    STRUCT(DimkhorosCounted);
    FIELD(DimkhorosCounted, count);
    FIELD(DimkhorosCounted, refusal);
    STRUCT(DimkhorosFetched);
    FIELD(DimkhorosFetched, round);
    FIELD(DimkhorosFetched, refusal);
    STRUCT(DimkhorosPart);
    FIELD(DimkhorosPart, offset);
    FIELD(DimkhorosPart, length);
}

static void print_answers_and_sessions(void) {
    STRUCT(DimkhorosCompared);
    FIELD(DimkhorosCompared, same);
    FIELD(DimkhorosCompared, refusal);
    STRUCT(DimkhorosComputed);
    FIELD(DimkhorosComputed, values);
    FIELD(DimkhorosComputed, refusal);
    STRUCT(DimkhorosJudgement);
    FIELD(DimkhorosJudgement, accepted);
    FIELD(DimkhorosJudgement, rows);
    FIELD(DimkhorosJudgement, refusal);
    STRUCT(DimkhorosSaved);
    FIELD(DimkhorosSaved, nonce);
    FIELD(DimkhorosSaved, commitment);
    FIELD(DimkhorosSaved, phase);
    FIELD(DimkhorosSaved, kept);
    STRUCT(DimkhorosListed);
    FIELD(DimkhorosListed, commitment);
    STRUCT(DimkhorosMemory);
    FIELD(DimkhorosMemory, saved);
    FIELD(DimkhorosMemory, answered);
    FIELD(DimkhorosMemory, count);
    STRUCT(DimkhorosProverSession);
    FIELD(DimkhorosProverSession, nonce);
    FIELD(DimkhorosProverSession, commitment);
    FIELD(DimkhorosProverSession, phase);
    FIELD(DimkhorosProverSession, memory);
    STRUCT(DimkhorosProverAnswer);
    FIELD(DimkhorosProverAnswer, session);
    FIELD(DimkhorosProverAnswer, values);
    FIELD(DimkhorosProverAnswer, refusal);
    STRUCT(DimkhorosVerifierSession);
    FIELD(DimkhorosVerifierSession, commitment);
    FIELD(DimkhorosVerifierSession, challenge);
    FIELD(DimkhorosVerifierSession, phase);
    STRUCT(DimkhorosVerifierAnswer);
    FIELD(DimkhorosVerifierAnswer, session);
    FIELD(DimkhorosVerifierAnswer, refusal);
    STRUCT(DimkhorosVerifierJudgement);
    FIELD(DimkhorosVerifierJudgement, verdict);
    FIELD(DimkhorosVerifierJudgement, session);
}

static void print_or_proof(void) {
    STRUCT(DimkhorosOrRound);
    FIELD(DimkhorosOrRound, commitment0);
    FIELD(DimkhorosOrRound, commitment1);
    FIELD(DimkhorosOrRound, response0);
    FIELD(DimkhorosOrRound, response1);
    FIELD(DimkhorosOrRound, challenge);
    FIELD(DimkhorosOrRound, challenge0);
    STRUCT(DimkhorosOrJudgement);
    FIELD(DimkhorosOrJudgement, accepted);
    FIELD(DimkhorosOrJudgement, rows0);
    FIELD(DimkhorosOrJudgement, rows1);
    FIELD(DimkhorosOrJudgement, refusal);
    STRUCT(DimkhorosOrExtracted);
    FIELD(DimkhorosOrExtracted, values);
    FIELD(DimkhorosOrExtracted, side);
    FIELD(DimkhorosOrExtracted, refusal);
    STRUCT(DimkhorosOrSession);
    FIELD(DimkhorosOrSession, nonce);
    FIELD(DimkhorosOrSession, response);
    FIELD(DimkhorosOrSession, commitment0);
    FIELD(DimkhorosOrSession, commitment1);
    FIELD(DimkhorosOrSession, challenge);
    FIELD(DimkhorosOrSession, side);
    FIELD(DimkhorosOrSession, phase);
    STRUCT(DimkhorosOrAnswer);
    FIELD(DimkhorosOrAnswer, session);
    FIELD(DimkhorosOrAnswer, values0);
    FIELD(DimkhorosOrAnswer, values1);
    FIELD(DimkhorosOrAnswer, challenge0);
    FIELD(DimkhorosOrAnswer, refusal);
}

static void print_watches(void) {
    STRUCT(DimkhorosWatch);
    FIELD(DimkhorosWatch, rounds);
    FIELD(DimkhorosWatch, sheet);
    FIELD(DimkhorosWatch, length);
    FIELD(DimkhorosWatch, count);
    STRUCT(DimkhorosOpened);
    FIELD(DimkhorosOpened, watch);
    FIELD(DimkhorosOpened, refusal);
    STRUCT(DimkhorosWatchAnswer);
    FIELD(DimkhorosWatchAnswer, watch);
    FIELD(DimkhorosWatchAnswer, witness);
    FIELD(DimkhorosWatchAnswer, back);
    FIELD(DimkhorosWatchAnswer, verdict);
}

static void print_ledgers(void) {
    STRUCT(DimkhorosBase);
    FIELD(DimkhorosBase, g);
    FIELD(DimkhorosBase, h);
    FIELD(DimkhorosBase, modulus);
    FIELD(DimkhorosBase, order);
    FIELD(DimkhorosBase, challenges);
    STRUCT(DimkhorosLine);
    FIELD(DimkhorosLine, kind);
    FIELD(DimkhorosLine, first);
    FIELD(DimkhorosLine, second);
    FIELD(DimkhorosLine, commitment);
    FIELD(DimkhorosLine, t);
    FIELD(DimkhorosLine, challenge);
    FIELD(DimkhorosLine, response);
    STRUCT(DimkhorosLedger);
    FIELD(DimkhorosLedger, lines);
    FIELD(DimkhorosLedger, count);
    STRUCT(DimkhorosChecked);
    FIELD(DimkhorosChecked, accepted);
    FIELD(DimkhorosChecked, line);
    FIELD(DimkhorosChecked, refusal);
    STRUCT(DimkhorosEntry);
    FIELD(DimkhorosEntry, kind);
    FIELD(DimkhorosEntry, first);
    FIELD(DimkhorosEntry, second);
    FIELD(DimkhorosEntry, value);
    FIELD(DimkhorosEntry, blinding);
    FIELD(DimkhorosEntry, nonce);
    FIELD(DimkhorosEntry, challenge);
    STRUCT(DimkhorosEntries);
    FIELD(DimkhorosEntries, entries);
    FIELD(DimkhorosEntries, count);
    STRUCT(DimkhorosLedgerWritten);
    FIELD(DimkhorosLedgerWritten, ledger);
    FIELD(DimkhorosLedgerWritten, refusal);
}

int main(void) {
    print_sheets_and_rounds();
    print_answers_and_sessions();
    print_or_proof();
    print_watches();
    print_ledgers();
    return 0;
}
