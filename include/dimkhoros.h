/*
 * The C interface of Dimkhoros: Maurer's proof of knowledge of a preimage under a group homomorphism, on numbers of at
 * most 32 bits. It is for C99 and C++11, or later, on x86-64 Linux.
 *
 * To link. In crates/dimkhoros `rt lib` writes crates/dimkhoros/out/libdimkhoros.a. There a program is
 * built with
 *
 *     cc -std=c99 -I include program.c crates/dimkhoros/out/libdimkhoros.a
 *
 * Elsewhere give the whole paths of the two. The archive must stand after the sources that call it. If `./install PREFIX` has put
 * the library under a folder, pkg-config knows both:
 *
 *     cc -std=c99 program.c $(pkg-config --cflags --libs dimkhoros)
 *
 * The archive needs memcpy and memset, and nothing else. It allocates nothing and keeps nothing between calls, so calls may run
 * in several threads at once.
 *
 * Sessions. A box keeps a session for each run of the protocol, and gives its address to every call. The box Peggy, for example:
 *
 *     DimkhorosProverSession peggy = dimkhoros_prover_new();
 *     uint32_t refusal = dimkhoros_commit(sheet, sheet_length, &peggy, nonce, commitment);
 *     .. if it is 0: store the session, send the commitment, and hear a challenge ..
 *     refusal = dimkhoros_respond_after(sheet, sheet_length, &peggy, challenge, witness, store, box, response);
 *     .. if it is 0: the session is stored, so send the response ..
 *
 * Each call puts the session that comes after it in the place of the one before. If no call returns to a saved state, a second
 * challenge is refused with 21. Whatever state is returned to, a commitment that was answered is never answered again: this is
 * refused with 32. "The pure form", at the end, has the same calls with sessions that are handed in and back by value.
 * dimkhoros_box.h, beside this header, has what else a box needs: a store, random numbers and the lines of a wire.
 *
 * What a call takes. Any bytes and any numbers: every call ends in an answer. Of the calls of the archive it is proved that the
 * answer is the one that the call's definition gives (docs/promises/exports.md lists the definitions). The functions that this
 * header defines in C are tested. The caller must see to four things:
 *
 *     - A pointer with a length after it must point to that many bytes or numbers. If the length is 0, the pointer is not used and
 *       may be NULL.
 *     - A pointer that is written with the size of an array must point to that many numbers or bytes. A pointer to a session or
 *       any other struct must point to one, and a store to a function.
 *     - What a call writes to must share no byte with anything else that the same call is given.
 *     - Nobody else may change these bytes during the call.
 *
 * Sheets. A sheet is the table of a homomorphism, with a statement, and comes as bytes. Each call that takes a sheet tests it
 * from the start, and refuses a bad one with 2 to 11. m is the modulus, q the order and e the exponent, K the challenge count, s
 * the rows and n the columns. A group element is a number from 1 to m - 1 whose q-th power modulo m is 1 (exponent sheets), or
 * that has no factor in common with m (root sheets). A coordinate is one value of a witness, nonce or response. It is a number
 * below q (exponent sheets), or a group element (root sheets).
 *
 * Arrays of eight. Commitments and statements have s values. Witnesses, nonces and responses have n. They are handed over in
 * arrays of eight. The places after these values are not read in what a call takes, and are 0 in what a call answers. A session
 * keeps what it holds in all eight places, and the commitments that Peggy's session holds are tested in all eight (by 21 and 32).
 *
 * Refusals. A call that can be refused answers a number, or a struct with a field `refusal`. The number is 0, or says what was
 * refused. If several numbers apply, it is the earliest in the order 23, 24, 1 to 9, 27, 29, 30, 10, 11, 26, 37, 35, 36, 12, 25, 13
 * to 16, 28, 31, 17 to 21, 32 to 34, 22. A refused call changes no session, watch, ledger, array or buffer, and has 0 in every
 * other field of its answer. Four calls answer no number: dimkhoros_part, of which dimkhoros_check gives the number, and
 * dimkhoros_mark, dimkhoros_reason and dimkhoros_game, which name it in their text. Compilers warn if an answer that must be
 * looked at is thrown away.
 *
 * Random numbers. The caller draws them: nonces, challenges and simulated responses are handed in. Draw a new nonce for each
 * session, at random from all coordinates. Else the responses give the witness away.
 */
#ifndef DIMKHOROS_H
#define DIMKHOROS_H

#include <stddef.h>
#include <stdint.h>

#ifdef __cplusplus
extern "C" {
#endif

/* The version of this header, 10000 * major + 100 * minor + patch. dimkhoros_version answers that of the archive. */
#define DIMKHOROS_VERSION 200
#define DIMKHOROS_VERSION_TEXT "0.2.0"

/* Stands before a function whose answer must be looked at: the compiler warns of a call that throws it away. */
#if defined(__cplusplus) && __cplusplus >= 201703L
#define DIMKHOROS_CHECKED [[nodiscard]]
#elif defined(__STDC_VERSION__) && __STDC_VERSION__ > 201710L && defined(__has_c_attribute)
#define DIMKHOROS_CHECKED [[nodiscard]]
#elif defined(__GNUC__)
#define DIMKHOROS_CHECKED __attribute__((warn_unused_result))
#else
#define DIMKHOROS_CHECKED
#endif

/* Sizes. */
#define DIMKHOROS_PLACES 8              /* numbers in a commitment, statement, witness, nonce or response */
#define DIMKHOROS_ENTRIES 64            /* numbers in a table: row i, column j, both from 0, stands at 8 * i + j */
#define DIMKHOROS_MOST_PLAYERS 8        /* players of the largest team */
#define DIMKHOROS_PARTS 64              /* numbers that a team brings: value i of player p, both from 0, stands at 8 * p + i */
#define DIMKHOROS_SAVED_STATES 8        /* saved states of a session of Peggy's: their names are 0 to 7 */
#define DIMKHOROS_MOST_ANSWERED 64      /* commitments in the fullest list of answered ones */
#define DIMKHOROS_MOST_REMEMBERED 63    /* accepted rounds that the fullest watch remembers */
#define DIMKHOROS_MOST_LINES 64         /* lines of the longest ledger: their numbers are 0 to 63 */
#define DIMKHOROS_LONGEST_SHEET 308     /* bytes of the longest sheet */
#define DIMKHOROS_SHIPPED_PATTERNS 34   /* bytes of the pattern file that dimkhoros_patterns writes */
#define DIMKHOROS_MOST_PATTERNS 32      /* patterns in the fullest pattern file */
#define DIMKHOROS_LONGEST_PATTERNS 2150 /* bytes of the longest pattern file */
#define DIMKHOROS_EMPTY_FILE 7          /* bytes of a round file without rounds */
#define DIMKHOROS_MOST_ROUNDS 512       /* rounds in the fullest round file */
#define DIMKHOROS_LONGEST_FILE 34823    /* bytes of the longest round file, which has version 1 */
#define DIMKHOROS_LONGEST_FILE_2 33799  /* bytes of the longest round file of version 2 */
#define DIMKHOROS_LONGEST_TEXT 14864    /* bytes that hold every text of the marker */
#define DIMKHOROS_LONGEST_REASON 201    /* bytes that hold every line of the reason */
#define DIMKHOROS_LONGEST_GAME 720896   /* bytes that hold every text of the game */
#define DIMKHOROS_STORED_PROVER 2707    /* bytes of a stored session of Peggy's, the longest of the three */
#define DIMKHOROS_STORED_VERIFIER 51    /* bytes of a stored session of Vic's */
#define DIMKHOROS_STORED_OR_PROVER 151  /* bytes of a stored session of Peggy's of the OR proof */

/* Kinds of sheets. */
#define DIMKHOROS_EXPONENT 1 /* the image multiplies powers of the table's entries; the witness is in the exponents */
#define DIMKHOROS_ROOT 2     /* the image is the e-th power of each value; the witness is a list of e-th roots */

/* The pattern number that asks for a root sheet, whatever the pattern file. */
#define DIMKHOROS_PATTERN_ROOT 0 /* no values; a root sheet of one row */

/* The patterns of the file that dimkhoros_patterns writes, with their public values and the entries made of them. */
#define DIMKHOROS_PATTERN_SCHNORR 1        /* value h; row h */
#define DIMKHOROS_PATTERN_OKAMOTO 2        /* values h1 h2; row h1 h2 */
#define DIMKHOROS_PATTERN_EQUALITY 3       /* values h1 h2; rows h1 and h2 */
#define DIMKHOROS_PATTERN_DIFFIE_HELLMAN 4 /* values h B; rows h and B */
#define DIMKHOROS_PATTERN_PRODUCT 5        /* values g h B; rows g h 1 and B 1 h */

/* Kinds of a ledger's lines. */
#define DIMKHOROS_LINE_COMMITMENT 1 /* a commitment */
#define DIMKHOROS_LINE_SUM 2        /* the sum of two lines above */
#define DIMKHOROS_LINE_PRODUCT 3    /* the product of two lines above, with a commitment and a round of its own */

/* Phases of Peggy's sessions. In the OR proof the session holds the side and the simulated values as long as the nonce. */
#define DIMKHOROS_PROVER_NEW 0       /* nothing has happened */
#define DIMKHOROS_PROVER_COMMITTED 1 /* a nonce and its commitment are held */
#define DIMKHOROS_PROVER_ANSWERED 2  /* a challenge was answered, and the nonce is gone except from saved copies */
#define DIMKHOROS_PROVER_DROPPED 3   /* the session was given up, and the nonce is gone except from saved copies */

/* What a stored session of Peggy's is found to be when it is reopened: a session in one of her phases, or not a session. */
#define DIMKHOROS_FOUND_NEW 0       /* nothing had happened */
#define DIMKHOROS_FOUND_COMMITTED 1 /* it held a nonce, which may have been used; it is dropped */
#define DIMKHOROS_FOUND_ANSWERED 2  /* a challenge was answered */
#define DIMKHOROS_FOUND_DROPPED 3   /* it was given up */
#define DIMKHOROS_FOUND_DAMAGED 4   /* the bytes are not a stored session */

/* Phases of Vic's session. */
#define DIMKHOROS_VERIFIER_WAITING 0 /* nothing has been heard */
#define DIMKHOROS_VERIFIER_HOLDING 1 /* a commitment is held */
#define DIMKHOROS_VERIFIER_ASKED 2   /* a commitment and the challenge given on it are held */
#define DIMKHOROS_VERIFIER_JUDGED 3  /* a response was judged */

/*
 * Every refusal: its number, its name and its sentence. The order in which they are tested stands above. docs/FORMATS.md of the
 * repository has the conditions, call by call.
 */
#define DIMKHOROS_REFUSALS(REFUSAL)                                                                               \
    REFUSAL(1, PATTERN, "the pattern file has no pattern of this number, or the pattern takes a different number" \
                        " of values")                                                                             \
    REFUSAL(2, SHEET_MARK, "the sheet is shorter than a header or does not begin with HOM")                       \
    REFUSAL(3, SHEET_VERSION, "the sheet's version is not 1")                                                     \
    REFUSAL(4, KIND, "the kind must be 1, exponent, or 2, root")                                                  \
    REFUSAL(5, MODULUS, "the modulus must be 3 or more")                                                          \
    REFUSAL(6, ORDER, "the order or exponent must be 2 or more")                                                  \
    REFUSAL(7, SHAPE, "rows and columns must be 1 to 8 each, and equal in a root sheet")                          \
    REFUSAL(8, CHALLENGES, "the challenge count K must be 2 to 65536, and no number from 2 to K - 1 may divide"   \
                           " the order or exponent")                                                              \
    REFUSAL(9, SHEET_LENGTH, "the sheet is longer or shorter than its header says")                               \
    REFUSAL(10, ENTRY, "a table entry, public value or generator lies outside the group")                         \
    REFUSAL(11, STATEMENT, "a value of the statement or of a player's image lies outside the group")              \
    REFUSAL(12, FILE, "the bytes are not a round file of this sheet, the file is full, or the version asked for"  \
                      " is not 1 or 2")                                                                           \
    REFUSAL(13, ROUND_NUMBER, "the file has no round of this number")                                             \
    REFUSAL(14, COMMITMENT, "a commitment value lies outside the group")                                          \
    REFUSAL(15, CHALLENGE, "the challenge must be below the challenge count K, or at most 65535 if it is written" \
                           " to a round file of version 2")                                                       \
    REFUSAL(16, COORDINATE, "a value of the witness, nonce, response or ledger's entry lies outside the domain")  \
    REFUSAL(17, WITNESS, "the image of the witness is not the statement")                                         \
    REFUSAL(18, COMMITMENTS_DIFFER, "the two rounds have different commitments")                                  \
    REFUSAL(19, CHALLENGES_EQUAL, "the two rounds have the same challenge")                                       \
    REFUSAL(20, ROUND_REJECTED, "one of the two rounds, or both, would be rejected")                              \
    REFUSAL(21, SESSION, "the session's state does not allow the call, or what the session or watch holds does"   \
                         " not fit this sheet")                                                                   \
    REFUSAL(22, BUFFER, "the buffer is too short for the result")                                                 \
    REFUSAL(23, PATTERN_FILE, "the bytes are not a pattern file: the mark, version, count, rows, columns, number" \
                              " of values or length is wrong")                                                    \
    REFUSAL(24, PATTERN_DIGITS, "a pattern has a digit above its number of values, or a value that no digit names") \
    REFUSAL(25, LEVEL, "the level must be one byte from 1 to 64")                                                 \
    REFUSAL(26, COUNTS_DIFFER, "the two sheets have different challenge counts")                                  \
    REFUSAL(27, TEAM, "the team must have 2 to 8 players")                                                        \
    REFUSAL(28, IMAGES, "the images of the team's players do not multiply to the statement")                      \
    REFUSAL(29, FORM_COUNTS, "there must be 1 to 8 generators, a coefficient for each row, generator and column," \
                             " and a statement value for each row")                                               \
    REFUSAL(30, COEFFICIENT, "a coefficient must be below the order")                                             \
    REFUSAL(31, GAME_SIZE, "the sheet is too large for the game, which takes q^n up to 4096, or in a root sheet"  \
                           " m up to 4096 and one row")                                                           \
    REFUSAL(32, ANSWERED, "the commitment that the session holds was answered before")                            \
    REFUSAL(33, LIST_FULL, "the session's list of answered commitments is full: it holds 64")                     \
    REFUSAL(34, NAME, "the name of a saved state must be 0 to 7, and a return needs one that was saved")          \
    REFUSAL(35, LINE_KIND, "the kind of a ledger's line must be 1, commitment, 2, sum, or 3, product")            \
    REFUSAL(36, LINE_NOT_ABOVE, "a sum or product of a ledger must name two lines above its own")                 \
    REFUSAL(37, LEDGER_SIZE, "a ledger has at most 64 lines")

/* The refusals by name: DIMKHOROS_REFUSED_PATTERN is 1, and so on through the list. */
enum {
#define DIMKHOROS_REFUSAL(number, name, sentence) DIMKHOROS_REFUSED_##name = number,
    DIMKHOROS_REFUSALS(DIMKHOROS_REFUSAL)
#undef DIMKHOROS_REFUSAL
};

/*
 * What dimkhoros_respond_after and dimkhoros_or_respond_after answer if nothing is refused, but the session is not stored. No
 * refusal has this number.
 */
#define DIMKHOROS_NOT_STORED 1000

/*
 * The sentence of an answer: of a refusal, of 0, or of DIMKHOROS_NOT_STORED. For 0 it is "nothing is refused". For any other
 * number it is "no refusal has this number".
 */
static inline const char *dimkhoros_sentence(uint32_t refusal) {
    switch (refusal) {
    case 0:
        return "nothing is refused";
    case DIMKHOROS_NOT_STORED:
        return "the session is not stored, and the response is gone";
#define DIMKHOROS_REFUSAL(number, name, sentence) \
    case number:                                  \
        return sentence;
        DIMKHOROS_REFUSALS(DIMKHOROS_REFUSAL)
#undef DIMKHOROS_REFUSAL
    default:
        return "no refusal has this number";
    }
}

/* The fixed fields of a sheet. */
typedef struct {
    uint32_t kind;       /* DIMKHOROS_EXPONENT or DIMKHOROS_ROOT */
    uint32_t modulus;    /* m */
    uint32_t order;      /* q of an exponent sheet, e of a root sheet */
    uint32_t challenges; /* K: the challenges are 0 to K - 1 */
    uint32_t rows;       /* s */
    uint32_t columns;    /* n */
} DimkhorosHeader;

/* A loaded sheet without its entries, which dimkhoros_entries gives. */
typedef struct {
    DimkhorosHeader header;
    uint32_t statement[DIMKHOROS_PLACES];
    uint32_t refusal;
} DimkhorosLoaded;

/* What a call that writes to a buffer answers. */
typedef struct {
    size_t length; /* how many bytes of the buffer are in use */
    uint32_t refusal;
} DimkhorosWritten;

/* One run of the protocol. */
typedef struct {
    uint32_t commitment[DIMKHOROS_PLACES]; /* t */
    uint32_t challenge;                    /* c */
    uint32_t response[DIMKHOROS_PLACES];   /* r */
} DimkhorosRound;

/* How many rounds a round file has. */
typedef struct {
    uint32_t count;
    uint32_t refusal;
} DimkhorosCounted;

/* A round that was read from a round file. */
typedef struct {
    DimkhorosRound round;
    uint32_t refusal;
} DimkhorosFetched;

/* Where a round stands in the caller's own file: file + offset is its first byte. If it is refused, both are 0. */
typedef struct {
    size_t offset;
    size_t length;
} DimkhorosPart;

/* Whether two rounds of a file have the same commitment. */
typedef struct {
    uint32_t same; /* 1 if they have, else 0 */
    uint32_t refusal;
} DimkhorosCompared;

/* A simulated commitment, an extracted witness, or a commitment or response of a team. */
typedef struct {
    uint32_t values[DIMKHOROS_PLACES];
    uint32_t refusal;
} DimkhorosComputed;

/*
 * A verdict. The round is accepted only if `accepted` is 1: a refused round has 0 there too.
 *
 * The rows in which the two sides of a rejected round differ are a mask. In it row i has the bit of value 2^i:
 *
 *     row      0   1   2   3   4   5   6   7
 *     value    1   2   4   8  16  32  64 128
 *
 * The bit is set if the sides differ in the row, and not set if they agree. So 1 is row 0 alone, 128 is row 7 alone, and 133 is
 * the rows 0, 2 and 7. No bit from 2^s on is set: the sheet has the rows 0 to s - 1. A rejected round has at least one bit set,
 * and an accepted or refused one has none. Row i differs if (verdict.rows >> i & 1) is 1.
 */
typedef struct {
    uint32_t accepted; /* 1 if the two sides agree in every row, else 0 */
    uint32_t rows;     /* the mask of the rows, from 0, in which they differ */
    uint32_t refusal;
} DimkhorosJudgement;

/* One run of the OR proof. Side 1 has the challenge (c - c0) mod K. */
typedef struct {
    uint32_t commitment0[DIMKHOROS_PLACES]; /* side 0's t */
    uint32_t commitment1[DIMKHOROS_PLACES]; /* side 1's t */
    uint32_t response0[DIMKHOROS_PLACES];   /* side 0's r */
    uint32_t response1[DIMKHOROS_PLACES];   /* side 1's r */
    uint32_t challenge;                     /* c */
    uint32_t challenge0;                    /* c0, side 0's challenge */
} DimkhorosOrRound;

/*
 * A verdict on a round of the OR proof. The round is accepted only if `accepted` is 1: a refused round has 0 there too. In a
 * rejected round each side has its own mask of rows, as in DimkhorosJudgement, and a side that is accepted has the mask 0.
 */
typedef struct {
    uint32_t accepted; /* 1 if both sides are accepted, else 0 */
    uint32_t rows0;    /* the mask of the rows in which side 0's two values differ */
    uint32_t rows1;    /* the same of side 1 */
    uint32_t refusal;
} DimkhorosOrJudgement;

/* An extracted witness of one of two sheets. */
typedef struct {
    uint32_t values[DIMKHOROS_PLACES];
    uint32_t side; /* the side that it is a witness of, 0 or 1 */
    uint32_t refusal;
} DimkhorosOrExtracted;

/* A saved state of Peggy's session: what a return brings back. It keeps its nonce, whatever the session does. */
typedef struct {
    uint32_t nonce[DIMKHOROS_PLACES];
    uint32_t commitment[DIMKHOROS_PLACES];
    uint32_t phase; /* any number beyond the four is taken as Dropped */
    uint32_t kept;  /* 0 if nothing was saved under this name, 1 after a save; any other number counts as saved too */
} DimkhorosSaved;

/* A commitment that was answered. */
typedef struct {
    uint32_t commitment[DIMKHOROS_PLACES];
} DimkhorosListed;

/* What Peggy's session keeps beside its state. In a new session it is zeros. */
typedef struct {
    DimkhorosSaved saved[DIMKHOROS_SAVED_STATES];       /* the saved states, by name */
    DimkhorosListed answered[DIMKHOROS_MOST_ANSWERED]; /* the answered commitments; those from `count` on are not read */
    uint32_t count;                                    /* how many commitments were answered */
} DimkhorosMemory;

/*
 * Peggy's session. Over any calls on one session no commitment is answered twice, whatever state is returned to. If no call
 * returns, at most one challenge is answered. This is proved of the archive's calls.
 *
 * The library cannot know of copies. Whoever answers two challenges from two copies of one session gives the witness away. So a
 * box that stores a session must store the one that comes after a response, over the old one, before it sends the response, as
 * dimkhoros_respond_after does. It must not answer on a session that it finds in a file, which dimkhoros_prover_reopen drops. It
 * must not return to a state that it finds saved there.
 *
 * Saved states are for demonstrations, and a box must not save. A saved copy keeps its nonce, even after the session has answered
 * or was dropped: whoever reads it and the response computes the witness.
 *
 * Any number beyond the four is a phase in which commit, respond and drop are refused. Saving takes it as Dropped: 3 is saved,
 * and the session then has 3 too. If a saved number is beyond the four, a return brings back 3.
 */
typedef struct {
    uint32_t nonce[DIMKHOROS_PLACES];
    uint32_t commitment[DIMKHOROS_PLACES];
    uint32_t phase;
    DimkhorosMemory memory;
} DimkhorosProverSession;

/*
 * Peggy's session of the OR proof. It has no saved states. Over any calls on one session at most one challenge is answered: this
 * is proved. The side and the simulated values are as secret as the nonce: they tell which of the two witnesses she holds. Any
 * number beyond the four is a phase that allows no call.
 */
typedef struct {
    uint32_t nonce[DIMKHOROS_PLACES];       /* of the side whose witness she knows */
    uint32_t response[DIMKHOROS_PLACES];    /* the other side's, simulated */
    uint32_t commitment0[DIMKHOROS_PLACES];
    uint32_t commitment1[DIMKHOROS_PLACES];
    uint32_t challenge;                     /* the other side's, simulated */
    uint32_t side;                          /* the side whose witness she knows, 0 or 1 */
    uint32_t phase;
} DimkhorosOrSession;

/* Vic's session. Any number beyond the four is a phase that allows no call. */
typedef struct {
    uint32_t commitment[DIMKHOROS_PLACES];
    uint32_t challenge;
    uint32_t phase;
} DimkhorosVerifierSession;

/*
 * A watch for used nonces: the bytes of the sheet that it was opened on, and the last accepted rounds that it was given. It is a
 * value: two copies of a watch go on separately, and neither knows the rounds that the other is given.
 *
 * It may hold anything: dimkhoros_hear says what it refuses with 21. It does not read what stands in `rounds` from `count` on, in
 * `sheet` from `length` on, or in a round beyond its s and n values.
 */
typedef struct {
    DimkhorosRound rounds[DIMKHOROS_MOST_REMEMBERED]; /* the remembered rounds, the newest first */
    uint8_t sheet[DIMKHOROS_LONGEST_SHEET];           /* the sheet */
    uint32_t length;                                  /* how many bytes the sheet has */
    uint32_t count;                                   /* how many rounds are remembered */
} DimkhorosWatch;

/*
 * What a watch says of a round. The round is accepted only if `verdict.accepted` is 1: a refused round has 0 there too. If the
 * round is not accepted, `back` is 0.
 */
typedef struct {
    uint32_t witness[DIMKHOROS_PLACES]; /* what this round and the named one give away, zeros if none is named */
    uint32_t back;                      /* how many accepted rounds back the named one stands, 1 to 63, or 0 for none */
    DimkhorosJudgement verdict;
} DimkhorosHeard;

/* What all lines of a ledger share. q need not be prime. */
typedef struct {
    uint32_t g;          /* the public value that values are exponents of */
    uint32_t h;          /* the public value that blinding numbers are exponents of */
    uint32_t modulus;    /* m */
    uint32_t order;      /* q */
    uint32_t challenges; /* K: the challenges are 0 to K - 1 */
} DimkhorosBase;

/*
 * A line of a ledger. Its kind says which numbers are used:
 *
 *     kind                        first, second    commitment    t, challenge, response
 *     DIMKHOROS_LINE_COMMITMENT                    used
 *     DIMKHOROS_LINE_SUM          used
 *     DIMKHOROS_LINE_PRODUCT      used             used          used
 *
 * The others are not read, and are 0 in a ledger that a call makes. A sum's commitment is not stored: it is the commitments of
 * the two named lines, multiplied modulo m.
 */
typedef struct {
    uint32_t kind;        /* DIMKHOROS_LINE_COMMITMENT, DIMKHOROS_LINE_SUM or DIMKHOROS_LINE_PRODUCT */
    uint32_t first;       /* the number of the first line that is added or multiplied */
    uint32_t second;      /* the number of the second, which may be the same */
    uint32_t commitment;  /* the line's own commitment */
    uint32_t t[2];        /* of the round of a product */
    uint32_t challenge;   /* c of the round */
    uint32_t response[3]; /* r of the round */
} DimkhorosLine;

/* A ledger: its lines in order, numbered from 0. It may hold anything: dimkhoros_check_ledger says what it refuses. */
typedef struct {
    DimkhorosLine lines[DIMKHOROS_MOST_LINES]; /* those from `count` on are not read, and are zeros in a ledger that a call makes */
    uint32_t count;                            /* how many lines there are */
} DimkhorosLedger;

/*
 * The result of checking a ledger. The ledger is accepted only if `accepted` is 1: a refused ledger has 0 there too. If nothing
 * is refused and `accepted` is 0, `line` is the first product whose round is rejected. Else it is 0.
 */
typedef struct {
    uint32_t accepted; /* 1 if the round of every product is accepted, else 0 */
    uint32_t line;     /* the first line whose round is rejected */
    uint32_t refusal;
} DimkhorosChecked;

/*
 * What a line of a ledger is made of. Its kind says which numbers are used: for a commitment the value and the blinding number;
 * for a sum the two lines; for a product the two lines, the blinding number, the nonce and the challenge. The others are not
 * read. dimkhoros_add_commitment, dimkhoros_add_sum and dimkhoros_add_product set what is used, and the rest to 0.
 */
typedef struct {
    uint32_t kind;      /* DIMKHOROS_LINE_COMMITMENT, DIMKHOROS_LINE_SUM or DIMKHOROS_LINE_PRODUCT */
    uint32_t first;     /* the number of the first line that is added or multiplied */
    uint32_t second;    /* the number of the second, which may be the same */
    uint32_t value;     /* the value that is committed to, below q */
    uint32_t blinding;  /* the blinding number of the line's own commitment, below q */
    uint32_t nonce[3];  /* of the round of a product, each below q */
    uint32_t challenge; /* c of the round, below K */
} DimkhorosEntry;

/* What all lines of a ledger are made of, in order. Whoever reads it can open every commitment. */
typedef struct {
    DimkhorosEntry entries[DIMKHOROS_MOST_LINES]; /* those from `count` on are not read */
    uint32_t count;                               /* how many lines there are */
} DimkhorosEntries;

/* --- Sheets --- */

/* Loads a sheet: answers its fixed fields and its statement. Refuses 2 to 11. */
DIMKHOROS_CHECKED
DimkhorosLoaded dimkhoros_load(const uint8_t *sheet, size_t sheet_length);

/*
 * Gives the entries of a sheet. Sets all 64 numbers of `entries` and answers 0. Numbers outside the sheet's rows and columns are
 * 0, and in a root sheet all are. Refuses 2 to 11: it then answers the number, and `entries` keeps its numbers.
 */
DIMKHOROS_CHECKED
uint32_t dimkhoros_entries(const uint8_t *sheet, size_t sheet_length, uint32_t entries[DIMKHOROS_ENTRIES]);

/*
 * Writes the sheet of these values to the start of `buffer`, and answers its length. The values are given as dimkhoros_load and
 * dimkhoros_entries answer them. The entries of a root sheet are not read, nor are numbers outside the rows and columns. No byte
 * after the sheet is changed. Refuses 4 to 8, 10, 11 and 22.
 */
DIMKHOROS_CHECKED
DimkhorosWritten dimkhoros_encode(DimkhorosHeader header, const uint32_t entries[DIMKHOROS_ENTRIES],
                                  const uint32_t statement[DIMKHOROS_PLACES], uint8_t *buffer, size_t buffer_length);

/* --- Patterns of sheets --- */

/*
 * A pattern file has 1 to 32 patterns. A pattern is a table of digits: digit i stands for the i-th public value, and 0 for the
 * entry 1. docs/FORMATS.md has the bytes, and an example. share/patterns.bin of the repository is the file that
 * dimkhoros_patterns writes.
 */

/*
 * Writes the shipped pattern file to the start of `buffer`, and answers its length, 34. It has the five patterns
 * DIMKHOROS_PATTERN_SCHNORR to DIMKHOROS_PATTERN_PRODUCT under their numbers. No byte after it is changed. Refuses 22.
 */
DIMKHOROS_CHECKED
DimkhorosWritten dimkhoros_patterns(uint8_t *buffer, size_t buffer_length);

/*
 * Makes a sheet by a pattern. Writes the sheet of the pattern of this number, from 1, in a pattern file to the start of `buffer`,
 * and answers its length. Number 0, DIMKHOROS_PATTERN_ROOT, asks for a root sheet of one row. `order` is q, or e for a root
 * sheet. `values` are the public values, `value_count` of them, and `statement` has a value for each row. No byte after the sheet
 * is changed. Refuses 23, 24, 1, 5, 6, 8, 10, 11 and 22. 23 and then 24 test the whole file, whichever number is asked for.
 */
DIMKHOROS_CHECKED
DimkhorosWritten dimkhoros_from_pattern(const uint8_t *patterns, size_t patterns_length, uint32_t number,
                                        uint32_t modulus, uint32_t order, uint32_t challenges, const uint32_t *values,
                                        size_t value_count, const uint32_t *statement, size_t statement_count,
                                        uint8_t *buffer, size_t buffer_length);

/* --- Sheets from linear forms --- */

/*
 * Makes the exponent sheet of a statement over several generators, whose exponents are linear forms of the secrets (section 6.5
 * of Maurer's paper). Writes it to the start of `buffer`, and answers its length. Row i of the image of x_1, .., x_n is the
 * product, over the generators, of
 *
 *     generator ^ (a_1 * x_1 + .. + a_n * x_n)   modulo m.
 *
 * Here a_1 to a_n are the coefficients of row i and this generator. They stand by row, then generator, then column. Those of
 * z_1 = h_1^x_3 * h_2^x_1 and z_2 = h_1^x_2 * h_2^x_4 * h_3^x_1 are
 *
 *     0 0 1 0   1 0 0 0   0 0 0 0     row z_1: x_3 over h_1, x_1 over h_2, none over h_3
 *     0 1 0 0   0 0 0 1   1 0 0 0     row z_2: x_2 over h_1, x_4 over h_2, x_1 over h_3
 *
 * So the coefficient of row i, generator g and column j, all from 0, stands at (i * generator_count + g) * columns + j.
 * Entry (i, j) of the sheet is the product over the generators of generator^coefficient modulo m. `statement` has a value for
 * each row. No byte after the sheet is changed. Refuses 5 to 8, 29, 30, 10, 11 and 22. 10 is for a generator, even if no
 * coefficient uses it.
 */
DIMKHOROS_CHECKED
DimkhorosWritten dimkhoros_linear(uint32_t modulus, uint32_t order, uint32_t challenges, uint32_t rows, uint32_t columns,
                                  const uint32_t *generators, size_t generator_count, const uint32_t *coefficients,
                                  size_t coefficient_count, const uint32_t *statement, size_t statement_count,
                                  uint8_t *buffer, size_t buffer_length);

/* --- Peggy's session --- */

/*
 * A call that takes a session's address, Peggy's or Vic's, answers 0 if nothing is refused: the session is then the one that
 * comes after the call, and the values are given. Else it answers the refusal's number, and the session, arrays and round that it
 * was given keep what they hold. dimkhoros_take_response answers a verdict, with the number in its field `refusal`.
 */

/* A new session: DIMKHOROS_PROVER_NEW, with zeros. Nothing is saved in it, and nothing listed. */
DIMKHOROS_CHECKED
DimkhorosProverSession dimkhoros_prover_new(void);

/*
 * Commits a new session to a nonce, and gives the commitment. Leads to Committed. Refuses 2 to 11, 16 and 21. It does not refuse
 * a commitment that was answered before: dimkhoros_respond does, with 32.
 */
DIMKHOROS_CHECKED
static inline uint32_t dimkhoros_commit(const uint8_t *sheet, size_t sheet_length, DimkhorosProverSession *session,
                                        const uint32_t nonce[DIMKHOROS_PLACES], uint32_t commitment[DIMKHOROS_PLACES]);

/*
 * Gives the response of a committed session to a challenge, by a witness. Sets the nonce to zeros, and lists the commitment as
 * answered. Leads to Answered. Saved states stay, with their nonces. Refuses 2 to 11, 15 to 17, 21, 32 and 33. 32 is given if the
 * held commitment is listed, compared in all eight places, and 33 if 64 or more are listed. A committed session that is refused
 * stays committed. After 2 to 21 it can still answer on the sheet on which it was committed. After 32 and 33 it can be dropped or
 * returned from.
 *
 * If the count is above 64, which no call makes, 32 looks at the first 64 commitments. If it is not given, 33 is.
 */
DIMKHOROS_CHECKED
static inline uint32_t dimkhoros_respond(const uint8_t *sheet, size_t sheet_length, DimkhorosProverSession *session,
                                         uint32_t challenge, const uint32_t witness[DIMKHOROS_PLACES],
                                         uint32_t response[DIMKHOROS_PLACES]);

/*
 * Stores a session for dimkhoros_respond_after. It is given the pointer `box`, which is the caller's, and the stored form of the
 * session. It must write these bytes over those that were stored before. It must answer 0 only after they would be found again if
 * the box were switched off. Any other answer says that they are not stored. dimkhoros_box.h has such a function.
 */
typedef int (*DimkhorosStore)(void *box, const uint8_t *stored, size_t length);

/*
 * Responds as dimkhoros_respond does, and gives the response only after `store` has stored the session that comes after it. The
 * whole session is stored, with its saved states and its list. If `store` fails, the call answers DIMKHOROS_NOT_STORED. Then
 * `response` keeps what it holds, the response is gone, and the session is Answered, so it answers no challenge if no call
 * returns. If the call is refused, `store` is not called. Refuses as dimkhoros_respond does.
 */
DIMKHOROS_CHECKED
static inline uint32_t dimkhoros_respond_after(const uint8_t *sheet, size_t sheet_length, DimkhorosProverSession *session,
                                               uint32_t challenge, const uint32_t witness[DIMKHOROS_PLACES],
                                               DimkhorosStore store, void *box, uint32_t response[DIMKHOROS_PLACES]);

/* Gives up a new or committed session and sets the nonce to zeros. Leads to Dropped. Saved states keep their nonces. Refuses 21. */
DIMKHOROS_CHECKED
static inline uint32_t dimkhoros_drop(DimkhorosProverSession *session);

/*
 * Saves the state, nonce and commitment of a session under a name from 0 to 7. The session can be in any phase. What was saved
 * under the name is replaced. Nothing else of the session changes. Refuses 34.
 *
 * Saving is for demonstrations: a box must not save. The saved copy keeps its nonce until the same name is saved again, whatever
 * the session does, in memory and in what dimkhoros_prover_store writes.
 *
 * What a demonstrator does with it: she saves the new session under 0. After each answered round she returns to 0 and commits to
 * a new nonce. So one session makes up to 64 rounds, and its list shows their commitments. She can also save a committed session
 * and return to it after the response, to try a second answer on the same nonce: the second challenge is refused with 32.
 * examples/c/lecture.c shows it.
 */
DIMKHOROS_CHECKED
static inline uint32_t dimkhoros_save(DimkhorosProverSession *session, uint32_t name);

/*
 * Brings back the state, nonce and commitment that were saved under a name. The session can be in any phase. Nothing else
 * changes: the saved states and the list of answered commitments stay, so the return can be made again. Refuses 34: for a name of
 * 8 or more, and for one that was never saved.
 */
DIMKHOROS_CHECKED
static inline uint32_t dimkhoros_return_to(DimkhorosProverSession *session, uint32_t name);

/* --- Vic's session --- */

/* A new session: DIMKHOROS_VERIFIER_WAITING, with zeros. */
DIMKHOROS_CHECKED
DimkhorosVerifierSession dimkhoros_verifier_new(void);

/* Brings the commitment to a waiting session. Leads to Holding. Refuses 2 to 11, 14 and 21. */
DIMKHOROS_CHECKED
static inline uint32_t dimkhoros_take_commitment(const uint8_t *sheet, size_t sheet_length,
                                                 DimkhorosVerifierSession *session,
                                                 const uint32_t commitment[DIMKHOROS_PLACES]);

/*
 * Brings the challenge to a session that holds a commitment. Leads to Asked: send the challenge only after that. Refuses 2 to 11,
 * 15 and 21.
 */
DIMKHOROS_CHECKED
static inline uint32_t dimkhoros_take_challenge(const uint8_t *sheet, size_t sheet_length,
                                                DimkhorosVerifierSession *session, uint32_t challenge);

/*
 * Brings the response to a session that has asked, and answers the verdict. An accepted verdict and a rejected one both lead to
 * Judged. Refuses 2 to 11, 16 and 21: the verdict then has the number, with `accepted` 0, and the session keeps what it holds.
 */
DIMKHOROS_CHECKED
static inline DimkhorosJudgement dimkhoros_take_response(const uint8_t *sheet, size_t sheet_length,
                                                         DimkhorosVerifierSession *session,
                                                         const uint32_t response[DIMKHOROS_PLACES]);

/* --- Stored sessions --- */

/*
 * A session can be stored as bytes: a mark, a version, the length of the whole, all numbers of the session, and a CRC-32 of all
 * bytes before it. docs/FORMATS.md has the bytes. Anything else is damaged, version 1 of Peggy's too, which has no saved states. So
 * a file that is empty, cut, longer or changed in one byte is never taken for a session. One that is damaged otherwise is taken
 * for a session, by chance, once in four billion times.
 *
 * Some sessions can be stored, but are damaged when they are read back: those with a phase beyond the four, held or saved, a
 * number above 1 for saved, more than 64 answered commitments, or a side beyond 1. No call makes such a session from any other.
 *
 * A committed Peggy's bytes hold her nonce: whoever reads them computes the witness from her response. So do the bytes of any
 * session of hers with a saved state that holds a nonce, even after she has answered or was dropped.
 */

/* Puts the stored form of Peggy's session into `stored`. */
static inline void dimkhoros_prover_store(const DimkhorosProverSession *session, uint8_t stored[DIMKHOROS_STORED_PROVER]);

/*
 * Reads a stored Peggy back without the nonce that she holds. Answers what these bytes are found to be, DIMKHOROS_FOUND_NEW to
 * DIMKHOROS_FOUND_DAMAGED. Sets the session to the one to go on with:
 *
 *     found        the session is
 *     NEW          New
 *     COMMITTED    Dropped: its nonce is zeros
 *     ANSWERED     Answered
 *     DROPPED      Dropped
 *     DAMAGED      New, as of dimkhoros_prover_new
 *
 * So the session is never Committed. This is rule 1 of docs/BOXES.md: only what this run has drawn is answered. The bytes may be
 * an old copy, from a backup or a write that the disk lost, of a session whose challenge was answered long ago. Saved states and
 * the list come back as they were stored. For the same reason a box must not return to a state that it finds saved. docs/BOXES.md
 * says what a box does with each of the five.
 */
DIMKHOROS_CHECKED
static inline uint32_t dimkhoros_prover_reopen(const uint8_t *stored, size_t length, DimkhorosProverSession *session);

/*
 * Reads a stored Peggy back with her nonce: sets the session to the one that these bytes hold and answers 1. If they are damaged,
 * it answers 0 and leaves the session alone.
 *
 * A box must not answer on what this call gives. This is rule 1 of docs/BOXES.md: only what this run has drawn is answered, and a
 * committed session that is found in a file is dropped. If the same nonce was answered before, another answer gives the witness
 * away, and nothing in the bytes tells. Use dimkhoros_prover_reopen. This call is for programs that only look at stored sessions,
 * and for those who know that no other copy of these bytes is ever read.
 */
DIMKHOROS_CHECKED
static inline int dimkhoros_prover_restore_with_nonce(const uint8_t *stored, size_t length, DimkhorosProverSession *session);

/* Puts the stored form of Vic's session into `stored`. */
static inline void dimkhoros_verifier_store(const DimkhorosVerifierSession *session,
                                            uint8_t stored[DIMKHOROS_STORED_VERIFIER]);

/* Sets Vic's session to the one that these bytes hold and answers 1. If they are damaged, answers 0 and leaves the session alone. */
DIMKHOROS_CHECKED
static inline int dimkhoros_verifier_restore(const uint8_t *stored, size_t length, DimkhorosVerifierSession *session);

/* Puts the stored form of Peggy's session of the OR proof into `stored`. */
static inline void dimkhoros_or_prover_store(const DimkhorosOrSession *session,
                                             uint8_t stored[DIMKHOROS_STORED_OR_PROVER]);

/*
 * Reads a stored Peggy of the OR proof back, as dimkhoros_prover_reopen does. If she is found Committed, nonce, side and simulated
 * values are zeros.
 */
DIMKHOROS_CHECKED
static inline uint32_t dimkhoros_or_prover_reopen(const uint8_t *stored, size_t length, DimkhorosOrSession *session);

/*
 * Reads a stored Peggy of the OR proof back with nonce, side and simulated values: sets the session to the one that these bytes
 * hold and answers 1. If they are damaged, it answers 0 and leaves the session alone. What dimkhoros_prover_restore_with_nonce
 * says of rule 1 holds here too: a box must not answer on what this call gives.
 */
DIMKHOROS_CHECKED
static inline int dimkhoros_or_prover_restore_with_nonce(const uint8_t *stored, size_t length, DimkhorosOrSession *session);

/* --- Rounds --- */

/* Answers Vic's verdict on a round. Refuses 2 to 11 and 14 to 16. */
DIMKHOROS_CHECKED
DimkhorosJudgement dimkhoros_judge(const uint8_t *sheet, size_t sheet_length, DimkhorosRound round);

/*
 * The simulator: answers the one commitment with which Vic accepts this challenge and response. It needs no witness. Refuses 2 to
 * 11, 15 and 16.
 */
DIMKHOROS_CHECKED
DimkhorosComputed dimkhoros_simulate(const uint8_t *sheet, size_t sheet_length, uint32_t challenge,
                                     const uint32_t response[DIMKHOROS_PLACES]);

/*
 * The extractor: answers the witness that two accepted rounds with one commitment and different challenges give away. It is the
 * same in either order. Refuses 2 to 11, 14 to 16 and 18 to 20.
 */
DIMKHOROS_CHECKED
DimkhorosComputed dimkhoros_extract(const uint8_t *sheet, size_t sheet_length, DimkhorosRound first,
                                    DimkhorosRound second);

/* --- The OR proof --- */

/*
 * "I know a witness of one of the two." There are two sheets with the same K, and so two sides, 0 and 1. The sheets may differ in
 * everything else. Peggy knows a witness of one side. For the other side she chooses the challenge and the response before she
 * commits, and simulates its commitment. When she then hears c, her own side answers what is left of it: c0 + c1 is c modulo K.
 * Holders of either witness make the same rounds, so a round does not tell which of the two is known: this is proved.
 *
 * Each of 2 to 11 is tested of both sheets before the next number. Then 26 is given if their challenge counts differ. What
 * belongs to a side is tested by its own sheet.
 */

/* A new session: DIMKHOROS_PROVER_NEW, with zeros. */
DIMKHOROS_CHECKED
DimkhorosOrSession dimkhoros_or_prover_new(void);

/*
 * Commits a new session. `side` is the side whose witness Peggy knows: 0, or 1 for any other number. The nonce is that side's.
 * `challenge` and `response` are those that she simulates the other side with. Gives both commitments. Leads to Committed. The
 * caller must draw nonce, challenge and response at random. Refuses 2 to 11, 26, 15, 16 and 21.
 */
DIMKHOROS_CHECKED
static inline uint32_t dimkhoros_or_commit(const uint8_t *first, size_t first_length, const uint8_t *second,
                                           size_t second_length, DimkhorosOrSession *session, uint32_t side,
                                           const uint32_t nonce[DIMKHOROS_PLACES], uint32_t challenge,
                                           const uint32_t response[DIMKHOROS_PLACES],
                                           uint32_t commitment0[DIMKHOROS_PLACES],
                                           uint32_t commitment1[DIMKHOROS_PLACES]);

/*
 * Answers a challenge by a witness of the side that the session holds. Sets `round` to the whole round, with the held
 * commitments. Sets nonce, side, simulated challenge and simulated response to zeros. Leads to Answered. Refuses 2 to 11, 26, 15
 * to 17 and 21. A committed session that is refused stays committed, and can still answer on the sheets on which it was committed.
 */
DIMKHOROS_CHECKED
static inline uint32_t dimkhoros_or_respond(const uint8_t *first, size_t first_length, const uint8_t *second,
                                            size_t second_length, DimkhorosOrSession *session, uint32_t challenge,
                                            const uint32_t witness[DIMKHOROS_PLACES], DimkhorosOrRound *round);

/* Responds as dimkhoros_or_respond does, and gives the round only after `store` has succeeded, as dimkhoros_respond_after. */
DIMKHOROS_CHECKED
static inline uint32_t dimkhoros_or_respond_after(const uint8_t *first, size_t first_length, const uint8_t *second,
                                                  size_t second_length, DimkhorosOrSession *session, uint32_t challenge,
                                                  const uint32_t witness[DIMKHOROS_PLACES], DimkhorosStore store,
                                                  void *box, DimkhorosOrRound *round);

/* Gives up a new or committed session and sets all its values except the commitments to zeros. Leads to Dropped. Refuses 21. */
DIMKHOROS_CHECKED
static inline uint32_t dimkhoros_or_drop(DimkhorosOrSession *session);

/* Answers the verdict on a round of two sheets. Refuses 2 to 11, 26 and 14 to 16; 15 is for c and for c0. */
DIMKHOROS_CHECKED
DimkhorosOrJudgement dimkhoros_or_judge(const uint8_t *first, size_t first_length, const uint8_t *second,
                                        size_t second_length, DimkhorosOrRound round);

/*
 * The extractor: answers the witness that two accepted rounds with the same two commitments and different c give away. It is side
 * 0's if the two c0 differ, else side 1's. Refuses 2 to 11, 26, 14 to 16 and 18 to 20.
 */
DIMKHOROS_CHECKED
DimkhorosOrExtracted dimkhoros_or_extract(const uint8_t *first, size_t first_length, const uint8_t *second,
                                          size_t second_length, DimkhorosOrRound a, DimkhorosOrRound b);

/* --- Peggy as a team --- */

/*
 * Two to eight players each hold a part of a witness. Each part's image is public, and the images multiply to the statement. Each
 * player has a session of Peggy's on the sheet with the player's own image as its statement, and all hear the same challenge. A
 * combiner makes one round out of theirs, and Vic judges it by the sheet itself. It is the round that a single Peggy sends for
 * the joined witness and the joined nonce. If all players' rounds are accepted, so is the whole. If exactly one is rejected, so
 * is the whole. This is proved. Joined means, column by column, added modulo q (exponent sheets) or multiplied modulo m (root
 * sheets).
 *
 * The players' values stand one player after the other, value i of player p at 8 * p + i. Those of players from `count` on are
 * not read, nor are the places after a player's s or n values.
 *
 * 27 is tested after 9, before an entry of the sheet is looked at. 11 is for the statement and for the images. 28 is tested last:
 * it is given if the images do not multiply to the statement.
 */

/*
 * Answers the players' commitments multiplied modulo m, row by row: the commitment of the whole. Refuses 2 to 9, 27, 10, 11, 14
 * and 28.
 */
DIMKHOROS_CHECKED
DimkhorosComputed dimkhoros_team_commitment(const uint8_t *sheet, size_t sheet_length, uint32_t count,
                                            const uint32_t images[DIMKHOROS_PARTS],
                                            const uint32_t commitments[DIMKHOROS_PARTS]);

/* Answers the players' responses joined, column by column: the response of the whole. Refuses 2 to 9, 27, 10, 11, 16 and 28. */
DIMKHOROS_CHECKED
DimkhorosComputed dimkhoros_team_response(const uint8_t *sheet, size_t sheet_length, uint32_t count,
                                          const uint32_t images[DIMKHOROS_PARTS],
                                          const uint32_t responses[DIMKHOROS_PARTS]);

/* --- A watch for used nonces --- */

/*
 * A lab whose boxes run all term wants to hear of a nonce that was used twice. It opens a watch on the sheet and gives it every
 * round, in order:
 *
 *     DimkhorosWatch watch;
 *     uint32_t refusal = dimkhoros_open_watch(sheet, sheet_length, &watch);
 *     .. if it is 0, for every round ..
 *     DimkhorosHeard heard = dimkhoros_hear(sheet, sheet_length, &watch, round);
 *     .. if heard.back is not 0: the nonce was used before, and heard.witness is the witness ..
 *
 * The watch remembers the last 63 accepted rounds. For each accepted round it names the nearest remembered one with the same
 * commitment and another challenge, by how many accepted rounds back that one stands: 1 is the accepted round just before. It
 * names none exactly if it remembers no such round. So two uses that are more than 63 accepted rounds apart are not seen. A
 * remembered round with the same commitment and the same challenge gives nothing away, and is not named. Rounds that are rejected
 * or refused are not remembered, and do not count.
 *
 * A round is given by its values, so the version of a file does not matter: what dimkhoros_read answers can be given to a watch.
 * A watch has no stored form. After a restart, open a new one and give it the last 63 accepted rounds: it then remembers the
 * same.
 */

/*
 * Opens a watch on a sheet: sets `watch` to one that remembers nothing, and answers 0. Refuses 2 to 11: it then answers the
 * number, and `watch` keeps what it holds.
 */
DIMKHOROS_CHECKED
static inline uint32_t dimkhoros_open_watch(const uint8_t *sheet, size_t sheet_length, DimkhorosWatch *watch);

/*
 * Gives a watch a round. Answers the verdict that dimkhoros_judge answers. For an accepted round it also answers how far back the
 * named round stands, and the witness that the two give away. An accepted round is then the newest that `watch` remembers, with
 * zeros beyond its s and n values. Of 63 older ones the oldest is forgotten. A rejected round leaves `watch` as it is.
 *
 * Refuses 2 to 11, 14 to 16 and 21. 14 to 16 are tested by the sheet that is handed in. Then 21 is given if that sheet has other
 * bytes than the one that the watch was opened on, or more or fewer; if the watch counts more than 63 rounds; or if the round is
 * accepted and the one that the watch would name is not. A refused call leaves `watch` as it is. Its answer has the number in
 * `verdict.refusal` and 0 in every other field.
 */
DIMKHOROS_CHECKED
static inline DimkhorosHeard dimkhoros_hear(const uint8_t *sheet, size_t sheet_length, DimkhorosWatch *watch,
                                            DimkhorosRound round);

/* --- A ledger of committed values --- */

/*
 * A ledger computes on commitments. g^v * h^b modulo m commits to the value v with the blinding number b. Whoever holds two
 * commitments can multiply them, and has a commitment to the sum of the two values. For a product the holder of the values makes
 * a commitment of its own, and shows by a round that it is one to the product. A ledger has up to 64 lines over one g, h, m, q
 * and K: commitments, sums of two lines above, and products of two lines above. This one has 2, 3, 2 + 3 and 2 * 3:
 *
 *     const DimkhorosBase base = {2, 3, 23, 11, 11};
 *     const uint32_t nonce[3] = {1, 2, 3};
 *     DimkhorosEntries entries = dimkhoros_no_entries();
 *     DimkhorosLedger ledger;
 *     uint32_t two = dimkhoros_add_commitment(&entries, 2, 1);
 *     uint32_t three = dimkhoros_add_commitment(&entries, 3, 0);
 *     dimkhoros_add_sum(&entries, two, three);
 *     dimkhoros_add_product(&entries, two, three, 4, nonce, 3);
 *     uint32_t refusal = dimkhoros_write_ledger(&base, &entries, &ledger);
 *     .. if it is 0: the ledger can be handed on, the entries must not be ..
 *     DimkhorosChecked checked = dimkhoros_check_ledger(&base, &ledger);
 *     .. if checked.accepted is 1: every product is shown ..
 *
 * A product's round is a round of a sheet with the pattern DIMKHOROS_PATTERN_PRODUCT, the values g, h and B, and the statement A
 * and E. A is the commitment of its first line, B that of its second and E its own. An accepted round is evidence, as on any
 * sheet. If the same t is answered for two challenges, dimkhoros_extract gives the value a of the first line with its blinding
 * number, and a third number. If B opens to b, E then opens to a * b mod q. This is proved. So a nonce must be drawn at random
 * for each product, and must not be used for two challenges.
 */

/* What a ledger of no lines is made of. */
DIMKHOROS_CHECKED
static inline DimkhorosEntries dimkhoros_no_entries(void);

/*
 * Adds a commitment to a value with a blinding number. Answers the number of its line, by which later lines name it. After the
 * 64th line nothing is written, here and in the next two calls: the count is then 65, and dimkhoros_write_ledger refuses it.
 */
static inline uint32_t dimkhoros_add_commitment(DimkhorosEntries *entries, uint32_t value, uint32_t blinding);

/* Adds the sum of two lines above, which may be the same. Answers the number of its line. */
static inline uint32_t dimkhoros_add_sum(DimkhorosEntries *entries, uint32_t first, uint32_t second);

/*
 * Adds the product of two lines above, which may be the same: a commitment to it with this blinding number, and a round with this
 * nonce and challenge. Answers the number of its line. The round is evidence only if somebody else drew the challenge, after t
 * was fixed.
 */
static inline uint32_t dimkhoros_add_product(DimkhorosEntries *entries, uint32_t first, uint32_t second, uint32_t blinding,
                                             const uint32_t nonce[3], uint32_t challenge);

/*
 * Makes the ledger of these entries: sets `ledger` to it and answers 0. A sum's value and blinding number are those of its lines,
 * added modulo q. A product's value is those of its lines, multiplied modulo q. dimkhoros_check_ledger accepts what this call
 * makes: this is proved.
 *
 * Refuses 5, 6, 8, 10, 37, 35, 36, 15 and 16. In this order:
 *
 *     5, 6, 8   by m, q and K
 *     10        g or h is not a group element
 *     37        the count is above 64
 *     35        a kind is unknown
 *     36        a line that is named is not above
 *     15        a challenge is K or more
 *     16        a value, a blinding number or a number of a nonce is q or more
 *
 * Each is tested of all lines before the next, and only of numbers that a line's kind uses. A refused call answers the number, and
 * `ledger` keeps what it holds.
 */
DIMKHOROS_CHECKED
static inline uint32_t dimkhoros_write_ledger(const DimkhorosBase *base, const DimkhorosEntries *entries,
                                              DimkhorosLedger *ledger);

/*
 * Checks a ledger: accepted, or the first product whose round is rejected. A ledger of no lines is accepted. Refuses 5, 6, 8, 10,
 * 37, 35, 36 and 14 to 16. In this order:
 *
 *     5, 6, 8   by m, q and K
 *     10        g or h is not a group element
 *     37        the count is above 64
 *     35        a kind is unknown
 *     36        a line that is named is not above
 *     14        a commitment or a value of t is not a group element
 *     15        a challenge is K or more
 *     16        a number of a response is q or more
 *
 * Each is tested of all lines before the next, and only of numbers that a line's kind uses. All are tested before any round is
 * judged.
 */
DIMKHOROS_CHECKED
static inline DimkhorosChecked dimkhoros_check_ledger(const DimkhorosBase *base, const DimkhorosLedger *ledger);

/*
 * Gives the commitments of all lines of a ledger, those of sums too. Sets all 64 numbers of `commitments`, to 0 after the last
 * line, and answers 0. Refuses as dimkhoros_check_ledger does: it then answers the number, and `commitments` keeps its numbers. A
 * round that is rejected is not refused.
 */
DIMKHOROS_CHECKED
static inline uint32_t dimkhoros_line_commitments(const DimkhorosBase *base, const DimkhorosLedger *ledger,
                                                  uint32_t commitments[DIMKHOROS_MOST_LINES]);

/*
 * Writes the sheet of the product of this number, from 0, to the start of `buffer`, and answers its length, 52. If the line of
 * this number is not a product, it writes nothing, and the length is 0. No byte after the sheet is changed. Refuses as
 * dimkhoros_check_ledger does, and then 22. With this sheet, give dimkhoros_extract the rounds of the product in two ledgers,
 * with one t and two challenges.
 */
DIMKHOROS_CHECKED
static inline DimkhorosWritten dimkhoros_line_sheet(const DimkhorosBase *base, const DimkhorosLedger *ledger, uint32_t line,
                                                    uint8_t *buffer, size_t buffer_length);

/* The round of a product, as the calls on rounds take it. */
DIMKHOROS_CHECKED
static inline DimkhorosRound dimkhoros_line_round(const DimkhorosLine *line);

/* --- Round files --- */

/*
 * A round file has version 1 or 2. In version 2 a challenge is stored in two bytes, and a round has 4 * (s + n) + 2. In version 1
 * a challenge has four, and a round 4 * (s + n + 1). All calls take files of both. docs/FORMATS.md has the bytes.
 */

/* Answers how many rounds a file has, 0 to 512. Refuses 2 to 12. */
DIMKHOROS_CHECKED
DimkhorosCounted dimkhoros_count(const uint8_t *sheet, size_t sheet_length, const uint8_t *file, size_t file_length);

/* Answers the number that the round of this number, from 0, is refused with in a file, or 0 if it can be read. Refuses 2 to 13. */
DIMKHOROS_CHECKED
uint32_t dimkhoros_check(const uint8_t *sheet, size_t sheet_length, const uint8_t *file, size_t file_length,
                         size_t number);

/*
 * Answers where the round of this number stands in the caller's own file. Refuses 2 to 13: offset and length are then 0, and
 * dimkhoros_check answers the number.
 */
DIMKHOROS_CHECKED
DimkhorosPart dimkhoros_part(const uint8_t *sheet, size_t sheet_length, const uint8_t *file, size_t file_length,
                             size_t number);

/* Answers the values of the round of this number as they stand in the file, without testing them. Refuses 2 to 13. */
DIMKHOROS_CHECKED
DimkhorosFetched dimkhoros_read(const uint8_t *sheet, size_t sheet_length, const uint8_t *file, size_t file_length,
                                size_t number);

/*
 * Answers whether the rounds of these two numbers, which may be the same, have the same commitment: all its 4 * s bytes must
 * agree as they stand in the file. Refuses 2 to 13; 13 is for either number.
 */
DIMKHOROS_CHECKED
DimkhorosCompared dimkhoros_same_commitment(const uint8_t *sheet, size_t sheet_length, const uint8_t *file,
                                            size_t file_length, size_t i, size_t j);

/*
 * Writes a file of this version without rounds to the start of `buffer`, and answers its length, 7. No byte after it is changed.
 * Refuses 12 and 22. 12 is given if the version is neither 1 nor 2.
 */
DIMKHOROS_CHECKED
DimkhorosWritten dimkhoros_empty(uint32_t version, uint8_t *buffer, size_t buffer_length);

/*
 * Adds a round to the file in the first `used` bytes of `buffer`, in that file's version, and answers how many bytes are then in
 * use. The round is written straight after these bytes, the file's count rises by one, and no other byte is changed. Its values
 * are not tested, except a challenge that version 2 cannot hold. Refuses 2 to 12, 15 and 22. 12 is given if the bytes in use are
 * not a file of this sheet, are more than the buffer has, or hold 512 rounds; 15 if they have version 2 and the challenge is
 * above 65535; 22 if the buffer has no room for the round.
 */
DIMKHOROS_CHECKED
DimkhorosWritten dimkhoros_append(const uint8_t *sheet, size_t sheet_length, uint8_t *buffer, size_t buffer_length,
                                  size_t used, DimkhorosRound round);

/*
 * Writes the rounds of a file in its other version, 2 for 1 and 1 for 2, to the start of `buffer`, and answers how many bytes
 * these are: two fewer for each round, or two more. No byte after them is changed. The rounds keep their order and all their
 * values. So every verdict stays the same, and converting the result gives the file again. Refuses 2 to 12, 15 and 22. 15 is
 * given if any round of a file of version 1 has a challenge above 65535. A challenge from K to 65535 is converted like the
 * others.
 */
DIMKHOROS_CHECKED
DimkhorosWritten dimkhoros_convert(const uint8_t *sheet, size_t sheet_length, const uint8_t *file, size_t file_length,
                                   uint8_t *buffer, size_t buffer_length);

/* --- The marker, the reason and the game --- */

/*
 * Judges a round file at a level and writes the marker's text, in ASCII and without a zero at its end, to the start of `text`.
 * Answers its length. No byte after it is changed. The level is the bytes of a level file: one byte w, from 1 to 64.
 *
 * A refused sheet gives the one line `sheet N`, with N from 2 to 11. Else a refused file gives `file 12`. Else a refused level
 * gives `level 25`, a number that no call answers in another way. Else there is a line `rounds` with the count, a line for each
 * round, and a last line. A round's line is its number from 0 and `accepted`, or `rejected` with the rows that differ, rising, as
 * in `2 rejected 0 2 7`, or `refused` with 14 to 16. The last line is `pass` if every round is accepted and the product of one K
 * for each round is at least 2^w, else `fail`. The product is 1 for no rounds, so a file of none fails at every level. Each line
 * ends in a newline.
 */
DIMKHOROS_CHECKED
size_t dimkhoros_mark(const uint8_t *sheet, size_t sheet_length, const uint8_t *file, size_t file_length,
                      const uint8_t *level, size_t level_length, uint8_t text[DIMKHOROS_LONGEST_TEXT]);

/*
 * Says in one line what is wrong with a sheet, a round file or its round 0, and writes the line, in ASCII and without a zero at
 * its end, to the start of `text`. Answers its length. No byte after it is changed. The line ends in a newline and is one of
 *
 *     refused N OFFSET           rule N, 2 to 16, is the lowest that is broken, and the value at OFFSET is the first that breaks it
 *     refused N length LENGTH    the same for 2, 9 or 12, if the length of the sheet or the file, LENGTH bytes, breaks it
 *     rejected ROW LEFT RIGHT .. nothing is refused; each ROW, from 0 and rising, is one in which the two sides of round 0
 *                                differ, LEFT is the value of [r] there and RIGHT that of t * z^c
 *     accepted                   Vic accepts round 0
 *
 * An offset is that of the value's first byte, from the start of the file that holds it: the sheet for 2 to 11, the round file
 * for 12 to 16. docs/FORMATS.md lists the offsets. A file of no rounds is refused with 13.
 */
DIMKHOROS_CHECKED
size_t dimkhoros_reason(const uint8_t *sheet, size_t sheet_length, const uint8_t *file, size_t file_length,
                        uint8_t text[DIMKHOROS_LONGEST_REASON]);

/*
 * Says which challenges Peggy can answer on the commitment t of a file's round 0, whoever knows a witness. Writes the text, in
 * ASCII and without a zero at its end, to the start of `text`. Answers its length. No byte after it is changed. The text has a
 * line for each challenge below K that has an accepting response, rising: the challenge and the smallest such response, n
 * numbers, as in `1 0 9`. Responses are compared by the first of their values that differs. If there is no such challenge, the
 * text is the one line `none`. Each line ends in a newline. The challenge and the response of round 0 are not tested.
 *
 * What is refused gives the one line `refused N`: 2 to 11 for the sheet, 12 for the file, 13 if the file has no rounds, 14 if a
 * value of t is not a group element, then 31 if the sheet is too large for all responses to be tried. An exponent sheet is too
 * large if q^n is above 4096, a root sheet if m is above 4096 or s above 1.
 *
 * `text` is too large for a small stack: allocate it, or let it be static. The call itself has a table of 128 KiB on the stack.
 */
DIMKHOROS_CHECKED
size_t dimkhoros_game(const uint8_t *sheet, size_t sheet_length, const uint8_t *file, size_t file_length,
                      uint8_t text[DIMKHOROS_LONGEST_GAME]);

/* --- Version --- */

/* The version of the archive. It is DIMKHOROS_VERSION if archive and header belong together. */
uint32_t dimkhoros_version(void);

/* --- The pure form --- */

/*
 * The calls on sessions as the archive exports them, and as they are proved. Each takes a session by value and hands one back. If
 * the call is refused, this is the same session. The session that was handed in is still where it was. From then on it is an old
 * copy: whoever answers another challenge from it gives the witness away, and no compiler warns of that. If each call is given
 * the session that the last one handed back, no commitment of Peggy's is answered twice. If also no call returns, at most one
 * challenge is answered. The calls above see to that: they are these calls, with the session put back in its place. A session of
 * Peggy's has 2,696 bytes, which a call takes and answers by value.
 *
 * A watch is handed in and back in the same way. An old copy of it gives nothing away, but does not know the newest round.
 *
 * A ledger is handed in or back by value too. One that is refused when it is made is handed back as zeros.
 */

/* What a call on Peggy's session answers. */
typedef struct {
    DimkhorosProverSession session;
    uint32_t values[DIMKHOROS_PLACES]; /* the commitment or the response */
    uint32_t refusal;
} DimkhorosProverAnswer;

/* What bringing a commitment or a challenge to Vic's session answers. */
typedef struct {
    DimkhorosVerifierSession session;
    uint32_t refusal;
} DimkhorosVerifierAnswer;

/* What bringing a response to Vic's session answers. */
typedef struct {
    DimkhorosJudgement verdict;
    DimkhorosVerifierSession session;
} DimkhorosVerifierJudgement;

/* What a call on Peggy's session of the OR proof answers. */
typedef struct {
    DimkhorosOrSession session;
    uint32_t values0[DIMKHOROS_PLACES]; /* side 0's commitment or response */
    uint32_t values1[DIMKHOROS_PLACES]; /* side 1's commitment or response */
    uint32_t challenge0;                /* c0 beside the responses, 0 beside the commitments */
    uint32_t refusal;
} DimkhorosOrAnswer;

/* What opening a watch answers. If it is refused, the watch has no bytes and fits no sheet. */
typedef struct {
    DimkhorosWatch watch;
    uint32_t refusal;
} DimkhorosOpened;

/* What a watch answers to a round: the watch to go on with, which is the same if the round is not accepted, and what it says. */
typedef struct {
    DimkhorosWatch watch;
    uint32_t witness[DIMKHOROS_PLACES];
    uint32_t back;
    DimkhorosJudgement verdict;
} DimkhorosWatchAnswer;

/* What making a ledger answers. If it is refused, the ledger is zeros. */
typedef struct {
    DimkhorosLedger ledger;
    uint32_t refusal;
} DimkhorosLedgerWritten;

/* The pure form of dimkhoros_commit. */
DIMKHOROS_CHECKED
DimkhorosProverAnswer dimkhoros_prover_commit(const uint8_t *sheet, size_t sheet_length, DimkhorosProverSession session,
                                              const uint32_t nonce[DIMKHOROS_PLACES]);

/* The pure form of dimkhoros_respond. */
DIMKHOROS_CHECKED
DimkhorosProverAnswer dimkhoros_prover_respond(const uint8_t *sheet, size_t sheet_length,
                                               DimkhorosProverSession session, uint32_t challenge,
                                               const uint32_t witness[DIMKHOROS_PLACES]);

/* The pure form of dimkhoros_drop. The values of its answer are zeros. */
DIMKHOROS_CHECKED
DimkhorosProverAnswer dimkhoros_prover_drop(DimkhorosProverSession session);

/* The pure form of dimkhoros_save. The values of its answer are zeros. */
DIMKHOROS_CHECKED
DimkhorosProverAnswer dimkhoros_prover_save(DimkhorosProverSession session, uint32_t name);

/* The pure form of dimkhoros_return_to. The values of its answer are zeros. */
DIMKHOROS_CHECKED
DimkhorosProverAnswer dimkhoros_prover_return(DimkhorosProverSession session, uint32_t name);

/* The pure form of dimkhoros_take_commitment. */
DIMKHOROS_CHECKED
DimkhorosVerifierAnswer dimkhoros_verifier_commitment(const uint8_t *sheet, size_t sheet_length,
                                                      DimkhorosVerifierSession session,
                                                      const uint32_t commitment[DIMKHOROS_PLACES]);

/* The pure form of dimkhoros_take_challenge. */
DIMKHOROS_CHECKED
DimkhorosVerifierAnswer dimkhoros_verifier_challenge(const uint8_t *sheet, size_t sheet_length,
                                                     DimkhorosVerifierSession session, uint32_t challenge);

/* The pure form of dimkhoros_take_response. */
DIMKHOROS_CHECKED
DimkhorosVerifierJudgement dimkhoros_verifier_response(const uint8_t *sheet, size_t sheet_length,
                                                       DimkhorosVerifierSession session,
                                                       const uint32_t response[DIMKHOROS_PLACES]);

/* The pure form of dimkhoros_or_commit. */
DIMKHOROS_CHECKED
DimkhorosOrAnswer dimkhoros_or_prover_commit(const uint8_t *first, size_t first_length, const uint8_t *second,
                                             size_t second_length, DimkhorosOrSession session, uint32_t side,
                                             const uint32_t nonce[DIMKHOROS_PLACES], uint32_t challenge,
                                             const uint32_t response[DIMKHOROS_PLACES]);

/* The pure form of dimkhoros_or_respond. */
DIMKHOROS_CHECKED
DimkhorosOrAnswer dimkhoros_or_prover_respond(const uint8_t *first, size_t first_length, const uint8_t *second,
                                              size_t second_length, DimkhorosOrSession session, uint32_t challenge,
                                              const uint32_t witness[DIMKHOROS_PLACES]);

/* The pure form of dimkhoros_or_drop. The values of its answer are zeros. */
DIMKHOROS_CHECKED
DimkhorosOrAnswer dimkhoros_or_prover_drop(DimkhorosOrSession session);

/* The pure form of dimkhoros_open_watch. */
DIMKHOROS_CHECKED
DimkhorosOpened dimkhoros_watch_open(const uint8_t *sheet, size_t sheet_length);

/* The pure form of dimkhoros_hear. A watch has 4,600 bytes, which the call takes and answers by value. */
DIMKHOROS_CHECKED
DimkhorosWatchAnswer dimkhoros_watch_round(const uint8_t *sheet, size_t sheet_length, DimkhorosWatch watch,
                                           DimkhorosRound round);

/* The pure form of dimkhoros_check_ledger. A ledger has 2,564 bytes, which the call takes by value. */
DIMKHOROS_CHECKED
DimkhorosChecked dimkhoros_ledger_check(DimkhorosBase base, DimkhorosLedger ledger);

/* The pure form of dimkhoros_write_ledger. */
DIMKHOROS_CHECKED
DimkhorosLedgerWritten dimkhoros_ledger_write(DimkhorosBase base, DimkhorosEntries entries);

/* --- How the calls on sessions, watches and ledgers come from the pure form --- */

/* Puts eight numbers into eight places. */
static inline void dimkhoros_places_copy(uint32_t to[DIMKHOROS_PLACES], const uint32_t from[DIMKHOROS_PLACES]) {
    for (size_t i = 0; i < DIMKHOROS_PLACES; i++) {
        to[i] = from[i];
    }
}

/* Takes over what a call on Peggy's session answered: the session first, then the values if nothing is refused. */
static inline uint32_t dimkhoros_prover_step(const DimkhorosProverAnswer *answer, DimkhorosProverSession *session,
                                             uint32_t values[DIMKHOROS_PLACES]) {
    *session = answer->session;
    if (answer->refusal == 0) {
        dimkhoros_places_copy(values, answer->values);
    }
    return answer->refusal;
}

/* Takes over nonce, commitment and phase of the session after a commit or a drop, which leave its memory as it is. */
static inline void dimkhoros_prover_take(DimkhorosProverSession *session, const DimkhorosProverSession *after) {
    dimkhoros_places_copy(session->nonce, after->nonce);
    dimkhoros_places_copy(session->commitment, after->commitment);
    session->phase = after->phase;
}

static inline uint32_t dimkhoros_commit(const uint8_t *sheet, size_t sheet_length, DimkhorosProverSession *session,
                                        const uint32_t nonce[DIMKHOROS_PLACES], uint32_t commitment[DIMKHOROS_PLACES]) {
    DimkhorosProverAnswer answer = dimkhoros_prover_commit(sheet, sheet_length, *session, nonce);
    dimkhoros_prover_take(session, &answer.session);
    if (answer.refusal == 0) {
        dimkhoros_places_copy(commitment, answer.values);
    }
    return answer.refusal;
}

static inline uint32_t dimkhoros_respond(const uint8_t *sheet, size_t sheet_length, DimkhorosProverSession *session,
                                         uint32_t challenge, const uint32_t witness[DIMKHOROS_PLACES],
                                         uint32_t response[DIMKHOROS_PLACES]) {
    DimkhorosProverAnswer answer = dimkhoros_prover_respond(sheet, sheet_length, *session, challenge, witness);
    return dimkhoros_prover_step(&answer, session, response);
}

static inline uint32_t dimkhoros_respond_after(const uint8_t *sheet, size_t sheet_length, DimkhorosProverSession *session,
                                               uint32_t challenge, const uint32_t witness[DIMKHOROS_PLACES],
                                               DimkhorosStore store, void *box, uint32_t response[DIMKHOROS_PLACES]) {
    uint8_t stored[DIMKHOROS_STORED_PROVER];
    DimkhorosProverAnswer answer = dimkhoros_prover_respond(sheet, sheet_length, *session, challenge, witness);
    if (answer.refusal == 0) {
        dimkhoros_prover_store(&answer.session, stored);
        *session = answer.session;
        if (store(box, stored, sizeof stored) != 0) {
            return DIMKHOROS_NOT_STORED;
        }
    }
    return dimkhoros_prover_step(&answer, session, response);
}

static inline uint32_t dimkhoros_drop(DimkhorosProverSession *session) {
    DimkhorosProverAnswer answer = dimkhoros_prover_drop(*session);
    dimkhoros_prover_take(session, &answer.session);
    return answer.refusal;
}

static inline uint32_t dimkhoros_save(DimkhorosProverSession *session, uint32_t name) {
    DimkhorosProverAnswer answer = dimkhoros_prover_save(*session, name);
    *session = answer.session;
    return answer.refusal;
}

static inline uint32_t dimkhoros_return_to(DimkhorosProverSession *session, uint32_t name) {
    DimkhorosProverAnswer answer = dimkhoros_prover_return(*session, name);
    *session = answer.session;
    return answer.refusal;
}

static inline uint32_t dimkhoros_take_commitment(const uint8_t *sheet, size_t sheet_length,
                                                 DimkhorosVerifierSession *session,
                                                 const uint32_t commitment[DIMKHOROS_PLACES]) {
    DimkhorosVerifierAnswer answer = dimkhoros_verifier_commitment(sheet, sheet_length, *session, commitment);
    *session = answer.session;
    return answer.refusal;
}

static inline uint32_t dimkhoros_take_challenge(const uint8_t *sheet, size_t sheet_length,
                                                DimkhorosVerifierSession *session, uint32_t challenge) {
    DimkhorosVerifierAnswer answer = dimkhoros_verifier_challenge(sheet, sheet_length, *session, challenge);
    *session = answer.session;
    return answer.refusal;
}

static inline DimkhorosJudgement dimkhoros_take_response(const uint8_t *sheet, size_t sheet_length,
                                                         DimkhorosVerifierSession *session,
                                                         const uint32_t response[DIMKHOROS_PLACES]) {
    DimkhorosVerifierJudgement answer = dimkhoros_verifier_response(sheet, sheet_length, *session, response);
    *session = answer.session;
    return answer.verdict;
}

static inline uint32_t dimkhoros_or_commit(const uint8_t *first, size_t first_length, const uint8_t *second,
                                           size_t second_length, DimkhorosOrSession *session, uint32_t side,
                                           const uint32_t nonce[DIMKHOROS_PLACES], uint32_t challenge,
                                           const uint32_t response[DIMKHOROS_PLACES],
                                           uint32_t commitment0[DIMKHOROS_PLACES],
                                           uint32_t commitment1[DIMKHOROS_PLACES]) {
    DimkhorosOrAnswer answer = dimkhoros_or_prover_commit(first, first_length, second, second_length, *session, side,
                                                          nonce, challenge, response);
    *session = answer.session;
    if (answer.refusal == 0) {
        dimkhoros_places_copy(commitment0, answer.values0);
        dimkhoros_places_copy(commitment1, answer.values1);
    }
    return answer.refusal;
}

/* Takes over what responding in the OR proof answered: the session first, then the round if nothing is refused. */
static inline uint32_t dimkhoros_or_prover_step(const DimkhorosOrAnswer *answer, DimkhorosOrSession *session,
                                                uint32_t challenge, DimkhorosOrRound *round) {
    *session = answer->session;
    if (answer->refusal == 0) {
        dimkhoros_places_copy(round->commitment0, answer->session.commitment0);
        dimkhoros_places_copy(round->commitment1, answer->session.commitment1);
        dimkhoros_places_copy(round->response0, answer->values0);
        dimkhoros_places_copy(round->response1, answer->values1);
        round->challenge = challenge;
        round->challenge0 = answer->challenge0;
    }
    return answer->refusal;
}

static inline uint32_t dimkhoros_or_respond(const uint8_t *first, size_t first_length, const uint8_t *second,
                                            size_t second_length, DimkhorosOrSession *session, uint32_t challenge,
                                            const uint32_t witness[DIMKHOROS_PLACES], DimkhorosOrRound *round) {
    DimkhorosOrAnswer answer =
        dimkhoros_or_prover_respond(first, first_length, second, second_length, *session, challenge, witness);
    return dimkhoros_or_prover_step(&answer, session, challenge, round);
}

static inline uint32_t dimkhoros_or_respond_after(const uint8_t *first, size_t first_length, const uint8_t *second,
                                                  size_t second_length, DimkhorosOrSession *session, uint32_t challenge,
                                                  const uint32_t witness[DIMKHOROS_PLACES], DimkhorosStore store,
                                                  void *box, DimkhorosOrRound *round) {
    uint8_t stored[DIMKHOROS_STORED_OR_PROVER];
    DimkhorosOrAnswer answer =
        dimkhoros_or_prover_respond(first, first_length, second, second_length, *session, challenge, witness);
    if (answer.refusal == 0) {
        dimkhoros_or_prover_store(&answer.session, stored);
        *session = answer.session;
        if (store(box, stored, sizeof stored) != 0) {
            return DIMKHOROS_NOT_STORED;
        }
    }
    return dimkhoros_or_prover_step(&answer, session, challenge, round);
}

static inline uint32_t dimkhoros_or_drop(DimkhorosOrSession *session) {
    DimkhorosOrAnswer answer = dimkhoros_or_prover_drop(*session);
    *session = answer.session;
    return answer.refusal;
}

static inline uint32_t dimkhoros_open_watch(const uint8_t *sheet, size_t sheet_length, DimkhorosWatch *watch) {
    const DimkhorosOpened opened = dimkhoros_watch_open(sheet, sheet_length);
    if (opened.refusal == 0) {
        *watch = opened.watch;
    }
    return opened.refusal;
}

static inline DimkhorosHeard dimkhoros_hear(const uint8_t *sheet, size_t sheet_length, DimkhorosWatch *watch,
                                            DimkhorosRound round) {
    const DimkhorosWatchAnswer answer = dimkhoros_watch_round(sheet, sheet_length, *watch, round);
    DimkhorosHeard heard;
    *watch = answer.watch;
    dimkhoros_places_copy(heard.witness, answer.witness);
    heard.back = answer.back;
    heard.verdict = answer.verdict;
    return heard;
}

static inline DimkhorosEntries dimkhoros_no_entries(void) {
    const DimkhorosEntry none = {0, 0, 0, 0, 0, {0, 0, 0}, 0};
    DimkhorosEntries entries;
    for (size_t i = 0; i < DIMKHOROS_MOST_LINES; i++) {
        entries.entries[i] = none;
    }
    entries.count = 0;
    return entries;
}

/* Adds an entry if there is room for it, and counts it. All counts above 64 are 65. */
static inline uint32_t dimkhoros_add_entry(DimkhorosEntries *entries, const DimkhorosEntry *entry) {
    const uint32_t line = entries->count < DIMKHOROS_MOST_LINES ? entries->count : DIMKHOROS_MOST_LINES;
    if (line < DIMKHOROS_MOST_LINES) {
        entries->entries[line] = *entry;
    }
    entries->count = line + 1;
    return line;
}

static inline uint32_t dimkhoros_add_commitment(DimkhorosEntries *entries, uint32_t value, uint32_t blinding) {
    const DimkhorosEntry entry = {DIMKHOROS_LINE_COMMITMENT, 0, 0, value, blinding, {0, 0, 0}, 0};
    return dimkhoros_add_entry(entries, &entry);
}

static inline uint32_t dimkhoros_add_sum(DimkhorosEntries *entries, uint32_t first, uint32_t second) {
    const DimkhorosEntry entry = {DIMKHOROS_LINE_SUM, first, second, 0, 0, {0, 0, 0}, 0};
    return dimkhoros_add_entry(entries, &entry);
}

static inline uint32_t dimkhoros_add_product(DimkhorosEntries *entries, uint32_t first, uint32_t second, uint32_t blinding,
                                             const uint32_t nonce[3], uint32_t challenge) {
    const DimkhorosEntry entry = {
        DIMKHOROS_LINE_PRODUCT, first, second, 0, blinding, {nonce[0], nonce[1], nonce[2]}, challenge};
    return dimkhoros_add_entry(entries, &entry);
}

static inline uint32_t dimkhoros_write_ledger(const DimkhorosBase *base, const DimkhorosEntries *entries,
                                              DimkhorosLedger *ledger) {
    const DimkhorosLedgerWritten written = dimkhoros_ledger_write(*base, *entries);
    if (written.refusal == 0) {
        *ledger = written.ledger;
    }
    return written.refusal;
}

static inline DimkhorosChecked dimkhoros_check_ledger(const DimkhorosBase *base, const DimkhorosLedger *ledger) {
    return dimkhoros_ledger_check(*base, *ledger);
}

static inline uint32_t dimkhoros_line_commitments(const DimkhorosBase *base, const DimkhorosLedger *ledger,
                                                  uint32_t commitments[DIMKHOROS_MOST_LINES]) {
    const DimkhorosChecked checked = dimkhoros_ledger_check(*base, *ledger);
    if (checked.refusal != 0) {
        return checked.refusal;
    }
    /* Nothing is refused, so there are at most 64 lines, and a sum names lines above. */
    for (uint32_t i = 0; i < DIMKHOROS_MOST_LINES; i++) {
        const DimkhorosLine *line = &ledger->lines[i];
        commitments[i] = i < ledger->count ? line->commitment : 0;
        if (i < ledger->count && line->kind == DIMKHOROS_LINE_SUM) {
            uint64_t product = commitments[line->first];
            product = product * commitments[line->second] % base->modulus;
            commitments[i] = product & 0xFFFFFFFFu;
        }
    }
    return 0;
}

static inline DimkhorosWritten dimkhoros_line_sheet(const DimkhorosBase *base, const DimkhorosLedger *ledger, uint32_t line,
                                                    uint8_t *buffer, size_t buffer_length) {
    uint32_t commitments[DIMKHOROS_MOST_LINES], values[3], statement[2];
    uint8_t patterns[DIMKHOROS_SHIPPED_PATTERNS];
    DimkhorosWritten written;
    written.length = 0;
    written.refusal = dimkhoros_line_commitments(base, ledger, commitments);
    if (written.refusal != 0 || line >= ledger->count || ledger->lines[line].kind != DIMKHOROS_LINE_PRODUCT) {
        return written;
    }
    values[0] = base->g;
    values[1] = base->h;
    values[2] = commitments[ledger->lines[line].second];
    statement[0] = commitments[ledger->lines[line].first];
    statement[1] = commitments[line];
    written = dimkhoros_patterns(patterns, sizeof patterns);
    return dimkhoros_from_pattern(patterns, written.length, DIMKHOROS_PATTERN_PRODUCT, base->modulus, base->order,
                                  base->challenges, values, 3, statement, 2, buffer, buffer_length);
}

static inline DimkhorosRound dimkhoros_line_round(const DimkhorosLine *line) {
    DimkhorosRound round;
    for (size_t i = 0; i < DIMKHOROS_PLACES; i++) {
        round.commitment[i] = i < 2 ? line->t[i] : 0;
        round.response[i] = i < 3 ? line->response[i] : 0;
    }
    round.challenge = line->challenge;
    return round;
}

/* --- How sessions are stored --- */

/* The CRC-32 of these bytes, reflected: polynomial EDB88320, with all bits inverted at the start and at the end. */
static inline uint32_t dimkhoros_stored_check(const uint8_t *bytes, size_t length) {
    uint32_t crc = 0xFFFFFFFFu;
    for (size_t i = 0; i < 8 * length; i++) {
        crc ^= i % 8 == 0 ? bytes[i / 8] : 0u;
        crc = (crc >> 1) ^ ((crc & 1u) == 0 ? 0u : 0xEDB88320u);
    }
    return crc ^ 0xFFFFFFFFu;
}

/* Puts a number into four bytes. */
static inline void dimkhoros_stored_put(uint8_t *bytes, uint32_t number) {
    for (int i = 3; i >= 0; i--) {
        bytes[i] = number & 0xFFu;
        number >>= 8;
    }
}

/* The number in four bytes. */
static inline uint32_t dimkhoros_stored_get(const uint8_t *bytes) {
    uint32_t number = 0;
    for (int i = 0; i < 4; i++) {
        number = number << 8 | bytes[i];
    }
    return number;
}

/* Stores `count` values under a mark of three letters and a version. Version and length are written as one number. */
static inline void dimkhoros_stored_write(const char *mark, uint32_t version, const uint32_t *values, uint32_t count,
                                          uint8_t *stored) {
    const uint32_t length = 11 + 4 * count;
    for (int i = 0; i < 3; i++) {
        stored[i] = mark[i] & 0x7F;
    }
    dimkhoros_stored_put(stored + 3, 0x10000u * version + length);
    for (uint32_t i = 0; i < count; i++) {
        dimkhoros_stored_put(stored + 7 + 4 * i, values[i]);
    }
    dimkhoros_stored_put(stored + length - 4, dimkhoros_stored_check(stored, length - 4));
}

/*
 * Reads the `count` values of which these bytes are the stored form under a mark and a version, and answers 1. Answers 0 for any
 * other bytes: they are compared with what the values are stored as.
 */
static inline int dimkhoros_stored_read(const char *mark, uint32_t version, const uint8_t *stored, size_t length,
                                        uint32_t *values, uint32_t count) {
    uint8_t expected[DIMKHOROS_STORED_PROVER];
    if (length != 11 + 4 * count) {
        return 0;
    }
    for (uint32_t i = 0; i < count; i++) {
        values[i] = dimkhoros_stored_get(stored + 7 + 4 * i);
    }
    dimkhoros_stored_write(mark, version, values, count, expected);
    for (size_t i = 0; i < length; i++) {
        if (stored[i] != expected[i]) {
            return 0;
        }
    }
    return 1;
}

/* How many numbers a stored session of Peggy's has, and where its saved states and its listed commitments begin. */
#define DIMKHOROS_STORED_NUMBERS ((DIMKHOROS_STORED_PROVER - 11) / 4)
#define DIMKHOROS_STORED_SAVED (2 * DIMKHOROS_PLACES + 1)
#define DIMKHOROS_STORED_LISTED (DIMKHOROS_STORED_SAVED + DIMKHOROS_SAVED_STATES * (2 * DIMKHOROS_PLACES + 2))

static inline void dimkhoros_prover_store(const DimkhorosProverSession *session, uint8_t stored[DIMKHOROS_STORED_PROVER]) {
    const DimkhorosMemory *memory = &session->memory;
    uint32_t values[DIMKHOROS_STORED_NUMBERS];
    dimkhoros_places_copy(values, session->nonce);
    dimkhoros_places_copy(values + DIMKHOROS_PLACES, session->commitment);
    values[2 * DIMKHOROS_PLACES] = session->phase;
    for (size_t name = 0; name < DIMKHOROS_SAVED_STATES; name++) {
        uint32_t *state = values + DIMKHOROS_STORED_SAVED + (2 * DIMKHOROS_PLACES + 2) * name;
        dimkhoros_places_copy(state, memory->saved[name].nonce);
        dimkhoros_places_copy(state + DIMKHOROS_PLACES, memory->saved[name].commitment);
        state[2 * DIMKHOROS_PLACES] = memory->saved[name].phase;
        state[2 * DIMKHOROS_PLACES + 1] = memory->saved[name].kept;
    }
    for (size_t i = 0; i < DIMKHOROS_MOST_ANSWERED; i++) {
        dimkhoros_places_copy(values + DIMKHOROS_STORED_LISTED + DIMKHOROS_PLACES * i, memory->answered[i].commitment);
    }
    values[DIMKHOROS_STORED_NUMBERS - 1] = memory->count;
    dimkhoros_stored_write("PRV", 2, values, DIMKHOROS_STORED_NUMBERS, stored);
}

/* Sets what Peggy's session keeps beside its state to what the numbers of a stored session have of it. */
static inline void dimkhoros_memory_take(DimkhorosMemory *memory, const uint32_t values[DIMKHOROS_STORED_NUMBERS]) {
    for (size_t name = 0; name < DIMKHOROS_SAVED_STATES; name++) {
        const uint32_t *state = values + DIMKHOROS_STORED_SAVED + (2 * DIMKHOROS_PLACES + 2) * name;
        dimkhoros_places_copy(memory->saved[name].nonce, state);
        dimkhoros_places_copy(memory->saved[name].commitment, state + DIMKHOROS_PLACES);
        memory->saved[name].phase = state[2 * DIMKHOROS_PLACES];
        memory->saved[name].kept = state[2 * DIMKHOROS_PLACES + 1];
    }
    for (size_t i = 0; i < DIMKHOROS_MOST_ANSWERED; i++) {
        dimkhoros_places_copy(memory->answered[i].commitment, values + DIMKHOROS_STORED_LISTED + DIMKHOROS_PLACES * i);
    }
    memory->count = values[DIMKHOROS_STORED_NUMBERS - 1];
}

/* Whether calls can have made what a session of Peggy's has for its phases, flags and count. */
static inline int dimkhoros_prover_made(const DimkhorosProverSession *session) {
    const DimkhorosMemory *memory = &session->memory;
    int can = session->phase <= DIMKHOROS_PROVER_DROPPED && memory->count <= DIMKHOROS_MOST_ANSWERED;
    for (size_t name = 0; name < DIMKHOROS_SAVED_STATES; name++) {
        can = can && memory->saved[name].phase <= DIMKHOROS_PROVER_DROPPED && memory->saved[name].kept <= 1;
    }
    return can;
}

static inline int dimkhoros_prover_restore_with_nonce(const uint8_t *stored, size_t length, DimkhorosProverSession *session) {
    uint32_t values[DIMKHOROS_STORED_NUMBERS];
    DimkhorosProverSession found;
    if (!dimkhoros_stored_read("PRV", 2, stored, length, values, DIMKHOROS_STORED_NUMBERS)) {
        return 0;
    }
    dimkhoros_places_copy(found.nonce, values);
    dimkhoros_places_copy(found.commitment, values + DIMKHOROS_PLACES);
    found.phase = values[2 * DIMKHOROS_PLACES];
    dimkhoros_memory_take(&found.memory, values);
    if (!dimkhoros_prover_made(&found)) {
        return 0;
    }
    *session = found;
    return 1;
}

static inline uint32_t dimkhoros_prover_reopen(const uint8_t *stored, size_t length, DimkhorosProverSession *session) {
    DimkhorosProverSession found = dimkhoros_prover_new();
    const int taken = dimkhoros_prover_restore_with_nonce(stored, length, &found);
    const uint32_t phase = found.phase;
    if (phase == DIMKHOROS_PROVER_COMMITTED) {
        found = dimkhoros_prover_drop(found).session;
    }
    *session = found;
    return taken ? phase : DIMKHOROS_FOUND_DAMAGED;
}

static inline void dimkhoros_verifier_store(const DimkhorosVerifierSession *session,
                                            uint8_t stored[DIMKHOROS_STORED_VERIFIER]) {
    uint32_t values[DIMKHOROS_PLACES + 2];
    for (size_t i = 0; i < DIMKHOROS_PLACES; i++) {
        values[i] = session->commitment[i];
    }
    values[DIMKHOROS_PLACES] = session->challenge;
    values[DIMKHOROS_PLACES + 1] = session->phase;
    dimkhoros_stored_write("VRF", 1, values, DIMKHOROS_PLACES + 2, stored);
}

static inline int dimkhoros_verifier_restore(const uint8_t *stored, size_t length, DimkhorosVerifierSession *session) {
    uint32_t values[DIMKHOROS_PLACES + 2];
    if (!dimkhoros_stored_read("VRF", 1, stored, length, values, DIMKHOROS_PLACES + 2) ||
        values[DIMKHOROS_PLACES + 1] > DIMKHOROS_VERIFIER_JUDGED) {
        return 0;
    }
    for (size_t i = 0; i < DIMKHOROS_PLACES; i++) {
        session->commitment[i] = values[i];
    }
    session->challenge = values[DIMKHOROS_PLACES];
    session->phase = values[DIMKHOROS_PLACES + 1];
    return 1;
}

static inline void dimkhoros_or_prover_store(const DimkhorosOrSession *session,
                                             uint8_t stored[DIMKHOROS_STORED_OR_PROVER]) {
    uint32_t values[4 * DIMKHOROS_PLACES + 3];
    dimkhoros_places_copy(values, session->nonce);
    dimkhoros_places_copy(values + DIMKHOROS_PLACES, session->response);
    dimkhoros_places_copy(values + 2 * DIMKHOROS_PLACES, session->commitment0);
    dimkhoros_places_copy(values + 3 * DIMKHOROS_PLACES, session->commitment1);
    values[4 * DIMKHOROS_PLACES] = session->challenge;
    values[4 * DIMKHOROS_PLACES + 1] = session->side;
    values[4 * DIMKHOROS_PLACES + 2] = session->phase;
    dimkhoros_stored_write("ORP", 1, values, 4 * DIMKHOROS_PLACES + 3, stored);
}

static inline int dimkhoros_or_prover_restore_with_nonce(const uint8_t *stored, size_t length, DimkhorosOrSession *session) {
    uint32_t values[4 * DIMKHOROS_PLACES + 3];
    if (!dimkhoros_stored_read("ORP", 1, stored, length, values, 4 * DIMKHOROS_PLACES + 3) ||
        values[4 * DIMKHOROS_PLACES + 1] > 1 || values[4 * DIMKHOROS_PLACES + 2] > DIMKHOROS_PROVER_DROPPED) {
        return 0;
    }
    dimkhoros_places_copy(session->nonce, values);
    dimkhoros_places_copy(session->response, values + DIMKHOROS_PLACES);
    dimkhoros_places_copy(session->commitment0, values + 2 * DIMKHOROS_PLACES);
    dimkhoros_places_copy(session->commitment1, values + 3 * DIMKHOROS_PLACES);
    session->challenge = values[4 * DIMKHOROS_PLACES];
    session->side = values[4 * DIMKHOROS_PLACES + 1];
    session->phase = values[4 * DIMKHOROS_PLACES + 2];
    return 1;
}

static inline uint32_t dimkhoros_or_prover_reopen(const uint8_t *stored, size_t length, DimkhorosOrSession *session) {
    DimkhorosOrSession found = dimkhoros_or_prover_new();
    const int taken = dimkhoros_or_prover_restore_with_nonce(stored, length, &found);
    const uint32_t phase = found.phase;
    if (phase == DIMKHOROS_PROVER_COMMITTED) {
        found = dimkhoros_or_prover_drop(found).session;
    }
    *session = found;
    return taken ? phase : DIMKHOROS_FOUND_DAMAGED;
}

#ifdef __cplusplus
}
#endif

#endif
