/*
 * What a box of docs/BOXES.md needs beside the library: a store for its session, random numbers, and the lines of the wire. It is
 * for C99 and C++11, or later, on Linux. All of it is C over calls of the system: it is tested and not proved.
 *
 * It needs POSIX.1-2008. A program that is compiled with -std=c99, for example, begins with
 *
 *     #define _POSIX_C_SOURCE 200809L
 *     #include "dimkhoros_box.h"
 *
 * A box Peggy, in short. `folder` is her folder, opened with O_RDONLY | O_DIRECTORY:
 *
 *     uint8_t stored[DIMKHOROS_STORED_PROVER + 1];
 *     ssize_t length = dimkhoros_box_find(folder, DIMKHOROS_BOX_SESSION, stored, sizeof stored);
 *     .. if it is not below 0: dimkhoros_prover_reopen drops a session that is found committed ..
 *     uint32_t refusal = dimkhoros_box_nonce(sheet, sheet_length, nonce);
 *     .. commit a new session to the nonce, dimkhoros_box_store it, and only then dimkhoros_box_send the commitment ..
 *     .. dimkhoros_box_hear a challenge that names the commitment ..
 *     refusal = dimkhoros_respond_after(sheet, sheet_length, &peggy, challenge, witness, dimkhoros_box_store_in, &folder,
 *                                       response);
 *     .. if it is 0: dimkhoros_box_send the response ..
 */
#ifndef DIMKHOROS_BOX_H
#define DIMKHOROS_BOX_H

#include "dimkhoros.h"
#include <errno.h>
#include <fcntl.h>
#include <stdio.h>
#include <stdlib.h>
#include <string.h>
#include <sys/random.h>
#include <unistd.h>

#ifndef AT_FDCWD
#error "dimkhoros_box.h needs POSIX.1-2008: define _POSIX_C_SOURCE as 200809L before the first #include"
#endif

#ifdef __cplusplus
#define DIMKHOROS_BOX_AS(type, value) static_cast<type>(value)
extern "C" {
#else
#define DIMKHOROS_BOX_AS(type, value) ((type)(value))
#endif

/* --- The store --- */

#define DIMKHOROS_BOX_SESSION "session.bin" /* the file in the box's folder that holds the stored session */
#define DIMKHOROS_BOX_WRITTEN "session.new" /* the file that is written first; one that is left over is never read */

/*
 * Stands in dimkhoros_box_store between writing the new file and renaming it, and does nothing. A program that tests how its box
 * goes on after an end there can define it before it includes this header.
 */
#ifndef DIMKHOROS_BOX_BETWEEN
#define DIMKHOROS_BOX_BETWEEN() ((void)0)
#endif

/*
 * Reads a file of a folder, as much of it as there is room for, and answers how many bytes these are. Give it one byte more than
 * the longest file that you want: a longer file then shows. If the file cannot be read, it answers -1, with the reason in errno,
 * which is ENOENT if the file does not exist.
 */
DIMKHOROS_CHECKED
static inline ssize_t dimkhoros_box_find(int folder, const char *name, void *bytes, size_t room);

/*
 * Puts the bytes of a session in the place of the stored ones. Only the owner can read them (mode 600). Answers 0 after they are
 * on the disk. At whatever step the box ends, the file holds either what it held or all of the new bytes. If the call fails, it
 * answers the error's number, as in errno. The file then holds either of the two, and the box must not send anything.
 */
DIMKHOROS_CHECKED
static inline int dimkhoros_box_store(int folder, const uint8_t *bytes, size_t length);

/* The same for dimkhoros_respond_after: a DimkhorosStore whose `box` is the address of the folder, an int. */
DIMKHOROS_CHECKED
static inline int dimkhoros_box_store_in(void *folder, const uint8_t *stored, size_t length);

/* --- Random numbers --- */

/*
 * A random number below a bound, each as likely as any other, from the system's generator. It waits until the generator is ready,
 * which on a box that was just switched on can take a moment. A bound of 0 stands for 2^32. If the system gives no random
 * numbers, it says so on standard error and ends the program with 1: a box must not go on with another number.
 */
DIMKHOROS_CHECKED
static inline uint32_t dimkhoros_box_below(uint32_t bound);

/*
 * Draws a nonce for a sheet, or a response to simulate with: each value is any number below q (exponent sheets), or any group
 * element (root sheets), each as likely as any other. The places after the n values are 0. Refuses 2 to 11; `nonce` then keeps
 * what it holds.
 */
DIMKHOROS_CHECKED
static inline uint32_t dimkhoros_box_nonce(const uint8_t *sheet, size_t sheet_length, uint32_t nonce[DIMKHOROS_PLACES]);

/* --- The wire --- */

#define DIMKHOROS_BOX_NUMBERS 16 /* no line has more numbers */
#define DIMKHOROS_BOX_LINE 256   /* bytes that hold every line */

/* A line of the wire: a word and decimal numbers, one space before each. docs/BOXES.md lists the lines. */
typedef struct {
    char text[DIMKHOROS_BOX_LINE]; /* without the newline, with a zero at its end */
    size_t length;                 /* how many bytes the text has */
    size_t word;                   /* how many letters the word has; 0 if the text is not a word with numbers */
    uint32_t numbers[DIMKHOROS_BOX_NUMBERS];
    size_t count; /* how many numbers there are; those after them are 0 */
} DimkhorosBoxLine;

/*
 * Waits for a line and answers 1, or 0 if the other box has closed its end or the wire cannot be read. It reads no further than
 * the newline, so the lines after it stay in the pipe for the box that is started next. If a line is not of the wire's form,
 * `word` is 0. If a line has more than 255 bytes, `word` is 0 too, and its text is cut.
 */
DIMKHOROS_CHECKED
static inline int dimkhoros_box_hear(int wire, DimkhorosBoxLine *line);

/* Takes apart a text that the caller has put into a line, with its length. dimkhoros_box_hear does this by itself. */
static inline void dimkhoros_box_take_apart(DimkhorosBoxLine *line);

/* Whether a line has this word and this many numbers. */
DIMKHOROS_CHECKED
static inline int dimkhoros_box_is(const DimkhorosBoxLine *line, const char *word, size_t count);

/*
 * Sends a word and two runs of numbers as one line in one write. A pipe takes so few bytes whole or not at all, so no part of a
 * line ever goes over alone. Answers 0, or the error's number, as in errno. The word has at most 30 letters, and there are at
 * most 16 numbers in all: else the call answers EINVAL and sends nothing. If nobody reads the wire any more, the system ends the
 * program (SIGPIPE). If the program ignores this signal, the call answers EPIPE.
 */
DIMKHOROS_CHECKED
static inline int dimkhoros_box_send(int wire, const char *word, const uint32_t *first, size_t first_count,
                                     const uint32_t *second, size_t second_count);

/* --- How it is done --- */

static inline ssize_t dimkhoros_box_find(int folder, const char *name, void *bytes, size_t room) {
    const int file = openat(folder, name, O_RDONLY | O_NONBLOCK | O_CLOEXEC);
    if (file < 0) {
        return -1;
    }
    ssize_t length;
    do {
        length = read(file, bytes, room);
    } while (length < 0 && errno == EINTR);
    const int error = errno;
    close(file);
    errno = error;
    return length;
}

/* Writes a file that did not exist and waits until its bytes are on the disk. Answers 0 or the error's number. */
static inline int dimkhoros_box_write(int folder, const char *name, const uint8_t *bytes, size_t length) {
    unlinkat(folder, name, 0);
    const int file = openat(folder, name, O_WRONLY | O_CREAT | O_EXCL | O_CLOEXEC, 0600);
    if (file < 0) {
        return errno;
    }
    int error = 0;
    errno = EIO;
    if (write(file, bytes, length) != DIMKHOROS_BOX_AS(ssize_t, length) || fsync(file) != 0) {
        error = errno;
    }
    if (close(file) != 0 && error == 0) {
        error = errno;
    }
    return error;
}

static inline int dimkhoros_box_store(int folder, const uint8_t *bytes, size_t length) {
    const int error = dimkhoros_box_write(folder, DIMKHOROS_BOX_WRITTEN, bytes, length);
    if (error != 0) {
        return error;
    }
    DIMKHOROS_BOX_BETWEEN();
    if (renameat(folder, DIMKHOROS_BOX_WRITTEN, folder, DIMKHOROS_BOX_SESSION) != 0 || fsync(folder) != 0) {
        return errno;
    }
    return 0;
}

static inline int dimkhoros_box_store_in(void *folder, const uint8_t *stored, size_t length) {
    int place;
    memcpy(&place, folder, sizeof place);
    return dimkhoros_box_store(place, stored, length);
}

/* A random number of 32 bits. getrandom gives so few bytes whole, and none before the generator is ready. */
static inline uint32_t dimkhoros_box_word(void) {
    uint32_t word = 0;
    ssize_t got;
    do {
        got = getrandom(&word, sizeof word, 0);
    } while (got < 0 && errno == EINTR);
    if (got != 4) {
        fprintf(stderr, "The system gives no random numbers. The box ends.\n");
        _Exit(1);
    }
    return word;
}

/*
 * The highest words are too few for one more run of the bound, and are drawn again: else the low numbers would come more often.
 */
static inline uint32_t dimkhoros_box_below(uint32_t bound) {
    const uint64_t words = 0x100000000u;
    const uint64_t run = bound == 0 ? words : bound;
    uint64_t word;
    do {
        word = dimkhoros_box_word();
    } while (word >= words - words % run);
    return DIMKHOROS_BOX_AS(uint32_t, word % run);
}

/* Draws value after value. The library knows group elements; a place that is not drawn yet holds 1, which no sheet refuses. */
static inline uint32_t dimkhoros_box_nonce(const uint8_t *sheet, size_t sheet_length, uint32_t nonce[DIMKHOROS_PLACES]) {
    const DimkhorosLoaded loaded = dimkhoros_load(sheet, sheet_length);
    const int root = loaded.header.kind == DIMKHOROS_ROOT;
    uint32_t refusal, commitment[DIMKHOROS_PLACES];
    if (loaded.refusal != 0) {
        return loaded.refusal;
    }
    for (size_t j = 0; j < DIMKHOROS_PLACES; j++) {
        nonce[j] = j < loaded.header.columns ? 1 : 0;
    }
    for (size_t j = 0; j < loaded.header.columns; j++) {
        do {
            DimkhorosProverSession trial = dimkhoros_prover_new();
            nonce[j] = root ? 1 + dimkhoros_box_below(loaded.header.modulus - 1) : dimkhoros_box_below(loaded.header.order);
            refusal = dimkhoros_commit(sheet, sheet_length, &trial, nonce, commitment);
        } while (refusal == DIMKHOROS_REFUSED_COORDINATE);
    }
    return 0;
}

/* Reads the number that begins here and answers where it ends, or NULL if no number of one to ten digits below 2^32 does. */
static inline const char *dimkhoros_box_number(const char *at, uint32_t *number) {
    const size_t digits = strspn(at, "0123456789");
    const unsigned long long value = strtoull(at, NULL, 10);
    *number = DIMKHOROS_BOX_AS(uint32_t, value & 0xFFFFFFFFu);
    return digits == 0 || digits > 10 || value > 0xFFFFFFFFu ? NULL : at + digits;
}

static inline void dimkhoros_box_take_apart(DimkhorosBoxLine *line) {
    memset(line->numbers, 0, sizeof line->numbers);
    line->word = strspn(line->text, "abcdefghijklmnopqrstuvwxyz");
    line->count = 0;
    const char *at = line->text + line->word;
    while (at != NULL && *at == ' ' && line->count < DIMKHOROS_BOX_NUMBERS) {
        at = dimkhoros_box_number(at + 1, &line->numbers[line->count]);
        line->count += 1;
    }
    if (at != line->text + line->length) {
        line->word = 0;
    }
}

/* Waits for a byte. Answers 0 if the other box has closed its end or the wire cannot be read. */
static inline int dimkhoros_box_byte(int wire, char *byte) {
    ssize_t got;
    do {
        got = read(wire, byte, 1);
    } while (got < 0 && errno == EINTR);
    return got == 1;
}

static inline int dimkhoros_box_hear(int wire, DimkhorosBoxLine *line) {
    char byte = 0;
    size_t heard = 0;
    line->word = 0;
    while (dimkhoros_box_byte(wire, &byte) && byte != '\n') {
        if (heard < DIMKHOROS_BOX_LINE - 1) {
            line->text[heard] = byte;
        }
        heard += heard < DIMKHOROS_BOX_LINE;
    }
    line->length = heard < DIMKHOROS_BOX_LINE ? heard : DIMKHOROS_BOX_LINE - 1;
    line->text[line->length] = '\0';
    if (byte != '\n') {
        return 0;
    }
    dimkhoros_box_take_apart(line);
    if (heard == DIMKHOROS_BOX_LINE) {
        line->word = 0;
    }
    return 1;
}

static inline int dimkhoros_box_is(const DimkhorosBoxLine *line, const char *word, size_t count) {
    return line->word == strlen(word) && memcmp(line->text, word, line->word) == 0 && line->count == count;
}

static inline int dimkhoros_box_send(int wire, const char *word, const uint32_t *first, size_t first_count,
                                     const uint32_t *second, size_t second_count) {
    char text[DIMKHOROS_BOX_LINE];
    size_t length = strlen(word);
    if (length > 30 || first_count > DIMKHOROS_BOX_NUMBERS || second_count > DIMKHOROS_BOX_NUMBERS - first_count) {
        return EINVAL;
    }
    memcpy(text, word, length);
    for (size_t i = 0; i < first_count + second_count; i++) {
        const uint32_t number = i < first_count ? first[i] : second[i - first_count];
        length += DIMKHOROS_BOX_AS(size_t, snprintf(text + length, sizeof text - length, " %lu", number + 0ul));
    }
    text[length] = '\n';
    ssize_t sent;
    do {
        errno = EIO;
        sent = write(wire, text, length + 1);
    } while (sent < 0 && errno == EINTR);
    return sent == DIMKHOROS_BOX_AS(ssize_t, length + 1) ? 0 : errno;
}

#ifdef __cplusplus
}
#endif

#endif
