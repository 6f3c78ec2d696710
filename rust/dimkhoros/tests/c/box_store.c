/*
 * Stores the bytes `second` in a folder by dimkhoros_box.h: box_store FOLDER N. Every call of the system is printed as it is made, and
 * the call of number N, from 1, fails. Prints what storing answers, and what stands in the store then.
 */
#define _POSIX_C_SOURCE 200809L
#include <errno.h>
#include <fcntl.h>
#include <stdarg.h>
#include <stdio.h>
#include <stdlib.h>
#include <string.h>
#include <sys/random.h>
#include <unistd.h>

/* How many calls were made, and which of them fails. */
static int made, failing;

/* Prints a call and answers whether it fails. */
static int fails(const char *what) {
    int fail = ++made == failing;
    printf("%s%s\n", what, fail ? " fails" : "");
    errno = fail ? ENOSPC : 0;
    return fail;
}

static int open_file(int folder, const char *name, int flags, ...) {
    char what[64];
    va_list rest;
    va_start(rest, flags);
    const int mode = (flags & O_CREAT) != 0 ? va_arg(rest, int) : 0;
    va_end(rest);
    snprintf(what, sizeof what, "open %s %s %o", name, (flags & O_EXCL) != 0 ? "new" : "old", (unsigned int)mode);
    return fails(what) ? -1 : openat(folder, name, flags, mode);
}

/* A write that fails writes the first three bytes. */
static ssize_t write_file(int file, const void *bytes, size_t length) {
    return fails("write") ? write(file, bytes, 3) : write(file, bytes, length);
}

static int sync_file(int file) { return fails("fsync") ? -1 : fsync(file); }

static int close_file(int file) {
    int closed = close(file);
    return fails("close") ? -1 : closed;
}

static int rename_file(int from, const char *name, int to, const char *other) {
    char what[64];
    snprintf(what, sizeof what, "rename %s to %s", name, other);
    return fails(what) ? -1 : renameat(from, name, to, other);
}

#define openat open_file
#define write write_file
#define fsync sync_file
#define close close_file
#define renameat rename_file
#include "dimkhoros_box.h"
#undef openat

int main(int argc, char **argv) {
    char bytes[16] = {0};
    if (argc != 3) {
        return 2;
    }
    failing = atoi(argv[2]);
    int folder = open(argv[1], O_RDONLY | O_DIRECTORY);
    const uint8_t second[6] = {'s', 'e', 'c', 'o', 'n', 'd'};
    int error = dimkhoros_box_store_in(&folder, second, sizeof second);
    printf("answers %s\n", error == 0 ? "0" : error == ENOSPC || error == EIO ? "an error" : "another error");
    int file = openat(folder, DIMKHOROS_BOX_SESSION, O_RDONLY);
    ssize_t length = read(file, bytes, sizeof bytes - 1);
    printf("stored %s\n", length < 0 ? "nothing" : bytes);
    return 0;
}
