/* What both boxes have: a name, a folder for their files and the sheet, how they store, and how they end if something fails. */
#ifndef BASE_H
#define BASE_H

#include "points.h"
#define DIMKHOROS_BOX_BETWEEN() point("before a rename")
#include "dimkhoros_box.h"

typedef struct {
    const char *name; /* what the box calls itself in what it prints */
    int folder;       /* the open folder */
    uint8_t sheet[DIMKHOROS_LONGEST_SHEET + 1];
    size_t sheet_length;
    DimkhorosHeader header;
} Base;

/* Says what went wrong and ends the program. */
static inline void fail(const Base *base, const char *what) {
    fprintf(stderr, "%s fails: %s\n", base->name, what);
    exit(1);
}

/* Ends the program if something is refused that should not be. */
static inline void expect(const Base *base, uint32_t refusal) {
    if (refusal != 0) {
        fail(base, dimkhoros_sentence(refusal));
    }
}

/* Opens the folder and loads the sheet in it, sheet.bin. */
static inline void open_base(Base *base, const char *name, const char *folder) {
    base->name = name;
    base->folder = open(folder, O_RDONLY | O_DIRECTORY);
    ssize_t length = dimkhoros_box_find(base->folder, "sheet.bin", base->sheet, sizeof base->sheet);
    if (length < 0) {
        fail(base, "there is no sheet.bin in the folder");
    }
    base->sheet_length = (size_t)length;
    DimkhorosLoaded loaded = dimkhoros_load(base->sheet, base->sheet_length);
    expect(base, loaded.refusal);
    base->header = loaded.header;
}

/* Reads the stored session and answers how many bytes it has: -1 if the box never stored one. */
static inline ssize_t find_session(const Base *base, uint8_t *bytes, size_t room) {
    ssize_t length = dimkhoros_box_find(base->folder, DIMKHOROS_BOX_SESSION, bytes, room);
    if (length < 0 && errno != ENOENT) {
        fail(base, "the stored session cannot be read");
    }
    return length;
}

/* Stores the bytes of a session and answers 0 after they are on the disk. */
static inline int try_to_store(const Base *base, const uint8_t *bytes, size_t length) {
    point("before a write");
    int error = dimkhoros_box_store(base->folder, bytes, length);
    point("after a write");
    return error;
}

/* Stores the bytes of a session, or ends the program. */
static inline void store(const Base *base, const uint8_t *bytes, size_t length) {
    if (try_to_store(base, bytes, length) != 0) {
        fail(base, "the session is not stored");
    }
}

#endif
