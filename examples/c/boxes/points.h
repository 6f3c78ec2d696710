/* The points at which the tests end a box. */
#ifndef POINTS_H
#define POINTS_H

#include <stdio.h>
#include <stdlib.h>

/* How a box exits that is ended at a point. */
enum { DIED = 99 };

/*
 * A point stands before and after each write, send and receive, and before a written file takes its name. For the tests
 * alone: where the variable BOX_DIES_AT holds a number, the box ends at the point of this number, from 1, as it does when its
 * power goes. It says the point's name and cleans nothing up.
 */
static inline void point(const char *name) {
    static unsigned long passed = 0;
    const char *last = getenv("BOX_DIES_AT");
    passed += 1;
    if (last != NULL && strtoul(last, NULL, 10) == passed) {
        fprintf(stderr, "dies %s\n", name);
        _Exit(DIED);
    }
}

#endif
