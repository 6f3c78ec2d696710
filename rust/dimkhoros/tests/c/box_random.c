/*
 * Draws random numbers by dimkhoros_box.h from words that are chosen here, in the place of the system's. Prints each number with how
 * many words it took. With an argument the system gives no words.
 */
#define _POSIX_C_SOURCE 200809L
#include <errno.h>
#include <stdio.h>
#include <string.h>
#include <sys/random.h>

/* The words that are given next, and how many of them there are. */
static unsigned int queue[8];
static int queued, drawn, interrupted, broken;

/* In the place of getrandom. It has to be asked for the four bytes of a word that waits until the generator is ready. */
static ssize_t chosen(void *bytes, size_t length, unsigned int flags) {
    if (broken || length != 4 || flags != 0 || drawn == queued) {
        errno = ENOSYS;
        return -1;
    }
    if (interrupted > 0) {
        interrupted--;
        errno = EINTR;
        return -1;
    }
    memcpy(bytes, &queue[drawn++], length);
    return 4;
}

#define getrandom chosen
#include "dimkhoros_box.h"

/* Draws a number below a bound from these words. */
static void draw(uint32_t bound, unsigned int first, unsigned int second, unsigned int third) {
    const unsigned int given[3] = {first, second, third};
    memcpy(queue, given, sizeof given);
    queued = 3;
    drawn = 0;
    uint32_t number = dimkhoros_box_below(bound);
    printf("below %u: %u of %d\n", bound, number, drawn);
}

int main(int argc, char **argv) {
    (void)argv;
    broken = argc > 1;
    draw(11, 0, 0, 0);
    draw(11, 4294967291u, 0, 0); /* the last word of the last whole run: 11 * 390451572 is 4294967292 */
    draw(11, 4294967292u, 4294967295u, 15);
    draw(3221225472u, 3221225471u, 0, 0);
    draw(3221225472u, 3221225472u, 4294967295u, 7);
    draw(2147483649u, 2147483649u, 2147483648u, 0);
    draw(65536, 4294967295u, 0, 0);
    draw(1, 4294967295u, 0, 0);
    draw(0, 4294967295u, 0, 0);
    interrupted = 2;
    draw(11, 12, 0, 0);
    return 0;
}
