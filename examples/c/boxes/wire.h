/* The wire between the boxes, standard input and output. Each box says what it hears and sends. */
#ifndef WIRE_H
#define WIRE_H

#include "base.h"

/* Whether two runs of numbers are the same. */
static inline int same(const uint32_t *first, const uint32_t *second, size_t count) {
    return memcmp(first, second, count * sizeof first[0]) == 0;
}

/* Waits for a line and answers 1, or 0 if the other box has closed its end. */
static inline int hear(const Base *base, DimkhorosBoxLine *line) {
    point("before a receive");
    if (!dimkhoros_box_hear(STDIN_FILENO, line)) {
        return 0;
    }
    fprintf(stderr, "%s hears %s\n", base->name, line->text);
    point("after a receive");
    return 1;
}

/* Says a run of numbers, one space before each. */
static inline void say_numbers(const uint32_t *numbers, size_t count) {
    for (size_t i = 0; i < count; i++) {
        fprintf(stderr, " %u", numbers[i]);
    }
}

/* Sends a word and two runs of numbers as one line. */
static inline void send_line(const Base *base, const char *word, const uint32_t *first, size_t first_count,
                             const uint32_t *second, size_t second_count) {
    point("before a send");
    fprintf(stderr, "%s sends %s", base->name, word);
    say_numbers(first, first_count);
    say_numbers(second, second_count);
    fprintf(stderr, "\n");
    if (dimkhoros_box_send(STDOUT_FILENO, word, first, first_count, second, second_count) != 0) {
        fail(base, "the other box has gone");
    }
    point("after a send");
}

#endif
