/*
 * Hears the lines on standard input by dimkhoros_box.h, prints of each what it is made of and how far it was read, and sends it again if
 * it is a line of the wire. The sent line is printed after the word `sent`.
 */
#define _POSIX_C_SOURCE 200809L
#include "dimkhoros_box.h"

static void print_line(const DimkhorosBoxLine *line) {
    printf("%ld: word %zu length %zu count %zu", (long)lseek(STDIN_FILENO, 0, SEEK_CUR), line->word, line->length, line->count);
    for (size_t i = 0; i < DIMKHOROS_BOX_NUMBERS && line->word > 0; i++) {
        printf(" %u", line->numbers[i]);
    }
    printf("\n");
}

/* Sends a line again, its numbers in two runs. */
static void send_again(const DimkhorosBoxLine *line) {
    char word[DIMKHOROS_BOX_LINE] = {0};
    memcpy(word, line->text, line->word);
    size_t half = line->count / 2;
    printf("sent ");
    fflush(stdout);
    int error = dimkhoros_box_send(STDOUT_FILENO, word, line->numbers, half, line->numbers + half, line->count - half);
    if (error != 0) {
        printf("nothing: %s\n", error == EINVAL ? "too long" : "another error");
    }
}

int main(void) {
    DimkhorosBoxLine line;
    uint32_t numbers[17] = {0};
    memset(&line, 0xEE, sizeof line);
    while (dimkhoros_box_hear(STDIN_FILENO, &line)) {
        print_line(&line);
        if (line.word > 0) {
            send_again(&line);
        }
    }
    printf("end: word %zu, ready %d\n", line.word, dimkhoros_box_is(&line, "ready", 0));
    printf("17 numbers %s\n", dimkhoros_box_send(STDOUT_FILENO, "x", numbers, 17, NULL, 0) == EINVAL ? "are not sent" : "go");
    printf("9 and 8 %s\n", dimkhoros_box_send(STDOUT_FILENO, "x", numbers, 9, numbers, 8) == EINVAL ? "are not sent" : "go");
    printf("closed %s\n", dimkhoros_box_send(-1, "ready", NULL, 0, NULL, 0) == EBADF ? "is told" : "is not told");
    return 0;
}
