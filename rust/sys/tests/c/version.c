/* Prints the version of the header, as a number and as text, and that of the archive. */
#include "dimkhoros.h"
#include <stdio.h>

int main(void) {
    printf("%d %s %u\n", DIMKHOROS_VERSION, DIMKHOROS_VERSION_TEXT, dimkhoros_version());
    return 0;
}
