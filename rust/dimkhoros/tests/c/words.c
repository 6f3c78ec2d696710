/* Prints the header's version, every refusal with its name and sentence, and every pattern. */
#include "dimkhoros.h"
#include <stdio.h>

#define PRINT(name) printf("%s %d\n", #name, DIMKHOROS_##name)

static void print_refusals(void) {
#define REFUSAL(number, name, sentence) printf("%d %s %s\n", DIMKHOROS_REFUSED_##name, #name, dimkhoros_sentence(number));
    DIMKHOROS_REFUSALS(REFUSAL)
#undef REFUSAL
    printf("%s\n%s\n", dimkhoros_sentence(0), dimkhoros_sentence(UINT32_MAX));
}

int main(void) {
    printf("%s\n", DIMKHOROS_VERSION_TEXT);
    print_refusals();
    PRINT(PATTERN_ROOT);
    PRINT(PATTERN_SCHNORR);
    PRINT(PATTERN_OKAMOTO);
    PRINT(PATTERN_EQUALITY);
    PRINT(PATTERN_DIFFIE_HELLMAN);
    PRINT(PATTERN_PRODUCT);
    return 0;
}
