/*
 * Prints every short chain of conditions, one a line, each from the one before it.
 *
 *   chains
 *
 * The exit status is 0 if the list came to its end.
 */
#include <stdio.h>

#include "tergyosul.h"

/* The pieces by their numbers. */
static const char *const vocabulary[] = {
    "lamp", "sun", "time", "is", "in", "on", "off", "up", "down", "sunrise", "sunset", "level", "and", "0", "63", "64",
    "(", ")", ".", "..", "==", "+", "-"
};

int main(void)
{
    uint8_t chain[TERGYOSUL_MOST_PIECES] = {0};
    uint32_t answer[TERGYOSUL_CHAIN_WORDS] = {0};
    size_t i, count = 0;

    while (tergyosul_next_chain(chain, count, answer, TERGYOSUL_CHAIN_WORDS) == 0) {
        count = answer[TERGYOSUL_CHAIN_COUNT];
        if (count == 0) { /* none follows */
            return 0;
        }
        for (i = 0; i < count; i++) {
            chain[i] = (uint8_t)answer[TERGYOSUL_CHAIN_PIECES + i];
            printf("%s%s", i == 0 ? "" : " ", vocabulary[chain[i]]);
        }
        putchar('\n');
    }
    return 1; /* not from the start of the list, nor with an answer of this length */
}
