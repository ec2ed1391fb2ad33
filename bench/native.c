/* Calls the library on texts, and prints the milliseconds of the processor that a pass over all of them takes, after one
 * that isn't counted. The input has of each text two numbers of 32 bits, the lengths of its specifier and of itself, and
 * then both. */
#include <stdio.h>
#include <stdlib.h>
#include <string.h>
#include <time.h>

#include "modinfo.h"

enum { PASSES = 2, MOST = 64 << 20 };

static uint8_t input[MOST], answer[MOST];

int main(void)
{
    size_t end = fread(input, 1, MOST, stdin), length;
    clock_t start = 0;
    for (int pass = 0; pass < PASSES; pass++) {
        start = clock();
        for (size_t at = 0; at < end;) {
            uint32_t lengths[2];
            memcpy(lengths, input + at, sizeof lengths);
            const uint8_t *specifier = input + at + sizeof lengths, *text = specifier + lengths[0];
            modinfo_analyze_source(text, lengths[1], specifier, lengths[0], MODINFO_JAVASCRIPT, answer, MOST, &length);
            at += sizeof lengths + lengths[0] + lengths[1];
        }
    }
    printf("%.3f\n", (clock() - start) * 1000.0 / CLOCKS_PER_SEC);
    return 0;
}
