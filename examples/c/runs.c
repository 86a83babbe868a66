/* Does the runs of crates/runs_rules with the static library, and prints the lines that the proved program prints: for each run
 * its name, the refusal's number and place or 0 and the number of rows, and a sum over the output.
 * examples/README.md says how it is built and run.
 *
 * crates/runs_rules/src/main.rt has the layout of the input. */
#include <inttypes.h>
#include <stdio.h>
#include <string.h>

#include "wnt.h"

enum { NAME = 16, FILLED = 165, MOST = 1 << 20 };

static uint8_t form[MOST];
static uint8_t out[MOST];

static int take(void *bytes, size_t count)
{
    return fread(bytes, 1, count, stdin) == count;
}

/* The sum over the output. */
static uint32_t sum_of(size_t length)
{
    uint32_t sum = 0;
    for (size_t i = 0; i < length; i++) {
        sum = sum * 31 + out[i];
    }
    return sum;
}

int main(void)
{
    char name[NAME];
    uint32_t lengths[2];
    while (take(name, NAME) && take(lengths, sizeof lengths)) {
        uint64_t answer;
        if (lengths[0] > MOST || lengths[1] > MOST || !take(form, lengths[0])) {
            return 1;
        }
        memset(out, FILLED, lengths[1]);
        answer = wnt_resolve(form, lengths[0], out, lengths[1]);
        printf("%.*s %" PRIu32 " %" PRIu32 " %" PRIu32 "\n", NAME, name, WNT_NUMBER(answer), WNT_PLACE(answer), sum_of(lengths[1]));
    }
    return 0;
}
