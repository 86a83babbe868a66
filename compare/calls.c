/* Calls wnt_resolve a given number of times on a form, or wnt_resolve_with on one of version 2, for a profiler to count;
 * docs/BENCHMARK.md says how it is built. */
#include "../include/wnt.h"
#include <stdio.h>
#include <stdlib.h>

static uint8_t form[WNT_MAX_FORM_SIZE_2];
static uint8_t out[WNT_MAX_OUT_SIZE_2];
static size_t form_len;
static struct wnt_work_2 work;

static uint64_t call(void) {
    if (form[3] == 2) return wnt_resolve_with(form, form_len, out, sizeof out, WNT_LENT(&work));
    return wnt_resolve(form, form_len, out, sizeof out);
}

int main(int argc, char **argv) {
    if (argc != 3) {
        fprintf(stderr, "usage: calls TIMES FORM\n");
        return 2;
    }
    FILE *file = fopen(argv[2], "rb");
    if (!file) {
        perror(argv[2]);
        return 1;
    }
    form_len = fread(form, 1, sizeof form, file);
    fclose(file);
    uint64_t answer = 0;
    for (long times = atol(argv[1]); times > 0; times--) answer = call();
    printf("number %u, place or rows %u\n", (unsigned)(answer >> 32), (unsigned)answer);
    return 0;
}
