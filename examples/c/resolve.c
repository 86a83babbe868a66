/* Resolves the form IN and prints the resolved rows, or the refusal; writes the resolved form to OUT if one is given.
 * examples/README.md says how it is built.
 *
 * The exit status is 0 if the form was resolved and everything was written, else 1. A refused form leaves OUT alone. */
#include <inttypes.h>
#include <stdio.h>

#include "wnt.h"

/* One byte more than the longest form, so that a longer file is refused by its length. */
static uint8_t form[WNT_MAX_FORM_SIZE + 1];
static uint8_t out[WNT_MAX_OUT_SIZE];

/* Reads a file into the form's buffer, as much as fits; 0 if that fails. */
static int read_form(const char *name, size_t *length)
{
    FILE *file = fopen(name, "rb");
    int failed;
    if (file == NULL) {
        return 0;
    }
    *length = fread(form, 1, sizeof form, file);
    failed = ferror(file);
    fclose(file);
    return !failed;
}

/* Writes the first bytes of the output to a file; 0 if that fails. */
static int write_out(const char *name, size_t length)
{
    FILE *file = fopen(name, "wb");
    size_t written;
    if (file == NULL) {
        return 0;
    }
    written = fwrite(out, 1, length, file);
    return fclose(file) == 0 && written == length;
}

/* A number of four bytes, little endian. */
static uint32_t number_at(const uint8_t *at)
{
    return at[0] | (uint32_t)at[1] << 8 | (uint32_t)at[2] << 16 | (uint32_t)at[3] << 24;
}

/* Prints a row as [code b e x y z]. */
static void print_row(const uint8_t *row)
{
    printf("[%d %d %d", row[0], row[1], row[2] | row[3] << 8);
    printf(" %" PRIu32 " %" PRIu32 " %" PRIu32 "]\n", number_at(row + 4), number_at(row + 8), number_at(row + 12));
}

static void print_rows(uint32_t rows)
{
    uint32_t i;
    printf("accepted: %" PRIu32 " rows\n", rows);
    for (i = 0; i < rows; i++) {
        print_row(out + WNT_FORM_SIZE(i));
    }
}

static void print_refusal(uint32_t number, uint32_t place)
{
    printf("refused %" PRIu32, number);
    if (number >= WNT_BROKEN) {
        printf(" at %s %" PRIu32, number <= WNT_DEEP ? "row" : "place", place);
    }
    printf(": %s\n", wnt_text(number));
}

/* A sentence on a file, for the exit status 1. */
static int fail(const char *name, const char *what)
{
    fprintf(stderr, "%s cannot be %s\n", name, what);
    return 1;
}

/* Resolves what was read, writes it to a file unless its name is null, and says what became of it. */
static int resolve(size_t length, const char *name)
{
    uint64_t answer = wnt_resolve(form, length, out, sizeof out);
    if (WNT_NUMBER(answer) != WNT_ACCEPTED) {
        print_refusal(WNT_NUMBER(answer), WNT_PLACE(answer));
        return 1;
    }
    if (name != NULL && !write_out(name, WNT_FORM_SIZE(WNT_ROWS(answer)))) {
        return fail(name, "written");
    }
    print_rows(WNT_ROWS(answer));
    return fflush(stdout) == 0 ? 0 : fail("standard output", "written");
}

int main(int count, char **arguments)
{
    size_t length;
    if (count < 2 || count > 3) {
        fprintf(stderr, "usage: resolve-c IN [OUT]\n");
        return 1;
    }
    if (!read_form(arguments[1], &length)) {
        return fail(arguments[1], "read");
    }
    return resolve(length, count == 3 ? arguments[2] : NULL);
}
