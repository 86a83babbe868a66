/* How much stack each call of the library takes on a form: it runs on a stack of its own that is painted before, and what
 * lost its paint is counted. docs/BENCHMARK.md says how it is built. */
#include <stdio.h>
#include <string.h>
#include <ucontext.h>

#include "wnt.h"

enum { STACK = 1 << 20, PAINT = 0xa5, SLOTS = 2046, LINKS = 3070 };

static uint8_t stack[STACK];
static uint8_t form[WNT_MAX_FORM_SIZE_2], mended[WNT_MAX_FORM_SIZE_2], out[WNT_MAX_OUT_SIZE_2], list[1 << 20];
static uint8_t moved[WNT_MOVED_LIST_SIZE(WNT_MAX_ROWS_2)], apart[WNT_APART_LIST_SIZE(WNT_MAX_ROWS_2)];
static uint8_t restored[WNT_RESTORED_SIZE_2], area[WNT_MAX_OUT_SIZE_2], marked[WNT_MARKED_SIZE_2];
static wnt_note noted[WNT_NOTES_2];
static const uint8_t slot[WNT_SLOT_SIZE] = {3, 0, 0, 0, 1, 0, 0, 0, 1, 0, 0, 0};
static wnt_slot table[WNT_CHECK_SLOTS_2];
static uint16_t index_of[WNT_CHECK_LINKS_2];
static struct wnt_work_2 work;
static struct wnt_member_work_2 tables;
static size_t form_len;
static uint64_t answer;
static ucontext_t here, there;

static void resolve(void) { answer = wnt_resolve(form, form_len, out, sizeof out); }

/* The length of the resolved form that the call before left in `out`. */
static size_t out_len(void)
{
    size_t rows = out[6] + 256u * out[7];
    return out[3] == 2 ? WNT_FORM_SIZE_2(rows) : WNT_FORM_SIZE(rows);
}

static void check(void) { answer = wnt_check(form, form_len, out, out_len(), table, SLOTS, index_of, LINKS); }

static void told(void)
{
    uint32_t numbers[WNT_TOLD];
    answer = wnt_resolve_told(form, form_len, out, sizeof out, numbers, WNT_TOLD);
}

static void sheet(void)
{
    uint8_t answers[WNT_ANSWER_SIZE];
    answer = wnt_sheet(form, form_len, out, out_len(), slot, sizeof slot, answers, sizeof answers, area, sizeof area);
}

static void sheet_with(void)
{
    uint8_t answers[WNT_ANSWER_SIZE];
    answer = wnt_sheet_with(form, form_len, out, out_len(), slot, sizeof slot, answers, sizeof answers, area, sizeof area,
                            WNT_LENT(&work));
}

static void unresolve(void)
{
    answer = wnt_unresolve(out, out_len(), list, sizeof list, restored, sizeof restored, area, sizeof area);
}

static void unresolve_with(void)
{
    answer = wnt_unresolve_with(out, out_len(), list, sizeof list, restored, sizeof restored, area, sizeof area, noted,
                                WNT_NOTES_2, WNT_LENT(&work));
}

static void share(void) { answer = wnt_share(form, form_len, out, sizeof out, table, SLOTS, index_of, LINKS); }

static void share_with(void)
{
    answer = wnt_share_with(form, form_len, out, sizeof out, marked, sizeof marked, table, WNT_CHECK_SLOTS_2, index_of,
                            WNT_CHECK_LINKS_2, WNT_LENT(&work));
}

static void list_moved(void)
{
    answer = wnt_moved(form, form_len, out, sizeof out, moved, sizeof moved, apart, sizeof apart);
}

static void list_moved_with(void)
{
    answer = wnt_moved_with(form, form_len, out, sizeof out, moved, sizeof moved, apart, sizeof apart, WNT_LENT(&work));
}

static void resolve_with(void) { answer = wnt_resolve_with(form, form_len, out, sizeof out, WNT_LENT(&work)); }

static void check_with(void)
{
    answer = wnt_check_with(form, form_len, out, out_len(), table, WNT_CHECK_SLOTS_2, index_of, WNT_CHECK_LINKS_2,
                            WNT_LENT(&work));
}

static void mend(void)
{
    memcpy(mended, form, sizeof mended);
    answer = wnt_mend(mended, sizeof mended, form_len, list, sizeof list);
}

static void compare(void) { answer = wnt_compare(form, form_len, form, form_len, 0, list, sizeof list); }

static void convert(void) { answer = wnt_convert(form, form_len, 2, list, sizeof list); }

static void meant(void) { answer = wnt_meant(form, form_len, form, form_len, 5); }

/* The form is its own prelude and member. */
static void member(void)
{
    answer = wnt_member(form, form_len, form, form_len, list, sizeof list, out, WNT_MEMBER_WORK);
}

static void member_with(void)
{
    answer = wnt_member_with(form, form_len, form, form_len, list, sizeof list, area, sizeof area, WNT_LENT(&tables));
}

static void batch(void)
{
    uint32_t length = (uint32_t)form_len;
    uint8_t answers[WNT_MEMBER_ANSWER_SIZE];
    answer = wnt_batch(form, form_len, form, form_len, &length, 1, out, sizeof out, list, sizeof list, answers, sizeof answers);
}

static void batch_with(void)
{
    uint32_t length = (uint32_t)form_len;
    uint8_t answers[WNT_MEMBER_ANSWER_SIZE];
    answer = wnt_batch_with(form, form_len, form, form_len, &length, 1, out, sizeof out, list, sizeof list, answers,
                            sizeof answers, WNT_LENT(&tables));
}

/* In an order in which `out` has the resolved form of the form where a call reads it. */
static const struct {
    const char *name;
    void (*call)(void);
} calls[] = {
    {"wnt_resolve", resolve},
    {"wnt_resolve_told", told},
    {"wnt_check", check},
    {"wnt_sheet", sheet},
    {"wnt_unresolve", unresolve},
    {"wnt_moved", list_moved},
    {"wnt_resolve_with", resolve_with},
    {"wnt_check_with", check_with},
    {"wnt_sheet_with", sheet_with},
    {"wnt_unresolve_with", unresolve_with},
    {"wnt_moved_with", list_moved_with},
    {"wnt_mend", mend},
    {"wnt_compare", compare},
    {"wnt_convert", convert},
    {"wnt_meant", meant},
    {"wnt_member", member},
    {"wnt_member_with", member_with},
    {"wnt_batch", batch},
    {"wnt_batch_with", batch_with},
    {"wnt_share", share},
    {"wnt_share_with", share_with},
};

/* The bytes of the stack that were touched by one call. */
static size_t touched(void (*call)(void))
{
    size_t untouched = 0;
    memset(stack, PAINT, sizeof stack);
    getcontext(&there);
    there.uc_stack.ss_sp = stack;
    there.uc_stack.ss_size = sizeof stack;
    there.uc_link = &here;
    makecontext(&there, call, 0);
    swapcontext(&here, &there);
    while (untouched < sizeof stack && stack[untouched] == PAINT) untouched++;
    return sizeof stack - untouched;
}

int main(int argc, char **argv)
{
    for (int i = 1; i < argc; i++) {
        FILE *file = fopen(argv[i], "rb");
        if (!file) {
            perror(argv[i]);
            return 1;
        }
        form_len = fread(form, 1, sizeof form, file);
        fclose(file);
        for (size_t k = 0; k < sizeof calls / sizeof *calls; k++) {
            size_t bytes = touched(calls[k].call);
            printf("%s: %s: number %u, place or rest %u, %zu bytes of stack\n", argv[i], calls[k].name,
                   (unsigned)(answer >> 32), (unsigned)answer, bytes);
        }
    }
    return 0;
}
