/* Resolves the names of a WebAssembly component, given as rows, into index numbers. For C99 and C++.
 *
 * Link with the static library that `tools/staticlib` writes; besides it only the C library is needed. The contract of
 * wnt_resolve fixes the answer and the content of the output for every input; docs/RULES.md has the rules in words. */
#ifndef WNT_H
#define WNT_H

#include <stddef.h>
#include <stdint.h>

#ifdef __cplusplus
extern "C" {
#endif

/* A form is a header of 8 bytes (`WNT`, the version 1 as two bytes, the rule set 0, the row count as two bytes) and its
 * rows of 16 bytes each, 1 to 1023 of them. All numbers are little endian. */
#define WNT_HEADER_SIZE 8
#define WNT_ROW_SIZE 16
#define WNT_MAX_ROWS 1023

/* How many bytes a form of `rows` rows has. */
#define WNT_FORM_SIZE(rows) (8u + 16u * (rows))

/* How many bytes the output must have at least, if the input has `rows` rows: a resolved form has at most four times as
 * many rows as its input. */
#define WNT_OUT_SIZE(rows) (8u + 64u * (rows))

/* Buffers of these sizes hold every input and every output. */
#define WNT_MAX_FORM_SIZE 16376
#define WNT_MAX_OUT_SIZE 65480

/* The version of the library that this header belongs to, as `wnt --version` prints it. */
#define WNT_VERSION "0.2.0"

/* ---- What rows are made of. A row is `[code b e x y z]`: bytes 0, 1, 2 to 3, 4 to 7, 8 to 11 and 12 to 15. */

/* The codes of rows. */
enum wnt_row {
    WNT_ROW_FIELD = 1,
    WNT_ROW_DECL = 2,
    WNT_ROW_REF = 3,
    WNT_ROW_PATH = 4,
    WNT_ROW_OUTER = 5,
    WNT_ROW_CASE = 6,
    WNT_ROW_OPEN = 7,
    WNT_ROW_CLOSE = 8,
    WNT_ROW_EXPORT = 9
};

/* The spaces: b of DECL, REF and OUTER. */
enum wnt_space {
    WNT_SPACE_CORE_FUNC = 0,
    WNT_SPACE_CORE_GLOBAL = 1,
    WNT_SPACE_CORE_TABLE = 2,
    WNT_SPACE_CORE_MEMORY = 3,
    WNT_SPACE_CORE_TYPE = 4,
    WNT_SPACE_CORE_TAG = 5,
    WNT_SPACE_CORE_INSTANCE = 6,
    WNT_SPACE_CORE_MODULE = 7,
    WNT_SPACE_FUNC = 8,
    WNT_SPACE_TYPE = 9,
    WNT_SPACE_INSTANCE = 10,
    WNT_SPACE_COMPONENT = 11,
    WNT_SPACE_VALUE = 12
};

/* The kinds of scopes: b of OPEN. */
enum wnt_scope {
    WNT_SCOPE_COMPONENT = 0,
    WNT_SCOPE_COMPONENT_TYPE = 1,
    WNT_SCOPE_INSTANCE_TYPE = 2,
    WNT_SCOPE_MODULE_TYPE = 3
};

/* The codes of fields: b of FIELD. */
enum wnt_field {
    WNT_FIELD_CORE_MODULE = 1,
    WNT_FIELD_CORE_INSTANTIATE = 2,
    WNT_FIELD_CORE_EXPORTS = 3,
    WNT_FIELD_CORE_TYPE = 4,
    WNT_FIELD_CORE_REC = 5,
    WNT_FIELD_COMPONENT = 6,
    WNT_FIELD_INSTANTIATE = 7,
    WNT_FIELD_EXPORTS = 8,
    WNT_FIELD_ALIAS_EXPORT = 9,
    WNT_FIELD_ALIAS_CORE_EXPORT = 10,
    WNT_FIELD_ALIAS_OUTER = 11,
    WNT_FIELD_DEFINED_TYPE = 12,
    WNT_FIELD_FUNC_TYPE = 13,
    WNT_FIELD_COMPONENT_TYPE = 14,
    WNT_FIELD_INSTANCE_TYPE = 15,
    WNT_FIELD_RESOURCE_TYPE = 16,
    WNT_FIELD_CORE_MODULE_TYPE = 17,
    WNT_FIELD_LIFT = 18,
    WNT_FIELD_BUILTIN = 19,
    WNT_FIELD_START = 20,
    WNT_FIELD_IMPORT = 21,
    WNT_FIELD_EXPORT = 22,
    WNT_FIELD_EXPORT_DECLARATION = 23,
    WNT_FIELD_CORE_IMPORT_OR_EXPORT = 24,
    WNT_FIELD_CUSTOM = 25
};

/* The smallest name that an inserted field can have. The names in an input are smaller: 1 to 2147483647. */
#define WNT_FIRST_FRESH 2147483648u

/* ---- Answers. */

/* The numbers of the answers, and the place of each refusal. A row is counted from 0; z is a row's last part, which the
 * caller chose. 1, 2 and 3 are tested in this order, then 4 and 5 row by row, then 6 to 13 as the steps of the rules
 * meet them. */
enum wnt_number {
    /* Resolved. The lower half is the number of rows written. */
    WNT_ACCEPTED = 0,
    /* Fewer than 8 bytes, or bytes 0 to 5 are not those of the header. Place: 0. */
    WNT_HEADER = 1,
    /* The row count is 0 or above 1023, or the length is not WNT_FORM_SIZE of it. Place: 0. */
    WNT_ROW_COUNT = 2,
    /* The output is shorter than WNT_OUT_SIZE of the row count. Place: 0. */
    WNT_ROOM = 3,
    /* A row breaks the form. Place: the row, or the row count if the form ends early. */
    WNT_BROKEN = 4,
    /* A scope is opened while 32 are open. Place: the row. */
    WNT_DEEP = 5,
    /* A name is declared twice in one space of one scope. Place: z of the second declaration. */
    WNT_DUPLICATE_NAME = 6,
    /* A path to a core type or a core instance. Place: z of the reference. */
    WNT_NOT_EXPORTED = 7,
    /* The name means something in a scope further out, and it is not a core module, core type, type or component. Place:
     * z of the reference. */
    WNT_NOT_OUTER = 8,
    /* No scope in which the name is looked up declares it. Place: z of the reference or outer alias. */
    WNT_UNKNOWN_NAME = 9,
    /* No open scope has the name of the outer scope. Place: z of the field. */
    WNT_UNKNOWN_SCOPE = 10,
    /* The outer count is not below the number of open scopes. Place: z of the field. */
    WNT_COUNT_TOO_LARGE = 11,
    /* An earlier case of the field has that name. Place: z of the second case. */
    WNT_DUPLICATE_CASE = 12,
    /* Only under rule set 1: no earlier field declares the name. Place: z of the reference or outer alias. */
    WNT_NOT_EARLIER = 13,
    /* Only from wnt_unresolve and wnt_unresolve_with: no input has these bytes as its output. Place: 0. */
    WNT_NO_INPUT = 14
};

/* What a refusal means, by its number. The program `wnt` prints the same words for the refusals that it gives. */
static inline const char *wnt_text(uint32_t number)
{
    switch (number) {
    case WNT_ACCEPTED: return "accepted";
    case WNT_HEADER: return "this is no form: it does not begin with WNT and version 1";
    case WNT_ROW_COUNT: return "the row count is 0 or above 1023, or the length is not 8 + 16 x rows";
    case WNT_ROOM: return "the output buffer is too short";
    case WNT_BROKEN: return "this row cannot stand here: no form begins with the rows up to it";
    case WNT_DEEP: return "a scope is opened while 32 are open";
    case WNT_DUPLICATE_NAME: return "a name is declared twice";
    case WNT_NOT_EXPORTED: return "a core instance has no such export";
    case WNT_NOT_OUTER: return "the name means something of a scope further out that cannot be had from there";
    case WNT_UNKNOWN_NAME: return "an unknown name";
    case WNT_UNKNOWN_SCOPE: return "no open scope has the name of the outer scope";
    case WNT_COUNT_TOO_LARGE: return "the outer count is not below the number of open scopes";
    case WNT_DUPLICATE_CASE: return "an earlier case of this field has that name";
    case WNT_NOT_EARLIER: return "no earlier field declares that name";
    default: return "no refusal has that number";
    }
}

/* This much stack is enough for any call. Measured on x86-64 (compare/stack.c) at the driver of the examples and at 32 open
 * scopes: wnt_resolve 67,216 and 96,804 bytes, wnt_resolve_told 67,248 and 96,836, wnt_moved 67,296 and 96,884, wnt_sheet
 * 67,328 and 96,916, wnt_check 67,344 and 96,932, wnt_share 116,576 and 146,164, wnt_unresolve 128,520 and 158,180,
 * wnt_mend 5,783, wnt_compare 5,832, wnt_convert 5,688, wnt_meant 896; at the driver in itself and at 31 open scopes
 * wnt_member 155,248 and 183,844, wnt_batch 96,520 and 124,356. The functions whose tables are lent take 7,288 to 13,944
 * bytes at the driver, and at the 64 scopes of version 2 at most 70,916. How many rows a form has makes no difference. */
#define WNT_STACK_SIZE 196608

/* The answer's upper half: one of the numbers above. */
#define WNT_NUMBER(answer) ((uint32_t)((answer) >> 32))

/* The answer's lower half after a refusal: its place. */
#define WNT_PLACE(answer) ((uint32_t)((answer) & 0xffffffffu))

/* The answer's lower half after acceptance: the number of rows written. */
#define WNT_ROWS(answer) ((uint32_t)((answer) & 0xffffffffu))

/* Resolves the form into `out`. The answer's upper half is one of the numbers above, its lower half a place or a number
 * of rows.
 *
 * What `out` holds afterwards:
 *
 *   answer     its first WNT_OUT_SIZE(rows of the form) bytes    its other bytes
 *   1 to 5     unchanged                                         unchanged
 *   6 to 12    zero                                              unchanged
 *   accepted   WNT_FORM_SIZE(WNT_ROWS(answer)) bytes are the     unchanged
 *              resolved form, and those after it are zero
 *
 * The two buffers must not overlap, and nothing else may write to them, or read `out`, while the call lasts. A pointer
 * may be null only if its length is 0: an empty form is refusal 1, and an empty output is refusal 3 unless 1 or 2 comes
 * first. The form is only read. Nothing is allocated and nothing is kept from one call to the next: calls from several
 * threads are safe if no call's `out` overlaps a buffer of another; they may share a form. */
uint64_t wnt_resolve(const uint8_t *form, size_t form_len, uint8_t *out, size_t out_len);

/* ---- Larger forms.
 *
 * A form of version 2 is a header of 16 bytes (`WNT`, the version 2 as two bytes, the rule set, the row count as four
 * bytes, six zeros) and 1 to 16383 rows like those of version 1; 64 scopes may be open in it. wnt_resolve takes only version
 * 1 and answers refusal 1 to any other header. wnt_resolve_with takes both, and for version 2 the refusals above mean: 1
 * there are fewer than 16 bytes, or bytes 0 to 5 or 10 to 15 are wrong; 2 the row count is 0 or above 16383, or the length
 * is not WNT_FORM_SIZE_2 of it; 3 the output is shorter than WNT_OUT_SIZE_2 of it; 5 a scope is opened while 64 are open.
 *
 * The rule set of version 1 is 0. That of version 2 is 0 or 1; 1 is the rule set of the newer tools: there a heap type is a
 * core type, and a name may mean only what an earlier field declares, else it is refusal 13 (docs/RULES.md, Rule set 1).
 *
 * Each function below whose name ends in `_with` takes version 1 and version 2 under either rule set, and works in areas
 * that the caller lends; their sizes depend on the version alone. The function without `_with` takes only version 1, and
 * for version 1 both give the same answer and leave the same bytes. */
#define WNT_HEADER_SIZE_2 16
#define WNT_MAX_ROWS_2 16383
#define WNT_FORM_SIZE_2(rows) (16u + 16u * (rows))
#define WNT_OUT_SIZE_2(rows) (16u + 64u * (rows))
#define WNT_MAX_FORM_SIZE_2 262144
#define WNT_MAX_OUT_SIZE_2 1048528

/* The sizes of the working areas lent to wnt_resolve_with, for each version of the form: two tables of slots, an index for
 * each, and the ends of fields, all counted in elements. Areas for version 2 are large enough for version 1 too. */
typedef uint32_t wnt_slot[6];
#define WNT_SLOTS_1 1024
#define WNT_LINKS_1 2048
#define WNT_SLOTS_2 16384
#define WNT_LINKS_2 32768

/* All areas for a version in one piece: 61440 bytes for version 1, 983040 for version 2. Either may be too large for the
 * stack of a thread, so make it static or allocate it; it need not be zeroed before the first call. */
struct wnt_work_1 {
    wnt_slot entered[WNT_SLOTS_1], names[WNT_SLOTS_1];
    uint32_t ends[WNT_SLOTS_1];
    uint16_t known[WNT_LINKS_1], chains[WNT_LINKS_1];
};
struct wnt_work_2 {
    wnt_slot entered[WNT_SLOTS_2], names[WNT_SLOTS_2];
    uint32_t ends[WNT_SLOTS_2];
    uint16_t known[WNT_LINKS_2], chains[WNT_LINKS_2];
};

/* The last ten arguments of wnt_resolve_with, taken from a pointer to one of these. */
#define WNT_LENT(work)                                                                                                  \
    (work)->entered, sizeof (work)->entered / sizeof(wnt_slot), (work)->names, sizeof (work)->names / sizeof(wnt_slot), \
        (work)->known, sizeof (work)->known / 2, (work)->chains, sizeof (work)->chains / 2, (work)->ends,               \
        sizeof (work)->ends / 4

/* Resolves a form of version 1 or 2 into `out`, which then has the form's version, in working areas that are lent:
 *
 *     static struct wnt_work_2 work;
 *     uint64_t answer = wnt_resolve_with(form, form_len, out, out_len, WNT_LENT(&work));
 *
 * The answer, and what `out` holds afterwards, are as for wnt_resolve, with the limits of the form's version and under its
 * rule set, which `out` repeats; refusal 13 leaves `out` as 6 to 12 do. An area with fewer elements than its size for that
 * version is refusal 3, like an output that is too short. What the areas hold before the call does not matter. After every
 * return, also after a refusal, each is zero up to its size for the form's version, or to its end if it is shorter, and
 * unchanged beyond. For these sizes a form whose header is wrong counts as version 1. No area may overlap
 * another buffer. A call takes less than 72 KiB of stack. */
uint64_t wnt_resolve_with(const uint8_t *form, size_t form_len, uint8_t *out, size_t out_len, wnt_slot *entered,
                          size_t entered_len, wnt_slot *names, size_t names_len, uint16_t *known, size_t known_len,
                          uint16_t *chains, size_t chains_len, uint32_t *ends, size_t ends_len);

/* Writes a form to the front of `out` as a form of `version`, 1 or 2: the same rows behind the header of that version. The
 * meaning stays: both are resolved to the same rows, or refused alike. A form that has that version already is copied.
 * Every form of version 1 can be written in version 2. One of version 2 can be written in version 1 if it is within version
 * 1's limits and has rule set 0. The answer's upper half is 0 and its lower half the number of rows; or it is a refusal, and
 * then `out` is unchanged. The refusals, in this order:
 *
 *   1        the header is wrong, or `version` is neither 1 nor 2
 *   2, 3     the form's own row count or length is wrong; `out` has no room for the converted form
 *   4, 5     a row breaks the form, or opens one scope too many for its own version; the place is the row
 *   1, 2, 5  version 1 lacks the form's rule set, or does not allow as many rows, or as many open scopes
 *
 * A form of version 2 with 1 in byte 5, the rule set of the newer tools, is taken as well and keeps it. The two buffers must
 * not overlap; everything else is as said of wnt_resolve. */
uint64_t wnt_convert(const uint8_t *form, size_t form_len, uint32_t version, uint8_t *out, size_t out_len);
/* How many numbers wnt_resolve_told tells, and where each stands: the space of the name (0 to 12, after refusals 6, 8 and 9;
 * after 9 at a path it is the space of the path's instance), and the place of the name's first declaration (after 6). */
#define WNT_TOLD 2
#define WNT_TOLD_SPACE 0
#define WNT_TOLD_FIRST 1

/* Does the same as wnt_resolve, and also tells what a refusal is about: the first WNT_TOLD numbers of `told` are then those
 * named above, each 0 where the answer has no such number. Later ones never change. If `told_len` is below WNT_TOLD, the
 * answer is the one for an output of 0 bytes (1, 2 or 3), and `out` and `told` are unchanged.
 *
 * The three buffers must not overlap; everything else is as said of wnt_resolve. */
uint64_t wnt_resolve_told(const uint8_t *form, size_t form_len, uint8_t *out, size_t out_len, uint32_t *told,
                          size_t told_len);
/* The sizes of the working areas of wnt_unresolve, in bytes. */
#define WNT_RESTORED_SIZE WNT_MAX_FORM_SIZE
#define WNT_AGAIN_SIZE WNT_MAX_OUT_SIZE

/* Gives an input back for a resolved form: its inserted aliases are left out, and the references that they served are names
 * and paths again; every other number stays. The input is written to the front of `out`, and wnt_resolve turns it into the
 * very bytes of `form`. It succeeds exactly if such an input exists; where there are several it always gives the same one.
 *
 * On success the answer's upper half is 0 and its lower half the number of rows of the input: WNT_FORM_SIZE of that number
 * is how many bytes are written, and later bytes of `out` are unchanged. A refusal has place 0 and leaves all of `out`
 * unchanged. The refusals come in this order:
 *
 *   3        `restored` has fewer than WNT_RESTORED_SIZE bytes, or `again` fewer than WNT_AGAIN_SIZE
 *   14       no input has the bytes of `form` as its output; they may be any bytes
 *   3        the input is longer than `out`
 *
 * The two areas may hold anything. After every return they are zero up to those sizes, or to their ends if they are
 * shorter, and later bytes are unchanged. No two buffers may overlap; everything else is as said of wnt_resolve. */
uint64_t wnt_unresolve(const uint8_t *form, size_t form_len, uint8_t *out, size_t out_len, uint8_t *restored,
                       size_t restored_len, uint8_t *again, size_t again_len);

/* The sizes of the three areas that wnt_unresolve_with needs besides those of wnt_resolve_with, for each version: bytes for
 * `restored` and `again`, and one note for each row of the longest resolved form; a note is two numbers of four bytes. All
 * eight areas together have 176,032 bytes for version 1 and 2,817,968 for version 2. */
typedef uint32_t wnt_note[2];
#define WNT_RESTORED_SIZE_2 WNT_MAX_FORM_SIZE_2
#define WNT_AGAIN_SIZE_2 WNT_MAX_OUT_SIZE_2
#define WNT_NOTES 4092
#define WNT_NOTES_2 65532

/* The same for a resolved form of version 1 or 2 under either rule set: wnt_resolve_with turns the input into the very bytes
 * of `form`, and as many bytes are written as WNT_FORM_SIZE or WNT_FORM_SIZE_2 gives for its rows. The first refusal 3 above
 * then means that one of the eight areas is smaller than its size for the form's version. After every return all of them are
 * zero up to these sizes, or to their ends if they are shorter, and unchanged beyond. For these sizes a form whose
 * header is wrong counts as version 1:
 *
 *     wnt_unresolve_with(form, form_len, out, out_len, restored, WNT_RESTORED_SIZE_2, again, WNT_AGAIN_SIZE_2, noted,
 *                        WNT_NOTES_2, WNT_LENT(&work)) */
uint64_t wnt_unresolve_with(const uint8_t *form, size_t form_len, uint8_t *out, size_t out_len, uint8_t *restored,
                            size_t restored_len, uint8_t *again, size_t again_len, wnt_note *noted, size_t noted_len,
                            wnt_slot *entered, size_t entered_len, wnt_slot *names, size_t names_len, uint16_t *known,
                            size_t known_len, uint16_t *chains, size_t chains_len, uint32_t *ends, size_t ends_len);

/* Mends the form in the first `length` bytes of `buffer`, of either version and rule set; the other bytes of `buffer` are
 * room for added rows, and no working area is needed. A part row is dropped, rows after the root's CLOSE are cut, missing
 * CLOSE rows are added at the end, the row count is set to the rows that there are, and what must be zero is zeroed.
 * Nothing else changes. The answer's upper half is 0 and its lower half the number of changes, which is 0 for a sound form;
 * or it is a refusal, and then nothing is written:
 *
 *   1        bytes 0 to 4 are not those of a header, or `length` is below the length of that header (8, or 16 for version
 *            2), or byte 5 of version 2 is not a rule set; byte 5 of version 1 is zeroed
 *   2        `length` is above `buffer_len`, or the mended form would have no row, or more rows than its version allows
 *   3        `buffer` has no room for the mended form, or `list` has no room for the list
 *   4, 5     the mended form would still be refused with that number; the place is a row of it
 *
 * Afterwards `buffer` begins with the mended form; its length follows from its header. If it is shorter than `length`, the
 * bytes from its end up to `length` are zero; bytes behind the longer of the two never change. `list` begins with the
 * changes, in the form's order. Each is three little-endian uint32_t and then bytes: the offset in the mended form, how many
 * bytes stood there before, how many stand there now, and the bytes that stood there before, padded with zeros to a multiple
 * of four. Taking the changes back from the first to the last gives the old bytes. Later bytes of `list` never change.
 *
 * The two buffers must not overlap; everything else is as said of wnt_resolve. */
uint64_t wnt_mend(uint8_t *buffer, size_t buffer_len, size_t length, uint8_t *list, size_t list_len);

/* The answer's lower half after mending: the number of changes made. */
#define WNT_CHANGES(answer) ((uint32_t)((answer) & 0xffffffffu))

/* The bits of the argument `choice` of wnt_compare. With the first, places (z of every row) do not count. With the second,
 * all fresh names (those from 2147483648 up, which inserted fields have) count as the same. Higher bits are ignored. */
#define WNT_IGNORE_PLACES 1u
#define WNT_IGNORE_FRESH 2u

/* The kinds of an entry of a list. */
enum wnt_kind {
    /* The roots' OPEN rows differ. */
    WNT_OPENING = 1,
    /* A field of the root is only in the left. */
    WNT_LEFT_ONLY = 2,
    /* A field of the root is only in the right. */
    WNT_RIGHT_ONLY = 3,
    /* One field is left over on each side, both have the same code, and they differ. */
    WNT_DIFFERING = 4
};

/* The bytes of an entry before the right's rows: five little endian numbers of four bytes. They are the kind, the first
 * row in the left and the number of rows there, the first row in the right and the number of rows there. Where a side has
 * no rows, its number is 0 and its row is the one before which they are missing. The rows of the right follow, 16 bytes
 * each. */
#define WNT_ENTRY_SIZE 20

/* The answer's lower half after a comparison: the bytes of the list. */
#define WNT_LIST_SIZE(answer) ((uint32_t)((answer) & 0xffffffffu))

/* Compares two resolved forms: `list` then holds what differs, one entry after another, and is unchanged beyond them. The
 * list is empty exactly if the forms are equal in everything that the choice lets count; applied to the left, entry by
 * entry, it gives the right.
 *
 * A resolved form may have names up to 4294967295 and 4092 rows. The left's refusals 1, 2, 4 and 5 come first, then 1 if
 * the header of the right differs in more than the row count, then the right's 2, 4 and 5, then 3 if there is no room for
 * the list. A refusal leaves `list` unchanged. What is said of wnt_resolve about buffers and threads holds here too; `left`
 * and `right` may overlap or be the same. */
uint64_t wnt_compare(const uint8_t *left, size_t left_len, const uint8_t *right, size_t right_len, uint32_t choice,
                     uint8_t *list, size_t list_len);

/* The sizes of the two working areas of wnt_check, for an input of version 1: slots of six numbers of four bytes each, and
 * numbers of two bytes. Together they have 55,244 bytes. Those for version 2 are only for wnt_check_with and wnt_share_with,
 * and have 853,964 bytes. */
#define WNT_CHECK_SLOTS 2046
#define WNT_CHECK_LINKS 3070
#define WNT_CHECK_SLOTS_2 32766
#define WNT_CHECK_LINKS_2 33790

/* The upper half of the answer of wnt_check where the claim is not a resolved form of the input. */
enum wnt_condition {
    /* It is not a form of the input's version, though names from 2147483648 up and 4092 rows are allowed. Row: 0 for the
     * header, else the place of refusal 4 or 5. */
    WNT_NO_FORM = 101,
    /* It has a PATH row; or, its added fields (those with a DECL name from 2147483648 up) left out, it differs from the
     * input in more than PATH rows and the operands of REF and OUTER. */
    WNT_NO_ROWS = 102,
    /* An added field is not an alias, or its name is not new in its scope and space, or its operand is a name. */
    WNT_NO_ALIAS = 103,
    /* An operand of the input is not the number that it must be. Row: that of the operand in the claim, also where the
     * fault is in the alias that it reaches. */
    WNT_NO_NUMBER = 104
};

/* The answer's lower half after a no: the first claimed row that breaks the condition. */
#define WNT_CLAIMED_ROW(answer) ((uint32_t)((answer) & 0xffffffffu))

/* Says whether `claim` is a resolved form of `form`, whoever wrote it: the writer chooses where inserted aliases stand,
 * which references share them, whether some are unused, and what fresh names they have. The answer is 0 for yes. For no it
 * is one of the numbers above, the first of them that is true, with the first row of the claim that breaks that condition.
 * If wnt_resolve refuses the form, the answer is that refusal, where 3 means that `table` has fewer slots or `index` fewer
 * numbers than said above.
 *
 * The areas may hold anything. After every return both are zero up to these sizes, or to their ends if they are shorter,
 * and unchanged beyond. `table_len` counts slots and `index_len` numbers. The areas must not overlap any other buffer;
 * `form` and `claim` may be the same, and everything else is as said of wnt_resolve. */
uint64_t wnt_check(const uint8_t *form, size_t form_len, const uint8_t *claim, size_t claim_len, wnt_slot *table,
                   size_t table_len, uint16_t *index, size_t index_len);

/* The same for an input of version 1 or 2 under either rule set. The claim's header must equal the input's in all but the
 * row count (else WNT_NO_FORM, row 0). Under rule set 1 the input's refusals are those of wnt_resolve_with, 13 among them, and
 * the claim must be a form of that rule set; neither rule set asks that its aliases stand before what uses them. `table` and
 * `index` have the sizes for the input's version; the areas of wnt_resolve_with are lent too, for the steps on the input. An
 * area that is too small is refusal 3 as above, and after every return all seven are zero up to their sizes for that version.
 * For these sizes a form whose header is wrong counts as version 1:
 *
 *     wnt_check_with(form, form_len, claim, claim_len, table, WNT_CHECK_SLOTS_2, index, WNT_CHECK_LINKS_2,
 *                    WNT_LENT(&work)) */
uint64_t wnt_check_with(const uint8_t *form, size_t form_len, const uint8_t *claim, size_t claim_len, wnt_slot *table,
                        size_t table_len, uint16_t *index, size_t index_len, wnt_slot *entered, size_t entered_len,
                        wnt_slot *names, size_t names_len, uint16_t *known, size_t known_len, uint16_t *chains,
                        size_t chains_len, uint32_t *ends, size_t ends_len);

/* Resolves a form of version 1 into `out` with fewer aliases: in each scope references to the same outer declaration share
 * one inserted alias, which stands before the first field that needs it. References with PATHs share none, and written
 * numbers keep their digits. wnt_check says yes to the result, which has no more rows than what wnt_resolve writes.
 *
 * The refusals, and what `out` holds afterwards, are as for wnt_resolve, except that the form written, and the number of
 * rows answered, are those with shared aliases. `table` and `index` are the areas of wnt_check: one that is smaller than
 * said there is refusal 3, like an output that is too short, and after every return they hold what is said there. */
uint64_t wnt_share(const uint8_t *form, size_t form_len, uint8_t *out, size_t out_len, wnt_slot *table, size_t table_len,
                   uint16_t *index, size_t index_len);

/* The bytes of the area of wnt_share_with in which the form's rows are marked, for each version. All its areas together have
 * 133,052 bytes for version 1 and 2,099,132 for version 2. */
#define WNT_MARKED_SIZE 16368
#define WNT_MARKED_SIZE_2 262128

/* The same for a form of version 1 or 2 under either rule set: wnt_check_with says yes to the result, and the refusals, and
 * what `out` holds afterwards, are as for wnt_resolve_with. `marked` has the size said above, `table` and `index` those of
 * wnt_check_with, and the areas of wnt_resolve_with are lent too. One that is smaller than its size for the form's version is
 * refusal 3, like an output that is too short. After every return all eight are zero up to these sizes, or to their ends if
 * they are shorter, and unchanged beyond. For these sizes a form whose header is wrong counts as version 1:
 *
 *     wnt_share_with(form, form_len, out, out_len, marked, WNT_MARKED_SIZE_2, table, WNT_CHECK_SLOTS_2, index,
 *                    WNT_CHECK_LINKS_2, WNT_LENT(&work)) */
uint64_t wnt_share_with(const uint8_t *form, size_t form_len, uint8_t *out, size_t out_len, uint8_t *marked,
                        size_t marked_len, wnt_slot *table, size_t table_len, uint16_t *index, size_t index_len,
                        wnt_slot *entered, size_t entered_len, wnt_slot *names, size_t names_len, uint16_t *known,
                        size_t known_len, uint16_t *chains, size_t chains_len, uint32_t *ends, size_t ends_len);

/* A binding sheet: what each reference of a driver must mean, written down once. It has up to 200 slots. A slot is three
 * little endian numbers of four bytes: the meter family (which the caller chooses), the place of a reference, and the name
 * of the declaration that it must mean, which is not 0. An answer is two such numbers: one of the kinds below, and a row or
 * 0. */
#define WNT_SLOT_SIZE 12
#define WNT_MAX_SLOTS 200
#define WNT_ANSWER_SIZE 8

/* The bytes of the working area of wnt_sheet. */
#define WNT_SHEET_AREA_SIZE 65480

enum wnt_binding {
    /* One REF of the form is at the place, and in the resolved form it reaches a declaration of the slot's name. */
    WNT_AS_WRITTEN = 0,
    /* It reaches another declaration, at the row of the resolved form that the answer gives; row 0: it reaches nothing. */
    WNT_ELSEWHERE = 1,
    /* No REF of the form is at the place, or several are. */
    WNT_NO_REFERENCE = 2,
    WNT_SEVERAL = 3
};

/* A number that the upper half of the answer of wnt_sheet can have besides 0 and 3; the place is 0. */
#define WNT_NOT_ITS_SHEET 15

/* Answers each slot of `sheet`, in order, in 8 bytes at the front of `answers`: by what the references of `form` reach in
 * `resolved`, which must be the very bytes that wnt_resolve writes for `form`. A reference is followed through an inserted
 * outer alias, not through an original one; one with PATHs reaches its inserted export alias, whose name is not one of the
 * form. The answer's lower half is the number of slots that are not bound as written: the sheet passes if it is 0.
 *
 * Refusals, in this order: 15 if `sheet` is not a sheet (its length is not a multiple of 12, or above 2400 bytes, or a slot
 * has name 0); 3 if `work` is shorter than WNT_SHEET_AREA_SIZE; 15 if `form` is refused or `resolved` is not its resolved
 * form; 3 if `answers` is shorter than 8 bytes for each slot. A refusal leaves `answers` unchanged, and bytes beyond the
 * answers never change.
 *
 * `work` may hold anything. After every return it is zero up to that size, or to its end if it is shorter, and unchanged
 * beyond. `answers` and `work` must not overlap any other buffer; everything else is as said of wnt_resolve. */
uint64_t wnt_sheet(const uint8_t *form, size_t form_len, const uint8_t *resolved, size_t resolved_len,
                   const uint8_t *sheet, size_t sheet_len, uint8_t *answers, size_t answers_len, uint8_t *work,
                   size_t work_len);

/* The same for forms of version 1 or 2 under either rule set, in the working areas of wnt_resolve_with and `work`, which must
 * be as long as the longest output of the form's version: WNT_SHEET_AREA_SIZE, or WNT_MAX_OUT_SIZE_2. An area that is too
 * small is refusal 3, where it would be for a `work` that is too small in the order above, and after every return all of them
 * are zero up to their sizes for that version. For these sizes a form whose header is wrong counts as version 1. */
uint64_t wnt_sheet_with(const uint8_t *form, size_t form_len, const uint8_t *resolved, size_t resolved_len,
                        const uint8_t *sheet, size_t sheet_len, uint8_t *answers, size_t answers_len, uint8_t *work,
                        size_t work_len, wnt_slot *entered, size_t entered_len, wnt_slot *names, size_t names_len,
                        uint16_t *known, size_t known_len, uint16_t *chains, size_t chains_len, uint32_t *ends,
                        size_t ends_len);

/* The bytes of an entry in each of the two lists of wnt_moved, and of each list for a form of `rows` rows. An entry of the
 * first is four little endian numbers of four bytes: the place, the space, the row of the form that declares what the number
 * meant, and the row of the resolved form that declares what it means there. An entry of the second is three: the place, the
 * space, the number. With PATHs the number and the space are those of the instance where the path begins. */
#define WNT_MOVED_SIZE 16
#define WNT_APART_SIZE 12
#define WNT_MOVED_LIST_SIZE(rows) (16u * (rows))
#define WNT_APART_LIST_SIZE(rows) (12u * (rows))

/* The two parts of the answer's lower half after acceptance: how many entries each list has. */
#define WNT_MOVED(answer) ((uint32_t)((answer) & 0xffffu))
#define WNT_APART(answer) ((uint32_t)(((answer) >> 16) & 0xffffu))

/* Resolves the form into `out` as wnt_resolve does, and lists numbers that were written in references and outer aliases: in
 * `moved` those that mean another declaration in the resolved form than they did in the form, because inserted aliases come
 * before what they meant; in `apart` those that counted to no declaration. Each list is in the order of the form's rows.
 *
 * The refusals are those of wnt_resolve; it is 3 also where `moved` is shorter than WNT_MOVED_LIST_SIZE of the row count, or
 * `apart` shorter than WNT_APART_LIST_SIZE of it. A refusal leaves both lists unchanged, and `out` as wnt_resolve leaves it;
 * one because a list is too short leaves `out` unchanged. After acceptance the first bytes of each list, up to that size, are
 * the entries and then zeros; bytes beyond never change. No two of the four buffers may overlap; everything else is as said
 * of wnt_resolve. */
uint64_t wnt_moved(const uint8_t *form, size_t form_len, uint8_t *out, size_t out_len, uint8_t *moved, size_t moved_len,
                   uint8_t *apart, size_t apart_len);

/* The same for a form of version 1 or 2 under either rule set, in the working areas of wnt_resolve_with; `out` is as long as
 * that function asks for the form's version. An area that is too small is refusal 3, and after every return, also after a
 * refusal, the areas are zero up to their sizes for that version, as after wnt_resolve_with:
 *
 *     wnt_moved_with(form, form_len, out, out_len, moved, moved_len, apart, apart_len, WNT_LENT(&work)) */
uint64_t wnt_moved_with(const uint8_t *form, size_t form_len, uint8_t *out, size_t out_len, uint8_t *moved,
                        size_t moved_len, uint8_t *apart, size_t apart_len, wnt_slot *entered, size_t entered_len,
                        wnt_slot *names, size_t names_len, uint16_t *known, size_t known_len, uint16_t *chains,
                        size_t chains_len, uint32_t *ends, size_t ends_len);

/* The bytes of the working area of wnt_member: enough for the output of a prelude with as many rows as a form may have. */
#define WNT_MEMBER_WORK 65480

/* What is added to the number of a prelude's refusal, so that it can be told from a refusal of the member. */
#define WNT_OF_PRELUDE 200u

/* Resolves a member into `out` as if its root lay inside the root of the resolved prelude. Names are looked for in that
 * root too, after the member's own scopes; outer counts have one scope more to count; fresh names start again from the
 * first; and the member may have 31 scopes open, its root included. The answer and what is written depend on nothing but the
 * prelude, the member and the length of `out`.
 *
 * Both are inputs of version 1. If the prelude is refused, the answer is its number plus WNT_OF_PRELUDE with its place, and
 * `out` is unchanged. A working area that is too short counts as the prelude's refusal 3, after its 1 and 2. A member of
 * another version is refused with 1. Otherwise `out` and the answer are as for wnt_resolve.
 *
 * After every return the first WNT_MEMBER_WORK bytes of `work`, or all if there are fewer, are zero, and later ones are
 * unchanged. The buffers must not overlap. */
uint64_t wnt_member(const uint8_t *prelude, size_t prelude_len, const uint8_t *member, size_t member_len, uint8_t *out,
                    size_t out_len, uint8_t *work, size_t work_len);

/* The bytes of `work` of wnt_member_with for a prelude of version 2. For a prelude of version 1 they are WNT_MEMBER_WORK. */
#define WNT_MEMBER_WORK_2 WNT_MAX_OUT_SIZE_2

/* The tables of wnt_member_with and wnt_batch_with, in one piece for each version. They are those of wnt_resolve_with, except
 * that `names` has twice as many slots, since the prelude's root is in it too, and `chains`, its index, has one and a half
 * times as many numbers. They have 88,064 bytes for version 1 and 1,409,024 for version 2. WNT_LENT gives the last ten
 * arguments from a pointer to one of these as well. */
struct wnt_member_work_1 {
    wnt_slot entered[WNT_SLOTS_1], names[2 * WNT_SLOTS_1];
    uint32_t ends[WNT_SLOTS_1];
    uint16_t known[WNT_LINKS_1], chains[3 * WNT_SLOTS_1];
};
struct wnt_member_work_2 {
    wnt_slot entered[WNT_SLOTS_2], names[2 * WNT_SLOTS_2];
    uint32_t ends[WNT_SLOTS_2];
    uint16_t known[WNT_LINKS_2], chains[3 * WNT_SLOTS_2];
};

/* The same for a prelude of version 1 or 2 under either rule set. A member of version 2 may have 63 scopes open, its root
 * included. A member whose version or rule set is not the prelude's is refused with 1. Under rule set 1 everything that the
 * prelude's root declares is earlier than the member. The sizes of `work` and the tables depend on the prelude's version: one
 * that is too small is 3 plus WNT_OF_PRELUDE as above. After every return all six are zero up to their sizes for that version,
 * or to their ends if they are shorter, and unchanged beyond. For these sizes a prelude whose header is wrong
 * counts as version 1:
 *
 *     static struct wnt_member_work_2 tables;
 *     wnt_member_with(prelude, prelude_len, member, member_len, out, out_len, work, WNT_MEMBER_WORK_2, WNT_LENT(&tables)) */
uint64_t wnt_member_with(const uint8_t *prelude, size_t prelude_len, const uint8_t *member, size_t member_len, uint8_t *out,
                         size_t out_len, uint8_t *work, size_t work_len, wnt_slot *entered, size_t entered_len,
                         wnt_slot *names, size_t names_len, uint16_t *known, size_t known_len, uint16_t *chains,
                         size_t chains_len, uint32_t *ends, size_t ends_len);

/* How many members a batch may have, and the bytes of the answer for one member. */
#define WNT_MAX_MEMBERS 8
#define WNT_MEMBER_ANSWER_SIZE 8

/* Resolves a batch: the prelude into `prelude_out` as wnt_resolve does, and each member inside its root as wnt_member
 * does. `members` holds 1 to WNT_MAX_MEMBERS inputs one after another, and `lengths` the number of bytes of each. Each member
 * has an equal share of `outs`, by position: `outs_len` divided by their number, rounded down. Its answer, which is like
 * that of wnt_resolve, goes into WNT_MEMBER_ANSWER_SIZE bytes of `answers`, also by position, little endian. Bytes after the
 * last share and the last answer never change.
 *
 * The answer is that of wnt_resolve for the prelude; if the prelude is refused, `outs` and `answers` are unchanged. Two
 * refusals come before everything else, at place 0, and leave `prelude_out` unchanged too: 2 if there is no member, or there
 * are more than WNT_MAX_MEMBERS, or the lengths do not add up to `members_len`; and 3 if `answers` is too short for the
 * answers.
 *
 * The answer for a member, and what its share then holds, depend on nothing but the prelude, the member and the length of
 * the share: a member that is refused, or too long, changes nothing for the others. A member whose version or rule set is
 * not the prelude's is refused with 1. No two of the buffers may overlap. */
uint64_t wnt_batch(const uint8_t *prelude, size_t prelude_len, const uint8_t *members, size_t members_len,
                   const uint32_t *lengths, size_t lengths_len, uint8_t *prelude_out, size_t prelude_out_len,
                   uint8_t *outs, size_t outs_len, uint8_t *answers, size_t answers_len);

/* The same for a prelude of version 1 or 2 under either rule set; each member is resolved as wnt_member_with does. The prelude
 * and the members are resolved in one set of tables, those of wnt_member_with for the prelude's version: one that is too small
 * is refusal 3 of the prelude, after its 1 and 2, and leaves `prelude_out`, `outs` and `answers` unchanged. After every return
 * the tables are zero up to their sizes for that version, or to their ends if they are shorter, and unchanged beyond. For
 * these sizes a prelude whose header is wrong counts as version 1. */
uint64_t wnt_batch_with(const uint8_t *prelude, size_t prelude_len, const uint8_t *members, size_t members_len,
                        const uint32_t *lengths, size_t lengths_len, uint8_t *prelude_out, size_t prelude_out_len,
                        uint8_t *outs, size_t outs_len, uint8_t *answers, size_t answers_len, wnt_slot *entered,
                        size_t entered_len, wnt_slot *names, size_t names_len, uint16_t *known, size_t known_len,
                        uint16_t *chains, size_t chains_len, uint32_t *ends, size_t ends_len);

/* Says which declaration the name in a row of a member means, if the member's root lies inside the root of a prelude. Both
 * are inputs, not resolved forms. A walked name is looked for in the scopes of the member around it and then in the
 * prelude's root; a here-only name, and the instance where a path begins, only in their own scope; a named index of an
 * OUTER in the scope that the OUTER asks for, where the prelude's root is one scope further out than the member's.
 *
 * The answer's upper half is one of the three numbers below, its lower half the row of the DECL in that form, counted from
 * 0. A row that holds no such name, or is not there, means nothing. Nothing is written and nothing is refused: if the bytes
 * are not forms, their rows are looked at as they stand. In version 2, whose header has 16 bytes, rows are counted from
 * behind that header. */
#define WNT_NOTHING_MEANT 0u
#define WNT_MEANT_IN_MEMBER 1u
#define WNT_MEANT_IN_PRELUDE 2u

uint64_t wnt_meant(const uint8_t *prelude, size_t prelude_len, const uint8_t *member, size_t member_len, uint32_t row);

#ifdef __cplusplus
}
#endif

#endif
