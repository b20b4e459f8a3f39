/* Loomsaffron for C: plans of sparse factorizations, proved.

   Every function takes any numbers and any contents, and answers a number, 0 for done. A list is a pointer and its length in elements. The
   function stores the answer's place and count through the last two pointers. docs/REFUSALS.md says when each number is answered, what place
   and count then say, and what the lent slices hold.

   The proofs rely on the caller for two things: the pointers are good for the lengths given, and nothing that is lent to be written (a non-const
   list, place, count) overlaps anything else.

   A job is n columns, n + 1 starts, the rows strictly below the diagonal column by column, a sibling mark (0, 1 or 2) and a room limit. */
#ifndef LOOMSAFFRON_H
#define LOOMSAFFRON_H

#include <stddef.h>
#include <stdint.h>

/* Major, minor, patch; CHANGELOG.md says what each brings. */
#define LOOMSAFFRON_VERSION "0.1.0"

#ifdef __cplusplus
extern "C" {
#endif

enum ls_number {
    LS_DONE = 0,
    LS_TOO_MANY_COLUMNS = 1,    /* n over 4,096 */
    LS_UNKNOWN_MARK = 2,        /* the mark is not 0, 1 or 2 */
    LS_LIMIT_TOO_LARGE = 3,     /* the room limit is over 2^40 */
    LS_BAD_STARTS = 4,          /* place: the column; 0 for the count or the first start; n for the last */
    LS_ROW_OUT_OF_RANGE = 5,    /* place: the column */
    LS_ROW_NOT_ASCENDING = 6,   /* place: the column */
    LS_SLICE_TOO_SHORT = 7,     /* a lent slice is below its fixed length; nothing was written */
    LS_ROWS_NEEDED = 8,         /* count: how many factor rows the lists need */
    LS_PEAK_OVER_LIMIT = 9,     /* count: the peak */
    LS_BYTES_NEEDED = 10,       /* count: how many bytes the key or the plan needs */
    LS_WRONG_KEY = 11,          /* place: the first byte that differs from the job's key, from 1 */
    LS_BYTES_END = 12,          /* place: the byte where the number starts, here and in 13 and 14 */
    LS_BAD_NUMBER = 13,         /* too long, or not in shortest form */
    LS_VALUE_OUT_OF_RANGE = 14, /* in a run: place, the step whose column is not in 1..n */
    LS_BYTES_AFTER = 15,        /* place: the first byte behind the plan */
    LS_COLUMN_REPEATED = 16,    /* place: the later step */
    LS_WRONG_LIST = 17,         /* place: the column */
    LS_SUBTREE_SCATTERED = 18,  /* place: the step of its top */
    LS_WRONG_POPS = 19,         /* place: the step */
    LS_WRONG_PEAK = 20,         /* count: the true peak */
    LS_POPS_OVER_HELD = 21,     /* run, place: the step, here and in 22 and 23 */
    LS_ROW_OUTSIDE_FRONT = 22,
    LS_ROOM_EXCEEDED = 23,
    LS_UPDATES_LEFT = 24,       /* run, place: n */
    LS_SIZES_EXCEEDED = 26,     /* check: the key is readable, but its job is over 256 columns or 2,048 pattern rows */
    LS_UNREADABLE_KEY = 27      /* check: no job has these bytes as its whole key */
};

/* The length of the work slice for n columns, in numbers of 64 bits. */
#define LS_WORK(n) (8 * (n) + 8)

/* Writes the key of a job to the start of bytes, then zeros. Done: count is the bytes of the key. */
uint64_t ls_write_key(uint64_t n, const uint64_t *starts, size_t starts_len, const uint32_t *rows, size_t rows_len, uint64_t mark, uint64_t limit,
                      uint8_t *bytes, size_t bytes_len, uint64_t *place, uint64_t *count);

/* Analyses a job into parents, order and pops (n or more each), factor starts (n + 1 or more) and factor rows (too few: LS_ROWS_NEEDED), with work
   (LS_WORK(n) or more, zero afterwards). Done: each slice holds its result, then zeros; count is the peak. */
uint64_t ls_analyse(uint64_t n, const uint64_t *starts, size_t starts_len, const uint32_t *rows, size_t rows_len, uint64_t mark, uint64_t limit,
                    uint32_t *parents, size_t parents_len, uint32_t *order, size_t order_len, uint32_t *pops, size_t pops_len,
                    uint64_t *fstarts, size_t fstarts_len, uint32_t *frows, size_t frows_len, uint64_t *work, size_t work_len,
                    uint64_t *place, uint64_t *count);

/* Analyses a job and writes its plan to the start of bytes, then zeros. Done: count is the bytes of the plan. */
uint64_t ls_write_plan(uint64_t n, const uint64_t *starts, size_t starts_len, const uint32_t *rows, size_t rows_len, uint64_t mark, uint64_t limit,
                       uint32_t *parents, size_t parents_len, uint32_t *order, size_t order_len, uint32_t *pops, size_t pops_len,
                       uint64_t *fstarts, size_t fstarts_len, uint32_t *frows, size_t frows_len, uint64_t *work, size_t work_len,
                       uint8_t *bytes, size_t bytes_len, uint64_t *place, uint64_t *count);

/* Checks a plan for a job, in the slices of an analysis. Done: the plan is sound for this job, the slices hold it, count is its peak. */
uint64_t ls_check_plan(uint64_t n, const uint64_t *starts, size_t starts_len, const uint32_t *rows, size_t rows_len, uint64_t mark, uint64_t limit,
                       const uint8_t *plan, size_t plan_len,
                       uint32_t *parents, size_t parents_len, uint32_t *order, size_t order_len, uint32_t *pops, size_t pops_len,
                       uint64_t *fstarts, size_t fstarts_len, uint32_t *frows, size_t frows_len, uint64_t *work, size_t work_len,
                       uint64_t *place, uint64_t *count);

/* Runs n steps, each a column and its pops, on the lists of an analysis or a check: the first n + 1 factor starts, exactly the rows that they
   count, the first n of order and pops. stack: n or more, zero afterwards. From the steps on, count is the greatest room in use. */
uint64_t ls_run(uint64_t n, const uint64_t *fstarts, size_t fstarts_len, const uint32_t *frows, size_t frows_len,
                const uint32_t *columns, size_t columns_len, const uint32_t *pops, size_t pops_len, uint64_t room,
                uint32_t *stack, size_t stack_len, uint64_t *place, uint64_t *count);

/* The solver's call, also in an archive of its own (libsolver.a): tests whether a plan is sound for the job of this key, and answers
   number * 2^32 + place. */
uint64_t check(const uint8_t *key, size_t key_len, const uint8_t *plan, size_t plan_len);

/* The rest is in the installed archive alone (libloomsaffron.a, made in c/). */

/* check, under a name that collides with nothing. */
uint64_t ls_check(const uint8_t *key, size_t key_len, const uint8_t *plan, size_t plan_len);

/* The words of a number, those of docs/REFUSALS.md, in English. Any number has some; they need not be freed. Not proved. */
const char *ls_words(uint64_t number);

#ifdef __cplusplus
}
#endif

#endif
