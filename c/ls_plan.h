/* Loomsaffron for C, the wrapper: one struct owns every slice of a plan and grows it as the library asks. This file and ls_plan.c are not proved; what
   they call is.

   An ls_plan begins as {0}, is used for any number of jobs one after the other, and ends in ls_plan_free. Every function answers the library's number,
   place and count (docs/REFUSALS.md; ls_words says the number in words), or LS_NO_MEMORY. The library tests the job before memory is taken for it. The
   pointers of a job must be good for its lengths, and must not point into the plan. */
#ifndef LS_PLAN_H
#define LS_PLAN_H

#include "loomsaffron.h"

#ifdef __cplusplus
extern "C" {
#endif

/* The wrapper's own number. count: for how many columns, rows or bytes no memory could be had. The plan then holds nothing (after
   ls_plan_key: no key), and may be used again. */
#define LS_NO_MEMORY 100

typedef struct {
    uint64_t number, place, count;
} ls_answer;

/* n columns, n + 1 starts, the rows strictly below the diagonal column by column, a sibling mark (0, 1 or 2), a room limit. */
typedef struct {
    uint64_t n;
    const uint64_t *starts;
    size_t starts_len;
    const uint32_t *rows;
    size_t rows_len;
    uint64_t mark, limit;
} ls_job;

typedef struct {
    /* What ls_plan_analyse, ls_plan_write or ls_plan_check left when it answered 0; after any other answer, n, peak and the two lengths are 0. */
    uint64_t n, peak;
    uint32_t *parents, *order, *pops; /* n each */
    uint64_t *fstarts;                /* n + 1: fstarts_len */
    uint32_t *frows;                  /* fstarts[n]: frows_len */
    size_t fstarts_len, frows_len;
    /* What ls_plan_write and ls_plan_key wrote; 0 bytes after any other answer than 0. */
    uint8_t *bytes, *key;
    size_t bytes_len, key_len;
    /* The wrapper's own: the other slices, and how many columns, rows and bytes there is memory for. */
    uint64_t *work;
    uint32_t *stack;
    size_t columns_room, rows_room, bytes_room, key_room;
} ls_plan;

/* Analyses a job. Done: count is the peak, as in the plan. */
ls_answer ls_plan_analyse(ls_plan *plan, const ls_job *job);

/* Analyses a job and writes its plan to bytes. Done: count is bytes_len. */
ls_answer ls_plan_write(ls_plan *plan, const ls_job *job);

/* Writes the key of a job to key; changes nothing else of the plan. Done: count is key_len. */
ls_answer ls_plan_key(ls_plan *plan, const ls_job *job);

/* Checks stored bytes, whoever wrote them, for a job; they may be the plan's own. Done: the plan holds what they say, count is the peak. */
ls_answer ls_plan_check(ls_plan *plan, const ls_job *job, const uint8_t *bytes, size_t bytes_len);

/* Runs what the plan holds in this room. A plan that holds nothing is refused (LS_BAD_STARTS). count: the greatest room in use. */
ls_answer ls_plan_run(ls_plan *plan, uint64_t room);

/* Gives all memory back; the plan is {0} again. */
void ls_plan_free(ls_plan *plan);

#ifdef __cplusplus
}
#endif

#endif
