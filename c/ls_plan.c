/* The wrapper of ls_plan.h. Not proved.

   Each call lends what the plan owns. If the library answers that this is too little, the job has passed the tests before, so its size is within the
   bounds; the wrapper then takes what is asked for and calls again. It never computes from a size that the library has not tested. */
#include "ls_plan.h"
#include <stdlib.h>

#define JOB job->n, job->starts, job->starts_len, job->rows, job->rows_len, job->mark, job->limit
/* No more columns than the job has, so that nothing behind them need be cleared; fewer only if there is memory for fewer. */
#define COLUMNS (job->n < plan->columns_room ? (size_t)job->n : plan->columns_room)
#define LENT \
    plan->parents, COLUMNS, plan->order, COLUMNS, plan->pops, COLUMNS, plan->fstarts, plan->fstarts ? COLUMNS + 1 : 0, plan->frows, plan->rows_room, \
        plan->work, plan->work ? LS_WORK(COLUMNS) : 0

static const ls_answer done = {LS_DONE, 0, 0};

static ls_answer no_memory(uint64_t count) {
    ls_answer a = {LS_NO_MEMORY, 0, count};
    return a;
}

static void *fresh(uint64_t count, size_t size) { return count > SIZE_MAX / size ? NULL : calloc(count ? (size_t)count : 1, size); }

/* The slices of fixed length. The library has answered LS_SLICE_TOO_SHORT, so n is at most 4,096. */
static ls_answer take_columns(ls_plan *plan, uint64_t n) {
    uint32_t *parents = fresh(n, sizeof *parents), *order = fresh(n, sizeof *order), *pops = fresh(n, sizeof *pops), *stack = fresh(n, sizeof *stack);
    uint64_t *fstarts = fresh(n + 1, sizeof *fstarts), *work = fresh(LS_WORK(n), sizeof *work);
    if (!parents || !order || !pops || !stack || !fstarts || !work) {
        free(parents), free(order), free(pops), free(stack), free(fstarts), free(work);
        return no_memory(n);
    }
    free(plan->parents), free(plan->order), free(plan->pops), free(plan->stack), free(plan->fstarts), free(plan->work);
    plan->parents = parents, plan->order = order, plan->pops = pops, plan->stack = stack, plan->fstarts = fstarts, plan->work = work;
    plan->columns_room = (size_t)n;
    return done;
}

static ls_answer take_rows(ls_plan *plan, uint64_t count) {
    uint32_t *rows = fresh(count, sizeof *rows);
    if (!rows) return no_memory(count);
    free(plan->frows);
    plan->frows = rows, plan->rows_room = (size_t)count;
    return done;
}

static ls_answer take_bytes(uint8_t **bytes, size_t *room, uint64_t count) {
    uint8_t *more = fresh(count, 1);
    if (!more) return no_memory(count);
    free(*bytes);
    *bytes = more, *room = (size_t)count;
    return done;
}

static void forget(ls_plan *plan) { plan->n = plan->peak = 0, plan->fstarts_len = plan->frows_len = 0; }

static void hold(ls_plan *plan, uint64_t n, uint64_t peak) {
    plan->n = n, plan->peak = peak;
    plan->fstarts_len = (size_t)n + 1, plan->frows_len = (size_t)plan->fstarts[n];
}

/* An analysis, or a check if there are bytes to check, in the slices as they are. */
static ls_answer once(ls_plan *plan, const ls_job *job, const uint8_t *bytes, size_t bytes_len, int check_them) {
    ls_answer a = done;
    if (check_them) a.number = ls_check_plan(JOB, bytes, bytes_len, LENT, &a.place, &a.count);
    else a.number = ls_analyse(JOB, LENT, &a.place, &a.count);
    return a;
}

/* The same, in slices that grow as the library asks. */
static ls_answer fill(ls_plan *plan, const ls_job *job, const uint8_t *bytes, size_t bytes_len, int check_them) {
    forget(plan);
    ls_answer a = once(plan, job, bytes, bytes_len, check_them);
    if (a.number == LS_SLICE_TOO_SHORT) {
        ls_answer taken = take_columns(plan, job->n);
        if (taken.number) return taken;
        a = once(plan, job, bytes, bytes_len, check_them);
    }
    if (a.number == LS_ROWS_NEEDED) {
        ls_answer taken = take_rows(plan, a.count);
        if (taken.number) return taken;
        a = once(plan, job, bytes, bytes_len, check_them);
    }
    if (a.number == LS_DONE) hold(plan, job->n, a.count);
    return a;
}

ls_answer ls_plan_analyse(ls_plan *plan, const ls_job *job) { return fill(plan, job, NULL, 0, 0); }

ls_answer ls_plan_check(ls_plan *plan, const ls_job *job, const uint8_t *bytes, size_t bytes_len) { return fill(plan, job, bytes, bytes_len, 1); }

ls_answer ls_plan_write(ls_plan *plan, const ls_job *job) {
    plan->bytes_len = 0;
    ls_answer a = ls_plan_analyse(plan, job);
    if (a.number) return a;
    uint64_t peak = a.count;
    forget(plan);
    a.number = ls_write_plan(JOB, LENT, plan->bytes, plan->bytes_room, &a.place, &a.count);
    if (a.number == LS_BYTES_NEEDED) {
        ls_answer taken = take_bytes(&plan->bytes, &plan->bytes_room, a.count);
        if (taken.number) return taken;
        a.number = ls_write_plan(JOB, LENT, plan->bytes, plan->bytes_room, &a.place, &a.count);
    }
    if (a.number == LS_DONE) hold(plan, job->n, peak), plan->bytes_len = (size_t)a.count;
    return a;
}

ls_answer ls_plan_key(ls_plan *plan, const ls_job *job) {
    ls_answer a = done;
    plan->key_len = 0;
    a.number = ls_write_key(JOB, plan->key, plan->key_room, &a.place, &a.count);
    if (a.number == LS_BYTES_NEEDED) {
        ls_answer taken = take_bytes(&plan->key, &plan->key_room, a.count);
        if (taken.number) return taken;
        a.number = ls_write_key(JOB, plan->key, plan->key_room, &a.place, &a.count);
    }
    if (a.number == LS_DONE) plan->key_len = (size_t)a.count;
    return a;
}

ls_answer ls_plan_run(ls_plan *plan, uint64_t room) {
    ls_answer a = done;
    size_t n = (size_t)plan->n;
    a.number = ls_run(plan->n, plan->fstarts, plan->fstarts_len, plan->frows, plan->frows_len, plan->order, n, plan->pops, n, room, plan->stack, n,
                      &a.place, &a.count);
    return a;
}

void ls_plan_free(ls_plan *plan) {
    static const ls_plan empty;
    free(plan->parents), free(plan->order), free(plan->pops), free(plan->stack), free(plan->fstarts), free(plan->work);
    free(plan->frows), free(plan->bytes), free(plan->key);
    *plan = empty;
}
