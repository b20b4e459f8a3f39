/* One job with all the slices that the entry points are lent, and the calls on it. Shared by the measuring programs. */
#ifndef SLICES_H
#define SLICES_H
#include "../include/loomsaffron.h"
#include "job.h"
#include "ref_analyse.h"
#include "tools.h"
#include <time.h>

/* rows: the factor rows. The slices whose names begin with r are the reference's, which has 64-bit parents, order and pops. */
typedef struct {
    uint64_t n, mark, limit, *starts, *fstarts, *work, place, count, rows, peak;
    uint32_t *pattern, *parents, *order, *pops, *frows, *stack;
    size_t nnz, bytes_len, plan_len;
    uint8_t *bytes;
    uint64_t *rparents, *rorder, *rpops, *rstarts, *rwork;
    uint32_t *rrows;
} Case;

#define JOB c->n, c->starts, c->n + 1, c->pattern, c->nnz, c->mark, c->limit
#define LENT(rows) c->parents, c->n, c->order, c->n, c->pops, c->n, c->fstarts, c->n + 1, c->frows, rows, c->work, LS_WORK(c->n)

static inline uint64_t do_analyse(Case *c) { return ls_analyse(JOB, LENT(c->rows), &c->place, &c->count); }
static inline uint64_t do_needed(Case *c) { return ls_analyse(JOB, LENT(0), &c->place, &c->count); }
static inline uint64_t do_write(Case *c) { return ls_write_plan(JOB, LENT(c->rows), c->bytes, c->bytes_len, &c->place, &c->count); }
static inline uint64_t do_check(Case *c) { return ls_check_plan(JOB, c->bytes, c->plan_len, LENT(c->rows), &c->place, &c->count); }
static inline uint64_t do_run(Case *c) {
    return ls_run(c->n, c->fstarts, c->n + 1, c->frows, c->rows, c->order, c->n, c->pops, c->n, c->peak, c->stack, c->n, &c->place, &c->count);
}

static inline uint64_t do_reference(Case *c, int how, uint64_t room) {
    return ref_analyse(how, c->n, c->starts, c->n + 1, c->pattern, c->nnz, c->limit, c->rparents, c->rorder, c->rpops, c->rstarts, c->rrows, room, c->rwork).number;
}
static inline uint64_t do_joining(Case *c) { return do_reference(c, REF_MERGE, c->rows); }
static inline uint64_t do_limit(Case *c) { return do_reference(c, REF_LIMIT, c->rows); }
static inline uint64_t do_count(Case *c) { return do_reference(c, REF_ROWS, 0); }

static inline Case open_case(const char *path) {
    Job j = job_open(path); Case v, *c = &v; memset(c, 0, sizeof v);
    c->n = (uint64_t)j.n; c->nnz = (size_t)j.nnz; c->starts = (uint64_t *)j.start; c->pattern = (uint32_t *)j.row; c->limit = (uint64_t)1 << 40;
    size_t n = (size_t)c->n;
    c->parents = room_of(n, 4); c->order = room_of(n, 4); c->pops = room_of(n, 4); c->stack = room_of(n, 4);
    c->fstarts = room_of(n + 1, 8); c->work = room_of(LS_WORK(n), 8); c->frows = room_of(0, 4);
    if (do_needed(c) == LS_ROWS_NEEDED) c->rows = c->count;
    free(c->frows); c->frows = room_of(c->rows, 4);
    c->rparents = room_of(n, 8); c->rorder = room_of(n, 8); c->rpops = room_of(n, 8); c->rstarts = room_of(n + 1, 8); c->rwork = room_of(LS_WORK(n), 8); c->rrows = room_of(c->rows, 4);
    c->bytes_len = 64 + 8 * n + 2 * (c->nnz + c->rows); c->bytes = room_of(c->bytes_len, 1);
    return v;
}
static inline void close_case(Case *c) {
    void *all[] = {c->starts, c->pattern, c->parents, c->order, c->pops, c->stack, c->fstarts, c->work, c->frows, c->rparents, c->rorder, c->rpops, c->rstarts, c->rwork, c->rrows, c->bytes};
    for (size_t k = 0; k < sizeof all / sizeof *all; k++) free(all[k]);
}

/* Analyses, and sees that the reference has the same result. */
static inline void same_as_reference(Case *c) {
    must(!do_joining(c) && !do_analyse(c), "not done"); c->peak = c->count;
    for (uint64_t k = 0; k < c->n; k++)
        must(c->parents[k] == c->rparents[k] && c->order[k] == c->rorder[k] && c->pops[k] == c->rpops[k] && c->fstarts[k + 1] == c->rstarts[k + 1], "differs from the reference");
    must(!memcmp(c->frows, c->rrows, 4 * c->rows), "lists differ from the reference");
}

static inline double processor_time(void) { struct timespec t; clock_gettime(CLOCK_PROCESS_CPUTIME_ID, &t); return (double)t.tv_sec + 1e-9 * (double)t.tv_nsec; }
/* Seconds of one call, by as many calls as last some milliseconds; calls is found by the first sample. */
static inline double sample(uint64_t (*f)(Case *), Case *c, int *calls) {
    for (;; *calls *= 2) {
        double began = processor_time();
        for (int k = 0; k < *calls; k++) f(c);
        double took = processor_time() - began;
        if (took >= 0.004) return took / *calls;
    }
}
/* Least seconds of one call, of several samples. */
static inline double least(uint64_t (*f)(Case *), Case *c, uint64_t expect) {
    must(f(c) == expect, "unexpected answer");
    double best = 1e9; int calls = 1;
    for (int s = 0; s < 9; s++) { double t = sample(f, c, &calls); if (t < best) best = t; }
    return best;
}
#endif
