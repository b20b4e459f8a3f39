/* Tries the wrapper: what it answers, what it holds, that it survives every refusal and every failure to get memory.
   Linked with --wrap=calloc, so that the test can let the k-th allocation fail. */
#include "ls_plan.h"
#include <inttypes.h>
#include <stdio.h>
#include <stdlib.h>
#include <string.h>

static long until_failure = -1; /* allocations that still succeed; below 0: all */
static uint64_t most_asked;     /* the largest allocation asked for, in bytes */
void *__real_calloc(size_t count, size_t size);
void *__wrap_calloc(size_t count, size_t size);
void *__wrap_calloc(size_t count, size_t size) {
    if ((uint64_t)count * size > most_asked) most_asked = (uint64_t)count * size;
    if (until_failure == 0) return NULL;
    if (until_failure > 0) until_failure--;
    return __real_calloc(count, size);
}

#define MUST(what) \
    do { \
        if (!(what)) { \
            fprintf(stderr, "test.c:%d: not so: %s\n", __LINE__, #what); \
            exit(1); \
        } \
    } while (0)

static int is(ls_answer a, uint64_t number, uint64_t place, uint64_t count) {
    if (a.number == number && a.place == place && a.count == count) return 1;
    fprintf(stderr, "answered %" PRIu64 " %" PRIu64 " %" PRIu64 ": %s\n", a.number, a.place, a.count, ls_words(a.number));
    return 0;
}
static int holds_nothing(const ls_plan *plan) { return !plan->n && !plan->peak && !plan->fstarts_len && !plan->frows_len; }

static const uint64_t starts[] = {0, 3, 3, 5, 7, 9, 10, 11, 11, 11};
static const uint32_t rows[] = {2, 8, 9, 4, 7, 8, 9, 6, 8, 7, 9};
static const ls_job nine = {9, starts, 10, rows, 11, 0, 20};

static void whole_life(void) {
    ls_plan plan = {0};
    MUST(is(ls_plan_analyse(&plan, &nine), 0, 0, 15));
    MUST(plan.n == 9 && plan.peak == 15 && plan.fstarts_len == 10 && plan.frows_len == 17 && plan.fstarts[9] == 17);
    MUST(is(ls_plan_run(&plan, 15), 0, 0, 15));
    MUST(ls_plan_run(&plan, 14).number == LS_ROOM_EXCEEDED && plan.n == 9);
    MUST(is(ls_plan_write(&plan, &nine), 0, 0, 69) && plan.bytes_len == 69 && plan.peak == 15);
    MUST(is(ls_plan_run(&plan, 15), 0, 0, 15));
    MUST(ls_plan_key(&plan, &nine).number == 0 && plan.n == 9 && !memcmp(plan.key, plan.bytes, plan.key_len));
    MUST(ls_check(plan.key, plan.key_len, plan.bytes, plan.bytes_len) == 0 && check(plan.key, plan.key_len, plan.bytes, plan.bytes_len) == 0);
    MUST(ls_check(plan.key, plan.key_len - 1, plan.bytes, plan.bytes_len) == (uint64_t)LS_UNREADABLE_KEY << 32);
    MUST(is(ls_plan_check(&plan, &nine, plan.bytes, plan.bytes_len), 0, 0, 15) && plan.frows_len == 17);
    MUST(is(ls_plan_run(&plan, plan.peak), 0, 0, 15));
    /* a refused check leaves nothing that could be run, and the stored bytes as they were */
    plan.bytes[68]++;
    MUST(is(ls_plan_check(&plan, &nine, plan.bytes, plan.bytes_len), LS_WRONG_PEAK, 0, 15) && holds_nothing(&plan) && plan.bytes_len == 69);
    MUST(is(ls_plan_run(&plan, 15), LS_BAD_STARTS, 0, 0));
    plan.bytes[68]--;
    /* a plan whose own check has to make room for rows */
    ls_plan other = {0};
    MUST(is(ls_plan_check(&other, &nine, plan.bytes, plan.bytes_len), 0, 0, 15) && other.frows_len == 17);
    MUST(is(ls_plan_check(&other, &nine, NULL, 0), LS_WRONG_KEY, 1, 0) && holds_nothing(&other));
    ls_plan_free(&other);
    ls_plan_free(&plan);
    ls_plan_free(&plan);
    MUST(is(ls_plan_run(&plan, 15), LS_BAD_STARTS, 0, 0));
}

static void refusals(void) {
    ls_plan plan = {0};
    ls_job job = nine;
    /* no size takes memory before the library has tested it */
    const uint64_t sizes[] = {4097, UINT32_MAX, (uint64_t)UINT32_MAX + 1, UINT64_MAX / 64, UINT64_MAX - 1, UINT64_MAX};
    most_asked = 0;
    for (size_t k = 0; k < sizeof sizes / sizeof *sizes; k++) {
        job.n = sizes[k];
        MUST(is(ls_plan_analyse(&plan, &job), LS_TOO_MANY_COLUMNS, 0, 0) && is(ls_plan_write(&plan, &job), LS_TOO_MANY_COLUMNS, 0, 0));
        MUST(is(ls_plan_key(&plan, &job), LS_TOO_MANY_COLUMNS, 0, 0) && is(ls_plan_check(&plan, &job, NULL, 0), LS_TOO_MANY_COLUMNS, 0, 0));
    }
    job.n = 4096;
    MUST(is(ls_plan_analyse(&plan, &job), LS_BAD_STARTS, 0, 0) && holds_nothing(&plan));
    job = nine, job.starts_len = 9;
    MUST(is(ls_plan_write(&plan, &job), LS_BAD_STARTS, 0, 0));
    job = nine, job.starts = NULL, job.starts_len = 0;
    MUST(is(ls_plan_write(&plan, &job), LS_BAD_STARTS, 0, 0));
    job = nine, job.rows_len = 10;
    MUST(is(ls_plan_analyse(&plan, &job), LS_BAD_STARTS, 9, 0));
    job = nine, job.mark = UINT64_MAX;
    MUST(is(ls_plan_analyse(&plan, &job), LS_UNKNOWN_MARK, 0, 0));
    job = nine, job.limit = UINT64_MAX;
    MUST(is(ls_plan_analyse(&plan, &job), LS_LIMIT_TOO_LARGE, 0, 0));
    MUST(most_asked == 0);
    /* a refusal after a done call: nothing is held, no bytes are left, the memory serves again */
    MUST(ls_plan_write(&plan, &nine).number == 0 && ls_plan_key(&plan, &nine).number == 0 && plan.key_len == 24);
    job = nine, job.mark = 3;
    MUST(is(ls_plan_key(&plan, &job), LS_UNKNOWN_MARK, 0, 0) && plan.key_len == 0 && plan.n == 9 && plan.bytes_len == 69);
    job = nine, job.limit = 14;
    MUST(is(ls_plan_write(&plan, &job), LS_PEAK_OVER_LIMIT, 0, 15) && holds_nothing(&plan) && plan.bytes_len == 0);
    job.n = UINT64_MAX;
    MUST(is(ls_plan_analyse(&plan, &job), LS_TOO_MANY_COLUMNS, 0, 0) && holds_nothing(&plan));
    most_asked = 0;
    MUST(is(ls_plan_write(&plan, &nine), 0, 0, 69) && most_asked == 0);
    ls_plan_free(&plan);
}

/* A full pattern of n columns, and one without rows. */
static ls_job full(uint64_t n, int dense) {
    uint64_t *s = malloc((n + 1) * sizeof *s), count = dense && n ? n * (n - 1) / 2 : 0, k = 0;
    uint32_t *r = malloc((count + 1) * sizeof *r);
    MUST(s && r);
    for (uint64_t j = 1; j <= n; j++) {
        s[j - 1] = k;
        for (uint64_t i = j + 1; dense && i <= n; i++) r[k++] = (uint32_t)i;
    }
    s[n] = k;
    ls_job job = {n, s, n + 1, r, k, 1, (uint64_t)1 << 40};
    return job;
}
static void drop(ls_job job) { free((void *)job.starts), free((void *)job.rows); }

static void sizes(void) {
    ls_plan plan = {0};
    const uint64_t some[] = {0, 1, 5, 300, 2, 0, 4096};
    for (size_t k = 0; k < 2 * sizeof some / sizeof *some; k++) {
        uint64_t n = some[k / 2];
        int dense = k % 2 && n < 4096;
        ls_job job = full(n, dense);
        uint64_t peak = n == 0 ? 0 : dense ? n * (n + 1) / 2 : 1;
        MUST(is(ls_plan_analyse(&plan, &job), 0, 0, peak) && plan.n == n && plan.frows_len == job.rows_len);
        MUST(ls_plan_write(&plan, &job).number == 0 && ls_plan_key(&plan, &job).number == 0 && !memcmp(plan.bytes, plan.key, plan.key_len));
        MUST(is(ls_plan_check(&plan, &job, plan.bytes, plan.bytes_len), 0, 0, peak) && plan.frows_len == job.rows_len);
        MUST(is(ls_plan_run(&plan, peak), 0, 0, peak));
        drop(job);
    }
    ls_plan_free(&plan);
}

/* Lets each allocation of a life fail in turn: the answer says so, the plan holds nothing, and the same plan then goes through. */
static void no_memory(void) {
    ls_plan sound = {0};
    MUST(ls_plan_write(&sound, &nine).number == 0);
    long k = 0;
    for (int failed = 1; failed; k++) {
        ls_plan plan = {0};
        until_failure = k;
        ls_answer w = ls_plan_write(&plan, &nine);
        failed = w.number != 0;
        until_failure = -1;
        if (failed) MUST(w.number == LS_NO_MEMORY && holds_nothing(&plan) && plan.bytes_len == 0 && (w.count == 9 || w.count == 17 || w.count == 69));
        if (failed) MUST(is(ls_plan_run(&plan, 15), LS_BAD_STARTS, 0, 0));
        MUST(is(ls_plan_write(&plan, &nine), 0, 0, 69) && is(ls_plan_run(&plan, 15), 0, 0, 15));
        until_failure = 0;
        MUST(is(ls_plan_write(&plan, &nine), 0, 0, 69)); /* asks for nothing more */
        MUST(ls_plan_key(&plan, &nine).number == LS_NO_MEMORY && plan.n == 9 && plan.key_len == 0);
        until_failure = -1;
        ls_plan_free(&plan);
    }
    MUST(k == 9); /* six slices, the rows, the bytes, and once without failure */
    for (k = 0; k < 8; k++) {
        ls_plan plan = {0};
        until_failure = k;
        ls_answer c = ls_plan_check(&plan, &nine, sound.bytes, sound.bytes_len);
        until_failure = -1;
        MUST(k < 7 ? c.number == LS_NO_MEMORY && holds_nothing(&plan) : is(c, 0, 0, 15));
        ls_plan_free(&plan);
    }
    ls_plan_free(&sound);
}

int main(void) {
    whole_life();
    refusals();
    sizes();
    no_memory();
    return 0;
}
