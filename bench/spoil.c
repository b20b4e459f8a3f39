/* What the check does with spoilt plans. Prints a Markdown table. usage: spoil TIMES SEED JOB...
   Every kind of change is made TIMES times, by turns on the plans of the jobs, each time on a fresh copy; the draws depend on the seed alone.

   Each spoilt plan goes through ls_check_plan and, where the job has the solver's sizes, through the solver's call; both must answer the same number and
   place. A refusal must leave every lent slice zero. A plan that passes must have the lists of the analysis, its own steps and every column once, and ls_run must do
   all of them with the declared peak as room and refuse them with one entry less. What is not so is a fault; one fault and the program exits with 1. */
#include "slices.h"

enum { SOLVER_COLUMNS = 256, SOLVER_ROWS = 2048, SOLVER_FACTOR_ROWS = 4096, NUMBERS = 28 };

/* A job with its key, its plan and what an analysis of it gives. spoilt has room for two plans. */
typedef struct {
    Case own; uint8_t *key, *plan, *spoilt; size_t key_len, plan_len, steps_len, spoilt_len, lent; uint64_t *fstarts, declared;
    uint32_t *order, *pops, *frows, *parents;
} Subject;

static uint8_t *put(uint8_t *to, uint64_t v) { for (; v > 127; v >>= 7) *to++ = (uint8_t)(v | 128); *to++ = (uint8_t)v; return to; }
static uint8_t *put_steps(uint8_t *to, const uint32_t *order, const uint32_t *pops, uint64_t n) {
    for (uint64_t k = 0; k < n; k++) to = put(put(to, order[k]), pops[k]);
    return to;
}
static void *copy_of(const void *from, size_t size) { void *p = room_of(size, 1); memcpy(p, from, size); return p; }

static size_t key_of(Case *c, uint8_t *bytes, size_t len) {
    must(!ls_write_key(JOB, bytes, len, &c->place, &c->count), "no key");
    return c->count;
}
static Subject open_subject(const char *path) {
    Subject v, *s = &v; s->own = open_case(path); Case *c = &s->own;
    same_as_reference(c); s->declared = c->peak;
    s->parents = copy_of(c->parents, 4 * c->n); s->order = copy_of(c->order, 4 * c->n); s->pops = copy_of(c->pops, 4 * c->n); s->frows = copy_of(c->frows, 4 * c->rows);
    s->fstarts = copy_of(c->fstarts, 8 * (c->n + 1));
    must(!do_write(c), "no plan"); s->plan_len = c->count; s->plan = copy_of(c->bytes, s->plan_len);
    s->key = room_of(c->bytes_len, 1); s->key_len = key_of(c, s->key, c->bytes_len);
    s->spoilt = room_of(2 * c->bytes_len, 1);
    s->steps_len = (size_t)(put_steps(s->spoilt, s->order, s->pops, c->n) - s->spoilt);
    must(!memcmp(s->spoilt, s->plan + s->key_len, s->steps_len), "the steps are not where they should be");
    s->lent = c->rows > SOLVER_FACTOR_ROWS ? c->rows : SOLVER_FACTOR_ROWS; /* what the solver's call lends */
    free(c->frows); c->frows = room_of(s->lent, 4);
    return v;
}

/* ---- The changes. Each leaves the plan in s->spoilt and answers 0 where the job has no place for it. */
static void fresh(Subject *s) { memcpy(s->spoilt, s->plan, s->plan_len); s->spoilt_len = s->plan_len; }
static int one_bit(Subject *s) { fresh(s); s->spoilt[draw(s->plan_len)] ^= (uint8_t)(1u << draw(8)); return 1; }
static int one_byte(Subject *s) { fresh(s); s->spoilt[draw(s->plan_len)] ^= (uint8_t)(1 + draw(255)); return 1; }
static int cut(Subject *s) { fresh(s); s->spoilt_len = draw(s->plan_len); return 1; }
static int one_more(Subject *s) {
    fresh(s); size_t at = draw(s->plan_len + 1);
    memmove(s->spoilt + at + 1, s->spoilt + at, s->plan_len - at); s->spoilt[at] = (uint8_t)draw(256); s->spoilt_len++;
    return 1;
}
/* The plan with other steps: key, steps, the lists as they are, a peak. */
static void with_steps(Subject *s, const uint32_t *order, const uint32_t *pops, uint64_t peak) {
    memcpy(s->spoilt, s->plan, s->key_len);
    uint8_t *to = put_steps(s->spoilt + s->key_len, order, pops, s->own.n), old[16];
    size_t head = s->key_len + s->steps_len, lists = s->plan_len - head - (size_t)(put(old, s->declared) - old);
    memcpy(to, s->plan + head, lists);
    s->spoilt_len = (size_t)(put(to + lists, peak) - s->spoilt);
}
/* Any two steps, or two that follow each other. */
static int steps_swapped(Subject *s) {
    uint64_t n = s->own.n, a = draw(n), b = draw(2) ? draw(n) : (a + 1) % n; if (a == b) return 0;
    uint32_t *order = copy_of(s->order, 4 * n), *pops = copy_of(s->pops, 4 * n);
    order[a] = s->order[b]; order[b] = s->order[a]; pops[a] = s->pops[b]; pops[b] = s->pops[a];
    with_steps(s, order, pops, s->declared); free(order); free(pops);
    return 1;
}
/* Two neighbouring subtrees of one parent, or two roots, change places. first[k] is the first step of the subtree whose top stands at step k. */
static int subtrees_swapped(Subject *s) {
    uint64_t n = s->own.n, *first = room_of(n, 8), *size = room_of(n + 1, 8), top = 0; int found = 0;
    for (uint64_t k = 0; k < n; k++) { uint32_t j = s->order[k]; size[j]++; first[k] = k + 1 - size[j]; if (s->parents[j - 1]) size[s->parents[j - 1]] += size[j]; }
    for (int tries = 0; tries < 100 && !found; tries++) { top = draw(n); found = first[top] > 0 && s->parents[s->order[top] - 1] == s->parents[s->order[first[top] - 1] - 1]; }
    if (found) {
        uint64_t right = first[top], left = first[right - 1], to = left;
        uint32_t *order = copy_of(s->order, 4 * n), *pops = copy_of(s->pops, 4 * n);
        for (uint64_t k = right; k <= top; k++, to++) { order[to] = s->order[k]; pops[to] = s->pops[k]; }
        for (uint64_t k = left; k < right; k++, to++) { order[to] = s->order[k]; pops[to] = s->pops[k]; }
        with_steps(s, order, pops, s->declared); free(order); free(pops);
    }
    free(first); free(size);
    return found;
}
static uint64_t checked(Subject *s) { Case *c = &s->own; return ls_check_plan(JOB, s->spoilt, s->spoilt_len, LENT(s->lent), &c->place, &c->count); }
/* The same, and the peak of that order, which a refusal of the kept one names. */
static int subtrees_and_peak(Subject *s) {
    if (!subtrees_swapped(s)) return 0;
    uint8_t old[16], *end = s->spoilt + s->spoilt_len - (put(old, s->declared) - old);
    if (checked(s) == LS_WRONG_PEAK) s->spoilt_len = (size_t)(put(end, s->own.count) - s->spoilt);
    return 1;
}
/* The plan of the job without one pattern row. */
static void without_a_row(Subject *s, size_t row, int under_own_key) {
    Case v = s->own, *c = &v;
    c->starts = copy_of(s->own.starts, 8 * (c->n + 1)); c->pattern = copy_of(s->own.pattern, 4 * c->nnz); c->nnz--;
    memmove(c->pattern + row, c->pattern + row + 1, 4 * (c->nnz - row));
    for (uint64_t j = 0; j <= c->n; j++) if (c->starts[j] > row) c->starts[j]--;
    size_t key_len = key_of(c, c->bytes, c->bytes_len); must(!do_write(c), "no plan");
    size_t from = under_own_key ? 0 : key_len;
    if (!under_own_key) memcpy(s->spoilt, s->key, s->key_len);
    memcpy(s->spoilt + (under_own_key ? 0 : s->key_len), c->bytes + from, c->count - from);
    s->spoilt_len = (under_own_key ? 0 : s->key_len) + c->count - from;
    free(c->starts); free(c->pattern);
}
static int other_job(Subject *s) { if (!s->own.nnz) return 0; without_a_row(s, draw(s->own.nnz), 1); return 1; }
static int other_job_this_key(Subject *s) { if (!s->own.nnz) return 0; without_a_row(s, draw(s->own.nnz), 0); return 1; }

/* ---- The verdict */
static int all_zero(const void *p, size_t size) { const uint8_t *b = p; for (size_t k = 0; k < size; k++) if (b[k]) return 0; return 1; }
static int nothing_left(const Subject *s) {
    const Case *c = &s->own;
    return all_zero(c->parents, 4 * c->n) && all_zero(c->order, 4 * c->n) && all_zero(c->pops, 4 * c->n) && all_zero(c->fstarts, 8 * (c->n + 1)) && all_zero(c->frows, 4 * s->lent)
        && all_zero(c->work, 8 * LS_WORK(c->n));
}
static int each_once(const Case *c) {
    uint8_t *seen = room_of(c->n + 1, 1); int good = 1;
    for (uint64_t k = 0; k < c->n; k++) { uint32_t j = c->order[k]; good = good && j >= 1 && j <= c->n && !seen[j]; if (good) seen[j] = 1; }
    free(seen); return good;
}
/* That the checked order and pops are the very steps of the bytes. */
static int steps_of_bytes(const Subject *s) {
    const Case *c = &s->own; uint8_t *again = room_of(8 * c->n, 1); size_t len = (size_t)(put_steps(again, c->order, c->pops, c->n) - again);
    int same = s->key_len + len <= s->spoilt_len && !memcmp(again, s->spoilt + s->key_len, len);
    free(again); return same;
}
static int runs(Subject *s) {
    Case *c = &s->own; c->peak = c->count;
    int same = !memcmp(c->fstarts, s->fstarts, 8 * (c->n + 1)) && !memcmp(c->frows, s->frows, 4 * c->rows) && !memcmp(c->parents, s->parents, 4 * c->n);
    int done = do_run(c) == LS_DONE && c->count == c->peak; c->peak--;
    return same && steps_of_bytes(s) && each_once(c) && done && do_run(c) == LS_ROOM_EXCEEDED;
}
/* The number answered; *fault counts what must not be, *ran the plans that pass and run. */
static uint64_t verdict(Subject *s, uint64_t *ran, uint64_t *fault) {
    uint64_t number = checked(s), place = s->own.place;
    if (s->own.n <= SOLVER_COLUMNS && s->own.nnz <= SOLVER_ROWS) *fault += check(s->key, s->key_len, s->spoilt, s->spoilt_len) != (number << 32 | place);
    if (number) *fault += !nothing_left(s);
    else if (runs(s)) ++*ran;
    else ++*fault;
    return number;
}

static const struct { const char *name; int (*make)(Subject *); int may_pass; } changes[] = {
    {"one bit flipped", one_bit, 0}, {"one byte changed", one_byte, 0}, {"cut off", cut, 0}, {"one byte put in", one_more, 0}, {"two steps swapped", steps_swapped, 1},
    {"two sibling subtrees swapped, peak kept", subtrees_swapped, 1}, {"two sibling subtrees swapped, with that order's peak", subtrees_and_peak, 1},
    {"plan of the job less one pattern row", other_job, 0}, {"the same under the whole job's key", other_job_this_key, 1}};
enum { CHANGES = sizeof changes / sizeof *changes };
typedef struct { uint64_t made, number[NUMBERS], ran, faults; } Tally;

static void tally(int h, uint64_t times, Subject *all, uint64_t jobs, Tally *t) {
    for (uint64_t k = 0; t->made < times && k < 100 * times; k++) {
        Subject *s = &all[k % jobs]; if (!changes[h].make(s)) continue;
        uint64_t number = verdict(s, &t->ran, &t->faults); t->made++;
        if (number < NUMBERS) t->number[number]++; else t->faults++;
    }
    if (!changes[h].may_pass) t->faults += t->number[LS_DONE];
}
/* One column for each number that occurs. */
static void print_table(const Tally *t) {
    int occurs[NUMBERS] = {0}, columns = 0;
    for (int number = 1; number < NUMBERS; number++) { for (int h = 0; h < CHANGES; h++) occurs[number] |= t[h].number[number] != 0; columns += occurs[number]; }
    printf("| change | made |"); for (int number = 1; number < NUMBERS; number++) if (occurs[number]) printf(" %d |", number);
    printf(" passed | run at its peak | faults |\n|---|---:|"); for (int k = 0; k < columns + 3; k++) printf("---:|");
    printf("\n");
    for (int h = 0; h < CHANGES; h++) {
        printf("| %s | %s |", changes[h].name, grouped(t[h].made)); for (int number = 1; number < NUMBERS; number++) if (occurs[number]) printf(" %s |", grouped(t[h].number[number]));
        printf(" %s | %s | %s |\n", grouped(t[h].number[LS_DONE]), grouped(t[h].ran), grouped(t[h].faults));
    }
}

int main(int argc, char **argv) {
    if (argc < 4) { fprintf(stderr, "usage: spoil TIMES SEED JOB...\n"); return 2; }
    int jobs = argc - 3; uint64_t faults = 0; Tally t[CHANGES] = {0};
    Subject *all = room_of((size_t)jobs, sizeof *all);
    for (int k = 0; k < jobs; k++) all[k] = open_subject(argv[3 + k]);
    for (int h = 0; h < CHANGES; h++) { sow(strtoull(argv[2], NULL, 10)); tally(h, strtoull(argv[1], NULL, 10), all, (uint64_t)jobs, &t[h]); faults += t[h].faults; }
    print_table(t);
    return faults != 0;
}
