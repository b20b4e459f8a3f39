/* Calls every door on jobs, plans and steps drawn from a seed. A line for each call: the door, its answer, place and count, then for each slice a sum
   over all of it and the guards around it. same.sh compares what two libraries print. usage: same SEED JOBS */
#include "../bench/tools.h"
#include "loomsaffron.h"
#include <inttypes.h>

/* A list of numbers of size bytes each, between guards. No list here takes more than MOST words: the longest are work and bytes. */
enum { GUARD = 8, EXTRA = 20, COLUMNS = 4100, MOST = LS_WORK(COLUMNS) + EXTRA, NUMBERS = 28 };
typedef struct { size_t size, len; uint64_t words[2 * GUARD + MOST]; } List;
typedef struct { uint64_t n, mark, limit; const List *starts, *rows; } Job;
enum { KEY, ANALYSE, PLAN, CHECK };
enum { PARENTS, ORDER, POPS, FSTARTS, FROWS, WORK, BYTES, STACK, SLICES };
static const size_t sizes[SLICES] = {4, 4, 4, 8, 4, 8, 1, 4};
static List slices[SLICES], starts, rows, fstarts, frows, columns, pops, key, plan;
static uint64_t place, count, calls, tally[NUMBERS], peak, rows_needed, bytes_needed;

static size_t words(const List *l) { return 2 * GUARD + (l->len * l->size + 7) / 8; }
static void *at(List *l, size_t k) { return (uint8_t *)(l->words + GUARD) + k * l->size; }
static void push(List *l, uint64_t v) { memcpy(at(l, l->len++), &v, l->size); }
static void take(List *to, const List *from, size_t len) { memcpy(to, from, offsetof(List, words) + 8 * words(from)), to->len = len; }

static void poison(void) {
    for (int k = 0; k < SLICES; k++) memset(slices[k].words, 0x91 + k, 8 * words(&slices[k]));
    place = count = 0x9191919191919191;
}
static uint64_t report(const char *door, uint64_t answer) {
    uint64_t number = answer >> 32 ? answer >> 32 : answer; /* the solver's call answers number * 2^32 + place */
    printf("%s %" PRIu64 " %" PRIu64 " %" PRIu64, door, answer, place, count);
    for (const List *l = slices; l < slices + SLICES; l++) {
        uint64_t sum = l->len;
        for (size_t k = 0; k < words(l); k++) sum = (sum ^ l->words[k]) * 0x9e3779b97f4a7c15, sum ^= sum >> 29;
        printf(" %" PRIx64, sum);
    }
    putchar('\n'), calls++;
    if (number < NUMBERS) tally[number]++;
    return answer;
}
#define LIST(l) (void *)((l)->words + GUARD), (l)->len
#define LENT(k) LIST(&slices[k])
#define ALL_LENT LENT(PARENTS), LENT(ORDER), LENT(POPS), LENT(FSTARTS), LENT(FROWS), LENT(WORK)
#define JOB j.n, LIST(j.starts), LIST(j.rows), j.mark, j.limit
static uint64_t call(int door, Job j, const List *p) {
    poison();
    if (door == KEY) return report("key", ls_write_key(JOB, LENT(BYTES), &place, &count));
    if (door == ANALYSE) return report("analyse", ls_analyse(JOB, ALL_LENT, &place, &count));
    if (door == PLAN) return report("plan", ls_write_plan(JOB, ALL_LENT, LENT(BYTES), &place, &count));
    return report("check", ls_check_plan(JOB, LIST(p), ALL_LENT, &place, &count));
}
static void run(uint64_t n, const List *const s[4], uint64_t room) {
    poison(), report("run", ls_run(n, LIST(s[0]), LIST(s[1]), LIST(s[2]), LIST(s[3]), room, LENT(STACK), &place, &count));
}
static void solver(const List *k, const List *p) { poison(), report("solver", check(LIST(k), LIST(p))); }

/* The lengths to lend: those that the job needs; or as drawn, some longer, now and then one too short. */
static void lend(uint64_t job_columns, int drawn) {
    const size_t n = job_columns < COLUMNS ? job_columns : COLUMNS, k = draw(SLICES);
    const size_t least[] = {n, n, n, n + 1, rows_needed, LS_WORK(n), bytes_needed, n};
    for (int i = 0; i < SLICES; i++) slices[i].len = least[i] + (drawn && !draw(3) ? draw(EXTRA) : 0);
    if (drawn && !draw(3) && least[k]) slices[k].len = draw(2) ? least[k] - 1 : draw(draw(2) && least[k] > 12 ? 12 : least[k]);
}
/* Shape 0: an arrow. 1: a grid, gap wide. 2: a forest. Others: bands, from the chain to the full matrix, with gaps or without. */
static void draw_column(uint64_t n, uint64_t c, int shape, uint64_t gap, uint64_t reach) {
    uint64_t end = reach < n - c ? c + reach : n;
    if (shape == 0 && c < n) push(&rows, n);
    if (shape == 1 && c % gap && c < n) push(&rows, c + 1);
    if (shape == 1 && gap > 1 && c + gap <= n) push(&rows, c + gap);
    for (uint64_t r = c + 1 + draw(gap); shape > 1 && r <= end; r += shape == 2 ? n : 1 + draw(gap)) push(&rows, r);
    push(&starts, rows.len);
}
static Job draw_job(void) { /* above 280 columns only shapes without fill */
    static const uint64_t most[] = {8, 13, 13, 40, 40, 40, 150, 281};
    int large = !draw(60), shape = (int)draw(large ? 4 : 8);
    uint64_t n = large ? 281 + draw(3816) : draw(most[draw(8)]), gap = 1 + draw(n / (1 + draw(9)) + 1), reach = draw(2) || large ? 1 + draw(4) : n;
    if (shape > 2 && (large || draw(2))) gap = 1;
    if (shape == 2 || (large && shape == 1)) shape = 2, reach = n;
    rows.len = starts.len = 0, push(&starts, 0);
    for (uint64_t c = 1; c <= n; c++) draw_column(n, c, shape, gap, reach);
    return (Job){n, draw(3), (uint64_t)1 << 40, &starts, &rows};
}
/* A copy of a list, good until two more are made, with a change behind its first numbers. */
static const List *spoil(const List *l, size_t first) {
    static List own[2], *s = own;
    s = s == own ? own + 1 : own, take(s, l, l->len);
    if (l->len <= first) return push(s, draw(3)), s;
    size_t k = first + draw(l->len - first), other = first + draw(l->len - first);
    uint64_t v = 0, w = 0, kind = draw(8);
    memcpy(&v, at(s, k), s->size), memcpy(&w, at(s, other), s->size);
    if (kind == 0) v ^= (uint64_t)1 << draw(8 * s->size);
    if (kind == 1 || kind == 2) v += kind == 1 ? 1 : UINT64_MAX;
    if (kind == 3) v = draw(256);
    if (kind == 4) memcpy(at(s, other), &v, s->size);
    if (kind == 4 || kind == 5) v = w;
    if (kind == 6) memmove(at(s, k + 1), at(s, k), (l->len - k) * s->size), s->len++;
    memcpy(at(s, k), &v, s->size);
    if (kind == 7) s->len = k;
    return s;
}
static Job spoil_job(Job j) {
    uint64_t kind = draw(8), far = draw(2) ? UINT64_MAX : 0;
    if (kind < 2) j.n = kind ? 4097 | far : far ? j.n - 1 : j.n + 1;
    if (kind == 2) j.mark = 3 | far;
    if (kind == 3) j.limit = (((uint64_t)1 << 40) + 1) | far;
    if (kind == 4 || kind == 5) j.starts = spoil(j.starts, 0);
    if (kind > 5) j.rows = spoil(j.rows, 0);
    return j;
}

/* A job with its key; in plan, behind that key, what was planned without a limit and perhaps by another mark; in the other lists, the steps of that. */
static Job prepare(void) {
    Job j = draw_job();
    rows_needed = bytes_needed = 0, lend(j.n, 0);
    if (call(ANALYSE, j, NULL) == LS_ROWS_NEEDED) rows_needed = count;
    must(call(KEY, j, NULL) == LS_BYTES_NEEDED, "a key without bytes");
    size_t old = count;
    lend(j.n, 0), call(PLAN, j, NULL), bytes_needed = count, lend(j.n, 0);
    must(!call(PLAN, j, NULL), "not planned"), take(&plan, &slices[BYTES], bytes_needed);
    must(!call(ANALYSE, j, NULL), "not analysed"), peak = count, take(&fstarts, &slices[FSTARTS], j.n + 1), take(&frows, &slices[FROWS], rows_needed);
    take(&columns, &slices[ORDER], j.n), take(&pops, &slices[POPS], j.n);
    j.mark = draw(2) ? j.mark : draw(3), j.limit = draw(2) ? peak : draw(3) ? draw(peak + 2) : j.limit;
    must(!call(KEY, j, NULL), "no key"), take(&key, &slices[BYTES], count);
    memmove(at(&plan, key.len), at(&plan, old), plan.len - old), memcpy(at(&plan, 0), at(&key, 0), key.len), plan.len -= old - key.len;
    return j;
}
static void try_job(Job j) {
    const uint64_t rooms[] = {peak, peak + 1, peak - 1, draw(peak + 2), 0, UINT64_MAX};
    for (int k = 0; k < 16; k++) { /* each door four times, twice on a spoilt job */
        Job s = k % 4 < 2 ? j : spoil_job(k % 4 == 2 ? j : spoil_job(j));
        bytes_needed = k / 4 == KEY ? key.len : plan.len, lend(s.n, 1), call(k / 4, s, &plan);
    }
    for (int k = 0; k < 8; k++) {
        const List *p = k ? spoil(&plan, draw(4) ? key.len : 0) : &plan;
        lend(j.n, !draw(4)), call(CHECK, j, p), solver(&key, p), solver(spoil(&key, 0), p);
    }
    for (uint64_t k = 0; k < 12; k++) { /* the second six runs with a spoilt list */
        const List *s[] = {&fstarts, &frows, &columns, &pops}, **which = &s[draw(4)];
        if (k > 5) *which = spoil(*which, 0);
        lend(j.n, k > 2), run(j.n, s, rooms[k % 6]);
    }
}
int main(int argc, char **argv) {
    must(argc == 3 && !setvbuf(stdout, NULL, _IOLBF, 1 << 16), "usage: same SEED JOBS");
    for (int k = 0; k < SLICES; k++) slices[k].size = sizes[k];
    starts.size = 8, rows.size = 4, sow(strtoull(argv[1], NULL, 10));
    for (unsigned long jobs = strtoul(argv[2], NULL, 10); jobs; jobs--) try_job(prepare());
    printf("%" PRIu64 " calls; answers of each number:", calls);
    for (int k = 0; k < NUMBERS; k++) if (tally[k]) printf(" %d: %" PRIu64, k, tally[k]);
    return putchar('\n') == EOF || fflush(stdout) || ferror(stdout);
}
