/* Times the entry points beside the C reference, on job texts, and prints a Markdown table.
   usage: measure --analysis | --plans | --marks | --stack JOB...      a line a job; JOB is FILE or TITLE=FILE
          measure --gallop                                             a run over lists of every k-th row */
#define _GNU_SOURCE
#include "slices.h"
#include <pthread.h>

static void analysis(Case *c) {
    double per = 1e9 / (double)(c->rows ? c->rows : 1);
    uint64_t refusal = c->rows ? LS_ROWS_NEEDED : LS_DONE;
    double ours = least(do_analyse, c, 0), joining = least(do_joining, c, 0), limit = least(do_limit, c, 0);
    double needed = least(do_needed, c, refusal), count = least(do_count, c, refusal);
    printf(" %.2f | %.2f | %.2f | %.2f | %.2f | %.2f | %.2f |\n", ours * per, joining * per, limit * per, ours / joining, needed * per, count * per, needed / count);
}
static void plans(Case *c) {
    double per = 1e9 / (double)(c->rows ? c->rows : 1);
    double run = least(do_run, c, 0), write = least(do_write, c, 0);
    c->plan_len = c->count;
    printf(" %.2f | %.2f | %.2f |\n", write * per, least(do_check, c, 0) * per, run * per);
}
static void marks(Case *c) {
    double time[3]; uint64_t peak[3];
    for (c->mark = 0; c->mark < 3; c->mark++) { time[c->mark] = 1e6 * least(do_analyse, c, 0); peak[c->mark] = c->count; }
    printf(" %.1f | %.1f | %.1f | %s | %s | %s |\n", time[0], time[1], time[2], grouped(peak[0]), grouped(peak[1]), grouped(peak[2]));
}

/* Stack that an analysis takes, by painting a thread's stack. */
static void *analysing(void *c) { do_analyse(c); return NULL; }
static void *nothing(void *c) { (void)c; return NULL; }
static size_t stack_of(void *(*f)(void *), Case *c) {
    size_t size = 1 << 20; unsigned char *s; must(!posix_memalign((void **)&s, 4096, size), "no memory");
    memset(s, 0xA5, size);
    pthread_attr_t a; pthread_attr_init(&a); pthread_attr_setstack(&a, s, size);
    pthread_t t; must(!pthread_create(&t, &a, f, c), "no thread");
    pthread_join(t, NULL); pthread_attr_destroy(&a);
    size_t k = 0; while (k < size && s[k] == 0xA5) k++;
    free(s); return size - k;
}
static void stacks(Case *c) { printf(" %zu |\n", stack_of(analysing, c) - stack_of(nothing, c)); }

/* Lists that hardly meet: 2,048 leaves whose rows are a column and every k-th row behind it, and that column with all of them, which takes all the
   leaves' updates off at once. Its own update stays, so the answer is 24; the work is the same. */
static uint64_t do_gallop(Case *c) { return ls_run(c->n, c->fstarts, c->n + 1, c->frows, c->rows, c->order, c->n, c->pops, c->n, ~0ull, c->stack, c->n, &c->place, &c->count); }
static void gallop(uint64_t k) {
    Case v, *c = &v; memset(c, 0, sizeof v); c->n = 4096;
    uint64_t leaves = 2048, top = leaves + 1, each = 1 + (c->n - top) / k;
    c->order = room_of(c->n, 4); c->pops = room_of(c->n, 4); c->stack = room_of(c->n, 4); c->fstarts = room_of(c->n + 1, 8); c->frows = room_of(leaves * each + c->n, 4);
    for (uint64_t j = 1; j <= c->n; j++) {
        c->order[j - 1] = (uint32_t)j; c->fstarts[j - 1] = c->rows;
        if (j < top) for (uint64_t r = top, m = 0; m < each; m++, r += k) c->frows[c->rows++] = (uint32_t)r;
        if (j == top) for (uint64_t r = top + 1; r <= c->n; r++) c->frows[c->rows++] = (uint32_t)r;
    }
    c->fstarts[c->n] = c->rows; c->pops[top - 1] = (uint32_t)leaves;
    printf("| %s | %.2f |\n", grouped(k), 1e9 * least(do_gallop, c, LS_UPDATES_LEFT) / (double)c->rows);
}

typedef struct { const char *flag, *head, *rule; void (*line)(Case *); } Table;
static const Table tables[] = {
    {"--analysis", " analyse | joining | limit | ratio | needed | count | ratio |", "---:|---:|---:|---:|---:|---:|---:|", analysis},
    {"--plans", " write | check | run |", "---:|---:|---:|", plans},
    {"--marks", " mark 0 | mark 1 | mark 2 | peak 0 | peak 1 | peak 2 |", "---:|---:|---:|---:|---:|---:|", marks},
    {"--stack", " bytes |", "---:|", stacks},
};

int main(int argc, char **argv) {
    if (argc == 2 && !strcmp(argv[1], "--gallop")) {
        printf("| every k-th row | run |\n|---:|---:|\n");
        const uint64_t every[] = {1, 2, 10, 64};
        for (int e = 0; e < 4; e++) gallop(every[e]);
        return 0;
    }
    const Table *t = tables, *end = tables + sizeof tables / sizeof *tables;
    while (t < end && (argc < 3 || strcmp(argv[1], t->flag))) t++;
    if (t == end) { fprintf(stderr, "usage: measure --analysis|--plans|--marks|--stack JOB... or measure --gallop\n"); return 2; }
    printf("| pattern | n | factor rows |%s\n|---|---:|---:|%s\n", t->head, t->rule);
    for (int a = 2; a < argc; a++) {
        char title[256]; Case v = open_case(title_of(argv[a], title, sizeof title));
        same_as_reference(&v);
        printf("| %s | %s | %s |", title, grouped(v.n), grouped(v.rows));
        t->line(&v); fflush(stdout); close_case(&v);
    }
    return 0;
}
