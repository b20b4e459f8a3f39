/* The entry points, the C reference and other solvers' symbolic analysis, in one run on the same patterns. Prints a Markdown table.
   usage: peers < LIST      a line of LIST: kind, title and job text, with tabs between; the kinds grid and stiffness have goals

   Every figure is the least processor time of a whole call, over the rows below the diagonal of the factor. Each sample lasts some milliseconds, and the samples
   of all go round in turn, so that a busy machine slows all alike. Every answer is compared with the reference's before it is timed.

   analyse, write, check, run   the entry points: the lists, parents, order, pops and peak of a job after all tests of it; the same and the plan's
                                bytes; the test of those bytes; the steps at the declared peak
   joining, limit               ref_analyse.c
   CHOLMOD                      cholmod_transpose, cholmod_etree, cholmod_postorder, cholmod_rowcolcounts, then cholmod_row_subtree for each row, each row
                                put into the lists of its columns: all lists, in lent room
   CXSparse                     cs_transpose, cs_schol in the given numbering (tree, postorder, counts), then cs_ereach for each row: all lists, in lent room
   SPOOLES                      ETree_initFromGraphWithPerms, then SymbFac_initFromGraph: all lists, in its own memory; the graph is made beforehand
   None of the three tests its input or finds pops and peak.
   supernodes                   cholmod_analyze in the given numbering: tree, postorder, counts, and one list of rows for each group of columns, with rows that are
                                not filled. Less than the lists, hence no peer for the goals; it is what CHOLMOD itself works with */
#define _GNU_SOURCE
#include "slices.h"
#include <cholmod.h>
#include <cs.h>
#include <spooles/SymbFac.h>

/* The pattern as the peers want it: 0-based, 32 bits, and the room for their lists. at[j] is where the list of column j ends. */
static int N, *Ap, *Ai, *lists, *at;
static cholmod_common cc;
static cholmod_sparse lower;
static cs_di Cl;
static Graph *graph;
static int *same_order;
static IVL *spooles_lists;

static uint64_t do_cholmod(Case *c) {
    (void)c;
    size_t n = (size_t)N;
    cholmod_sparse *upper = cholmod_transpose(&lower, 0, &cc), *row = cholmod_allocate_sparse(n, 1, n, 0, 1, 0, CHOLMOD_PATTERN, &cc);
    int *w = malloc(sizeof(int) * (5 * n + 1)), *parent = w, *post = w + n, *count = w + 2 * n, *first = w + 3 * n, *level = w + 4 * n;
    int bad = !cholmod_etree(upper, parent, &cc) || cholmod_postorder(parent, n, NULL, post, &cc) != N
        || !cholmod_rowcolcounts(&lower, NULL, 0, parent, post, NULL, count, first, level, &cc);
    for (int j = 0, t = 0; j < N; j++) { at[j] = t; t += count[j] - 1; }
    for (int i = 0; i < N && !bad; i++) {
        bad = !cholmod_row_subtree(upper, NULL, (size_t)i, parent, row, &cc);
        const int *columns = row->i, many = ((int *)row->p)[1];
        for (int q = 0; q < many; q++) lists[at[columns[q]]++] = i;
    }
    cholmod_free_sparse(&row, &cc); cholmod_free_sparse(&upper, &cc); free(w);
    return (uint64_t)bad;
}

static uint64_t do_supernodes(Case *c) {
    (void)c;
    cc.nmethods = 1; cc.method[0].ordering = CHOLMOD_NATURAL; cc.supernodal = CHOLMOD_SUPERNODAL;
    cholmod_factor *f = cholmod_analyze(&lower, &cc);
    int bad = f == NULL; cholmod_free_factor(&f, &cc);
    return (uint64_t)bad;
}

static uint64_t do_cxsparse(Case *c) {
    (void)c;
    cs_di *upper = cs_di_transpose(&Cl, 0); cs_dis *s = cs_di_schol(0, upper); if (!s) return 1;
    int *w = malloc(sizeof(int) * (2 * (size_t)N + 1)), *reach = w, *marks = w + N;
    for (int j = 0; j < N; j++) { at[j] = s->cp[j] - j; marks[j] = s->cp[j]; } /* cp counts the diagonal too */
    for (int i = 0; i < N; i++) for (int q = cs_di_ereach(upper, i, s->parent, reach, marks); q < N; q++) lists[at[reach[q]]++] = i;
    free(w); cs_di_sfree(s); cs_di_spfree(upper);
    return 0;
}

static uint64_t do_spooles(Case *c) {
    (void)c;
    ETree *tree = ETree_new(); ETree_initFromGraphWithPerms(tree, graph, same_order, same_order);
    if (spooles_lists) IVL_free(spooles_lists);
    spooles_lists = SymbFac_initFromGraph(tree, graph); ETree_free(tree);
    return spooles_lists == NULL;
}

/* The graph of SPOOLES: for each vertex itself and its neighbours. */
static Graph *graph_of(void) {
    int total = N + 2 * Ap[N], *degree = room_of((size_t)N, sizeof(int)), *begin = room_of((size_t)N + 1, sizeof(int)), *to = room_of((size_t)total, sizeof(int));
    for (int j = 0; j < N; j++) { degree[j]++; for (int q = Ap[j]; q < Ap[j + 1]; q++) { degree[j]++; degree[Ai[q]]++; } }
    for (int j = 0; j < N; j++) { begin[j + 1] = begin[j] + degree[j]; degree[j] = 0; }
    for (int j = 0; j < N; j++) {
        to[begin[j] + degree[j]++] = j;
        for (int q = Ap[j]; q < Ap[j + 1]; q++) { int i = Ai[q]; to[begin[j] + degree[j]++] = i; to[begin[i] + degree[i]++] = j; }
    }
    IVL *neighbours = IVL_new(); IVL_init1(neighbours, IVL_CHUNKED, N);
    for (int j = 0; j < N; j++) IVL_setList(neighbours, j, degree[j], to + begin[j]);
    Graph *g = Graph_new(); Graph_init2(g, 0, N, 0, total, N, total, neighbours, NULL, NULL);
    free(degree); free(begin); free(to);
    return g;
}

static void open_peers(const Case *c) {
    N = (int)c->n; size_t n = (size_t)N;
    Ap = room_of(n + 1, sizeof(int)); Ai = room_of(c->nnz, sizeof(int)); at = room_of(n, sizeof(int)); lists = room_of(c->rows, sizeof(int)); same_order = room_of(n, sizeof(int));
    for (size_t k = 0; k <= n; k++) Ap[k] = (int)c->starts[k];
    for (size_t q = 0; q < c->nnz; q++) Ai[q] = (int)c->pattern[q] - 1;
    for (int k = 0; k < N; k++) same_order[k] = k;
    lower = (cholmod_sparse){.nrow = n, .ncol = n, .nzmax = c->nnz, .p = Ap, .i = Ai, .stype = -1, .sorted = 1, .packed = 1,
                             .itype = CHOLMOD_INT, .xtype = CHOLMOD_PATTERN, .dtype = CHOLMOD_DOUBLE};
    Cl = (cs_di){.nzmax = (int)c->nnz, .m = N, .n = N, .p = Ap, .i = Ai, .x = NULL, .nz = -1};
    graph = graph_of(); spooles_lists = NULL;
}
static void close_peers(void) {
    Graph_free(graph); if (spooles_lists) IVL_free(spooles_lists);
    free(Ap); free(Ai); free(at); free(lists); free(same_order);
}

/* That a peer has found the very lists of the reference. */
static void lists_agree(const Case *c, const char *who) {
    for (uint64_t p = 0; p < c->rows; p++) must((uint32_t)lists[p] + 1 == c->rrows[p], who);
    memset(lists, 0, sizeof(int) * c->rows);
}
static int by_number(const void *a, const void *b) { int x = *(const int *)a, y = *(const int *)b; return (x > y) - (x < y); }
static void spooles_agrees(const Case *c) {
    for (int j = 0; j < N; j++) {
        int size, *list; IVL_listAndSize(spooles_lists, j, &size, &list); qsort(list, (size_t)size, sizeof(int), by_number);
        must((uint64_t)size == 1 + c->rstarts[j + 1] - c->rstarts[j] && list[0] == j, "SPOOLES differs");
        for (int q = 1; q < size; q++) must((uint32_t)list[q] + 1 == c->rrows[c->rstarts[j] + (uint64_t)q - 1], "SPOOLES differs");
    }
}

enum { BY_ANALYSE, BY_WRITE, BY_CHECK, BY_RUN, BY_JOINING, BY_LIMIT, BY_CHOLMOD, BY_CXSPARSE, BY_SPOOLES, BY_SUPERNODES, WAYS };
static uint64_t (*const ways[WAYS])(Case *) = {do_analyse, do_write, do_check, do_run, do_joining, do_limit, do_cholmod, do_cxsparse, do_spooles, do_supernodes};

static void time_all(Case *c, double *best) {
    same_as_reference(c);
    must(!do_write(c), "no plan"); c->plan_len = c->count;
    must(!do_check(c) && c->count == c->peak, "its own plan is refused");
    must(!do_run(c) && c->count == c->peak, "its own plan does not run");
    must(!do_cholmod(c), "CHOLMOD fails"); lists_agree(c, "CHOLMOD differs");
    must(!do_cxsparse(c), "CXSparse fails"); lists_agree(c, "CXSparse differs");
    must(!do_spooles(c), "SPOOLES fails"); spooles_agrees(c);
    must(!do_supernodes(c), "CHOLMOD fails");
    int calls[WAYS];
    for (int w = 0; w < WAYS; w++) { calls[w] = 1; best[w] = 1e9; }
    for (int s = 0; s < 9; s++) for (int w = 0; w < WAYS; w++) { double t = sample(ways[w], c, &calls[w]); if (t < best[w]) best[w] = t; }
}

/* The worst line for a goal. */
typedef struct { const char *goal; double bound, worst; char where[128]; int lines, missed; } Goal;
static void judge(Goal *g, double value, int miss, int worse, const char *title) {
    if (!g->lines++ || worse) { g->worst = value; snprintf(g->where, sizeof g->where, "%s", title); }
    g->missed += miss;
}

int main(void) {
    Goal slow = {.goal = "analyse over joining, at most", .bound = 1.5}, grids = {.goal = "fastest peer over analyse on the grids, at least", .bound = 3},
         stiff = {.goal = "fastest peer over analyse on the stiffness patterns, at least", .bound = 2};
    cholmod_start(&cc); cc.print = 0;
    printf("| pattern | n | factor rows | analyse | write | check | run | joining | limit | CHOLMOD | CXSparse | SPOOLES | supernodes | analyse / joining | fastest peer / analyse |\n");
    printf("|---|---:|---:|---:|---:|---:|---:|---:|---:|---:|---:|---:|---:|---:|---:|\n");
    char kind[32], title[128], path[1024];
    while (scanf(" %31[^\t]\t%127[^\t]\t%1023[^\n]", kind, title, path) == 3) {
        Case v = open_case(path), *c = &v; double t[WAYS];
        open_peers(c); time_all(c, t);
        double peer = t[BY_CHOLMOD] < t[BY_CXSPARSE] ? t[BY_CHOLMOD] : t[BY_CXSPARSE]; if (t[BY_SPOOLES] < peer) peer = t[BY_SPOOLES];
        double ratio = t[BY_ANALYSE] / t[BY_JOINING], faster = peer / t[BY_ANALYSE];
        printf("| %s | %s | %s |", title, grouped(c->n), grouped(c->rows));
        for (int w = 0; w < WAYS; w++) printf(" %.2f |", t[w] * 1e9 / (double)(c->rows ? c->rows : 1));
        printf(" %.2f | %.2f |\n", ratio, faster); fflush(stdout);
        judge(&slow, ratio, ratio > slow.bound, ratio > slow.worst, title);
        Goal *g = !strcmp(kind, "grid") ? &grids : !strcmp(kind, "stiffness") ? &stiff : NULL;
        if (g) judge(g, faster, faster < g->bound, faster < g->worst, title);
        close_peers(); close_case(c);
    }
    cholmod_finish(&cc);
    printf("\n<!-- figures: goals -->\n\n| goal | bound | worst here | of | lines that miss it |\n|---|---:|---:|---|---:|\n");
    Goal *all[] = {&slow, &grids, &stiff};
    for (int g = 0; g < 3; g++) printf("| %s | %.1f | %.2f | %s | %d of %d |\n", all[g]->goal, all[g]->bound, all[g]->worst, all[g]->where, all[g]->missed, all[g]->lines);
    return 0;
}
