#include "cholmod_analysis.h"
#include <stdlib.h>

void cholmod_lists_free(cholmod_lists *lists) {
    free(lists->numbers); free(lists->parents); free(lists->starts); free(lists->rows);
    *lists = (cholmod_lists){0};
}

#ifndef FARM_CHOLMOD

const char *cholmod_lists_of(const mm_pattern *m, const uint32_t *given, cholmod_lists *lists) {
    (void)m; (void)given;
    *lists = (cholmod_lists){0};
    return "CHOLMOD (of SuiteSparse) was not found when farm was built";
}

#else
#include <cholmod.h>

static const char NO_MEMORY[] = "out of memory", FAILS[] = "CHOLMOD gives no analysis", ODD[] = "CHOLMOD's column counts and its lists differ";

static const char *why(const cholmod_common *cc) { return cc->status == CHOLMOD_OUT_OF_MEMORY ? NO_MEMORY : FAILS; }

/* The pattern as CHOLMOD takes it: the lower triangle, from 0. */
static cholmod_sparse *lower_of(const mm_pattern *m, cholmod_common *cc) {
    size_t n = (size_t)m->n;
    cholmod_sparse *a = cholmod_allocate_sparse(n, n, m->rows_len, 1, 1, -1, CHOLMOD_PATTERN, cc);
    if (!a) return NULL;
    int *starts = a->p, *rows = a->i;
    for (size_t j = 0; j <= n; j++) starts[j] = (int)m->starts[j];
    for (size_t q = 0; q < m->rows_len; q++) rows[q] = (int)m->rows[q] - 1;
    return a;
}

/* One method, the given order, and CHOLMOD's own postorder of its tree. */
static cholmod_factor *analysis_of(cholmod_sparse *a, const uint32_t *given, cholmod_common *cc) {
    int *order = malloc((a->nrow + 1) * sizeof *order);
    if (!order) { cc->status = CHOLMOD_OUT_OF_MEMORY; return NULL; }
    for (size_t k = 0; k < a->nrow; k++) order[k] = given ? (int)given[k] - 1 : (int)k;
    cc->nmethods = 1;
    cc->method[0].ordering = CHOLMOD_GIVEN;
    cc->postorder = 1;
    cc->supernodal = CHOLMOD_SIMPLICIAL;
    cholmod_factor *f = cholmod_analyze_p(a, order, NULL, 0, cc);
    free(order);
    return f;
}

static int take(cholmod_lists *lists, const cholmod_factor *f) {
    size_t n = f->n;
    const int *count = f->ColCount, *done = f->Perm;
    lists->numbers = calloc(n + 1, 4);
    lists->parents = calloc(n + 1, 4);
    lists->starts = calloc(n + 1, 8);
    if (!lists->numbers || !lists->parents || !lists->starts) return 0;
    for (size_t k = 0; k < n; k++) {
        lists->numbers[k] = (uint32_t)done[k] + 1;
        lists->starts[k + 1] = lists->starts[k] + (count[k] > 0 ? (uint64_t)count[k] - 1 : 0);   /* its counts have the diagonal */
    }
    return (lists->rows = calloc((size_t)lists->starts[n] + 1, 4)) != NULL;
}

/* Puts each row of the factor, which CHOLMOD gives as a list of columns, into the lists of these columns. */
static const char *fill_lists(cholmod_sparse *upper, int *parent, cholmod_lists *lists, cholmod_common *cc) {
    size_t n = upper->nrow;
    uint64_t *next = calloc(n + 1, 8);
    cholmod_sparse *row = cholmod_allocate_sparse(n, 1, n, 0, 1, 0, CHOLMOD_PATTERN, cc);
    const char *wrong = next && row ? NULL : NO_MEMORY;
    for (size_t j = 0; j < n && !wrong; j++) next[j] = lists->starts[j];
    for (size_t i = 0; i < n && !wrong; i++) {
        if (!cholmod_row_subtree(upper, NULL, i, parent, row, cc)) { wrong = why(cc); break; }
        const int *column = row->i, *length = row->p;
        for (int q = 0; q < length[1] && !wrong; q++) {
            size_t j = (size_t)column[q];
            if (j >= i || next[j] == lists->starts[j + 1]) wrong = ODD; else lists->rows[next[j]++] = (uint32_t)i + 1;
        }
    }
    for (size_t j = 0; j < n && !wrong; j++) if (next[j] != lists->starts[j + 1]) wrong = ODD;
    free(next);
    cholmod_free_sparse(&row, cc);
    return wrong;
}

/* The tree and the lists of the matrix in CHOLMOD's order. */
static const char *read_lists(cholmod_sparse *a, const cholmod_factor *f, cholmod_lists *lists, cholmod_common *cc) {
    size_t n = a->nrow;
    cholmod_sparse *upper = cholmod_ptranspose(a, 0, f->Perm, NULL, 0, cc);
    int *parent = calloc(n + 1, sizeof *parent);
    const char *wrong = !parent ? NO_MEMORY : !upper ? why(cc) : NULL;
    if (!wrong && !cholmod_etree(upper, parent, cc)) wrong = why(cc);
    for (size_t j = 0; j < n && !wrong; j++) {
        if (parent[j] >= 0 && ((size_t)parent[j] <= j || (size_t)parent[j] >= n)) wrong = "CHOLMOD's tree is no tree";
        lists->parents[j] = parent[j] < 0 ? 0 : (uint32_t)parent[j] + 1;
    }
    if (!wrong) wrong = fill_lists(upper, parent, lists, cc);
    free(parent);
    cholmod_free_sparse(&upper, cc);
    return wrong;
}

const char *cholmod_lists_of(const mm_pattern *m, const uint32_t *given, cholmod_lists *lists) {
    cholmod_common cc;
    const char *wrong = NULL;
    *lists = (cholmod_lists){0};
    cholmod_start(&cc);
    cc.print = 0;       /* farm speaks for itself */
    cholmod_sparse *a = lower_of(m, &cc);
    cholmod_factor *f = a ? analysis_of(a, given, &cc) : NULL;
    if (!f || cc.status != CHOLMOD_OK) wrong = why(&cc);
    else if (!take(lists, f)) wrong = NO_MEMORY;
    else wrong = read_lists(a, f, lists, &cc);
    cholmod_free_factor(&f, &cc);
    cholmod_free_sparse(&a, &cc);
    cholmod_finish(&cc);
    if (wrong) cholmod_lists_free(lists);
    return wrong;
}
#endif
