/* Another solver's analysis of a matrix: CHOLMOD's, through its own interface. Not proved, and judged by nobody here: what it says becomes plan
   bytes, and the library's check says what they are worth. */
#ifndef CHOLMOD_ANALYSIS_H
#define CHOLMOD_ANALYSIS_H

#include "matrix_market.h"

/* Columns and rows from 1, numbered as CHOLMOD does the columns: step k does column k. */
typedef struct {
    uint32_t *numbers;  /* n: which column of the matrix CHOLMOD does at step k */
    uint32_t *parents;  /* n: 0 for a root */
    uint64_t *starts;   /* n + 1, from its column counts */
    uint32_t *rows;     /* the rows of each factor column below the diagonal, ascending */
} cholmod_lists;

/* The simplicial analysis of a pattern in the given order (NULL: as it is), which CHOLMOD turns into a postorder. NULL if done: the four lists are
   then the caller's to free. Else one line of words, and nothing is to be freed. */
const char *cholmod_lists_of(const mm_pattern *m, const uint32_t *given, cholmod_lists *lists);

void cholmod_lists_free(cholmod_lists *lists);

#endif
