/* Reads a pattern from a Matrix Market file, and a permutation from a file of numbers. Not proved: test_matrix_market.py tries it against a second
   reading of the format.

   Taken: coordinate files, real, integer or pattern, symmetric (either triangle, or both) or general with a symmetric pattern. The banner in any
   case; blank lines and comment lines of any length anywhere after it; LF or CRLF. A line that is no comment has at most 1,024 bytes, as the format
   says. A value must be a number (decimal, E or D exponent; an integer for integer) and is not looked at further: a stored zero is an entry.
   Everything else is refused, at the first faulty line, and no file is taken in part. An entry count over the n * n places of the matrix is refused
   before memory is taken, though repeated entries could make it right. */
#ifndef MATRIX_MARKET_H
#define MATRIX_MARKET_H

#include <stddef.h>
#include <stdint.h>

typedef enum {
    MM_DONE,
    MM_REFUSED,             /* the file is faulty, or of a kind that is not taken */
    MM_TOO_MANY_COLUMNS,    /* over 4,096 columns: the library's refusal 1 */
    MM_UNREADABLE,          /* the system does not let the file be read */
    MM_NO_MEMORY
} mm_answer;

/* The rows strictly below the diagonal, column by column, ascending, from 1: as the library takes them. */
typedef struct {
    uint64_t n, *starts;    /* n + 1 starts */
    uint32_t *rows;
    size_t rows_len;
    uint64_t repeated;      /* entries left out because an earlier line has the same row and column */
    uint64_t mirrored;      /* symmetric files: pairs of places that are given in both triangles */
    uint64_t unended;       /* the last line, if it has an entry but no line end, as when a file is cut off; else 0 */
} mm_pattern;

/* Why a file was not taken: one line of words, and the line of the file from 1. A file that ends too early is faulty in the line that is missing.
   0: no line is at fault. */
typedef struct {
    uint64_t line;
    char words[240];
} mm_fault;

/* Unless done, the pattern is empty and nothing is to be freed. */
mm_answer mm_read_pattern(const char *path, mm_pattern *pattern, mm_fault *fault);

/* Reads n numbers, each of 1 to n once, with blanks or line ends between. The k-th says which column of the matrix becomes column k. */
mm_answer mm_read_permutation(const char *path, uint64_t n, uint32_t *numbers, mm_fault *fault);

/* The pattern with its columns in a new order; numbers must be a permutation of 1 to n. */
mm_answer mm_permute(const mm_pattern *pattern, const uint32_t *numbers, mm_pattern *permuted, mm_fault *fault);

void mm_free(mm_pattern *pattern);

#endif
