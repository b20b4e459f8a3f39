/* Draws a plan as SVG, for a report or a browser. Not proved: what is drawn comes from the library's analysis, the drawing is plain C. */
#ifndef PICTURES_H
#define PICTURES_H

#include "svg.h"

/* A job, its analysis with one mark, and what the steps of each of the three marks take. Columns and rows are numbered from 1, as the library has
   them; column j is at j - 1 of a list. */
typedef struct {
    const char *name, *ordering;        /* the matrix, any bytes; in words, who ordered its columns */
    uint64_t n, mark;
    const uint64_t *starts, *fstarts;   /* n + 1 each: where the rows of a column begin in rows, and its factor rows in frows */
    const uint32_t *rows, *frows;
    const uint32_t *parents, *order;    /* n each: of the analysis with this mark */
    const uint64_t *in_use[3], *held[3];    /* n each: the room in use at a step, and what is held after it */
    uint64_t peak[3];
} pictures_plan;

/* Each writes one picture to a page and answers 1, or 0 if it could take no memory: then what the page holds is no picture. */
int picture_tree(svg_page *f, const pictures_plan *p);  /* the elimination tree with front sizes */
int picture_room(svg_page *f, const pictures_plan *p);  /* the room in use over the steps, a panel for each mark */
int picture_fill(svg_page *f, const pictures_plan *p);  /* the pattern, and the factor with its fill */

#endif
