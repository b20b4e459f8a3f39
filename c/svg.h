/* What the pictures share of SVG: the page, words, numbers and the marks of an axis. Not proved. */
#ifndef SVG_H
#define SVG_H

#include <stddef.h>
#include <stdint.h>

/* A page that grows as it is written; it begins as {0}, and its text is the writer's to free. Once it has failed, for want of memory, it stays so. (A
   stream in memory would do, but in some C libraries it loses text without a word when there is no memory.) */
typedef struct { char *text; size_t length, room; int failed; } svg_page;
void svg_put(svg_page *f, const char *form, ...);

/* A number with commas: 1,234,567. */
typedef struct { char text[28]; } svg_number;
svg_number svg_grouped(uint64_t value);

/* Begins a page: its size, a title that starts with a name (any bytes: what XML does not take becomes ?), and a line below it. */
void svg_begin(svg_page *f, double width, double height, const char *name, const char *title, const char *below);
void svg_end(svg_page *f);

/* Words at a place; attributes may be "". The words must need no escape. */
void svg_words(svg_page *f, double x, double y, const char *attributes, const char *form, ...);

/* 1, 2 or 5 times a power of ten, so that at most `most` steps of it fit into the range; at least 1. */
uint64_t svg_step(uint64_t range, uint64_t most);

/* Where the places 1 to n of an axis lie: each takes `each` units, the first begins at `start`. */
typedef struct { uint64_t n; double start, each; } svg_axis;

/* Marks and numbers of a horizontal axis at height y, at most `most` and the last; its name below them. */
void svg_axis_below(svg_page *f, svg_axis a, double y, uint64_t most, const char *name);
/* The same at the left, from top to bottom; its name is turned. */
void svg_axis_left(svg_page *f, svg_axis a, double x, uint64_t most, const char *name);

#endif
