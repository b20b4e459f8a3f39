/* The pattern, and beside it the factor: what of it is pattern and what is fill. A large matrix is drawn in cells of many places each. */
#include "pictures.h"
#include <inttypes.h>
#include <stdio.h>
#include <stdlib.h>

enum { MOST_CELLS = 200, SHADES = 4, SIDE = 400, WIDEST = 40, LEFT = 76, TOP = 92, GAP = 90, NARROWEST = 270 };
enum { EMPTY, PATTERN = 1, FILL = PATTERN + SHADES };   /* a cell's class: empty, or one of the shades of a colour; the last shade is the darkest */
static const char *const COLOUR[1 + 2 * SHADES] = {"none", "#cfe1f2", "#86b5dc", "#3a7fbf", "#0b3c78", "#fde3c0", "#fbb566", "#e67f1c", "#9a4204"};
static const char HEAD[] = "font-size=\"13\" font-weight=\"bold\"";
static const char *const SHARE[SHADES] = {"to 1/64", "to 1/16", "to 1/4", "to all"};

typedef struct { uint32_t *taken, *places; uint8_t *filled, *class; uint64_t each, count; double size; } Cells;

static int take(Cells *c, uint64_t n) {
    c->each = n > MOST_CELLS ? (n + MOST_CELLS - 1) / MOST_CELLS : 1;
    c->count = (n + c->each - 1) / c->each;
    c->size = n * WIDEST < SIDE ? WIDEST : SIDE / (double)(c->count ? c->count : 1);
    size_t all = (size_t)(c->count * c->count) + 1;
    c->taken = calloc(all, sizeof *c->taken);
    c->places = calloc(all, sizeof *c->places);
    c->filled = calloc(all, 1);
    c->class = calloc(all, 1);
    return c->taken && c->places && c->filled && c->class;
}

static void release(Cells *c) { free(c->taken); free(c->places); free(c->filled); free(c->class); }

/* The cell of a place; row and column count from 1. */
static size_t cell(const Cells *c, uint64_t row, uint64_t column) { return (size_t)((row - 1) / c->each * c->count + (column - 1) / c->each); }

/* How many places on and below the diagonal each cell has. */
static void count_places(Cells *c, uint64_t n) {
    for (uint64_t j = 1; j <= n; j++) for (uint64_t i = j; i <= n; i++) c->places[cell(c, i, j)]++;
}

/* Puts a pattern and its diagonal into the cells. */
static void put_pattern(Cells *c, const pictures_plan *p) {
    for (uint64_t j = 1; j <= p->n; j++) {
        c->taken[cell(c, j, j)]++;
        for (uint64_t q = p->starts[j - 1]; q < p->starts[j]; q++) c->taken[cell(c, p->rows[q], j)]++;
    }
}

/* Adds the rows of the factor that are not in the pattern. Both lists of a column ascend. */
static void add_fill(Cells *c, const pictures_plan *p) {
    for (uint64_t j = 1; j <= p->n; j++) {
        uint64_t at = p->starts[j - 1];
        for (uint64_t q = p->fstarts[j - 1]; q < p->fstarts[j]; q++) {
            if (at < p->starts[j] && p->rows[at] == p->frows[q]) { at++; continue; }
            size_t k = cell(c, p->frows[q], j);
            c->taken[k]++;
            c->filled[k] = 1;
        }
    }
}

static void classify(Cells *c) {
    for (size_t k = 0; k < c->count * c->count; k++) {
        uint32_t t = c->taken[k], all = c->places[k];
        int shade = c->each == 1 ? c->filled[k] ? 1 : 2 : t * 64 <= all ? 0 : t * 16 <= all ? 1 : t * 4 <= all ? 2 : 3;
        c->class[k] = (uint8_t)(t ? (c->filled[k] ? FILL : PATTERN) + shade : EMPTY);
    }
}

/* One path for all cells of a class; neighbours in a row are one stretch. */
static void draw_class(svg_page *f, const Cells *c, int class) {
    int any = 0;
    for (uint64_t row = 0; row < c->count; row++)
        for (uint64_t k = 0, end; k < c->count; k = end) {
            const uint8_t *line = c->class + row * c->count;
            for (end = k + 1; end < c->count && line[end] == line[k]; end++) {}
            if (line[k] != class) continue;
            if (!any++) svg_put(f, "<path fill=\"%s\" d=\"", COLOUR[class]);
            svg_put(f, "M%" PRIu64 " %" PRIu64 "h%" PRIu64 "v1h-%" PRIu64 "z", k, row, end - k, end - k);
        }
    if (any) svg_put(f, "\"/>\n");
}

/* White lines between cells that are large enough for them. */
static void draw_lines(svg_page *f, const Cells *c, double left) {
    if (c->size < 6) return;
    double side = (double)c->count * c->size;
    svg_put(f, "<path stroke=\"#fff\" d=\"");
    for (uint64_t k = 1; k < c->count; k++)
        svg_put(f, "M%.1f %dv%.1fM%.1f %.1fh%.1f", left + (double)k * c->size, TOP, side, left, TOP + (double)k * c->size, side);
    svg_put(f, "\"/>\n");
}

static void draw_cells(svg_page *f, const Cells *c, uint64_t n, double left, const char *rows) {
    double side = (double)n / (double)c->each * c->size;
    /* an svg inside cuts off what the last cells have beyond n */
    svg_put(f, "<svg x=\"%g\" y=\"%d\" width=\"%.2f\" height=\"%.2f\" viewBox=\"0 0 %g %g\" shape-rendering=\"crispEdges\">\n", left, TOP, side, side,
            side / c->size, side / c->size);
    for (int class = 1; class <= 2 * SHADES; class++) draw_class(f, c, class);
    svg_put(f, "</svg>\n");
    draw_lines(f, c, left);
    svg_put(f, "<rect x=\"%g\" y=\"%d\" width=\"%.2f\" height=\"%.2f\" fill=\"none\" stroke=\"#222\"/>\n", left, TOP, side, side);
    svg_axis_below(f, (svg_axis){n, left, side / (double)n}, TOP + side, side < 200 ? 10 : n <= 20 ? 20 : 8, "column");
    svg_axis_left(f, (svg_axis){n, TOP, side / (double)n}, left, n <= 20 ? 20 : 10, rows);
}

static void swatch(svg_page *f, double x, double y, const char *colour, const char *words) {
    svg_put(f, "<rect x=\"%g\" y=\"%g\" width=\"18\" height=\"12\" fill=\"%s\"/>\n", x, y, colour);
    svg_words(f, x + 23, y + 10, "", "%s", words);
}

static void legend(svg_page *f, const Cells *c, double y) {
    if (c->each == 1) {
        swatch(f, 20, y, COLOUR[PATTERN + 2], "pattern, and the diagonal");
        swatch(f, 230, y, COLOUR[FILL + 1], "fill");
        return;
    }
    svg_words(f, 20, y + 10, "", "pattern alone:");
    svg_words(f, 20, y + 30, "", "with fill:");
    for (int k = 0; k < SHADES; k++) {
        swatch(f, 120 + k * 100, y, COLOUR[PATTERN + k], SHARE[k]);
        swatch(f, 120 + k * 100, y + 20, COLOUR[FILL + k], SHARE[k]);
    }
    svg_words(f, 540, y + 10, "fill=\"#555\"", "of the places of a cell are taken;");
    svg_words(f, 540, y + 30, "fill=\"#555\"", "a cell is %" PRIu64 " by %" PRIu64 " places.", c->each, c->each);
}

static void draw_both(svg_page *f, Cells *c, const pictures_plan *p, double right) {
    uint64_t rows = p->starts[p->n], factor = p->fstarts[p->n];
    svg_words(f, LEFT, TOP - 14, HEAD, "pattern: %s row%s below the diagonal", svg_grouped(rows).text, rows == 1 ? "" : "s");
    svg_words(f, right, TOP - 14, HEAD, "factor: %s row%s below the diagonal", svg_grouped(factor).text, factor == 1 ? "" : "s");
    count_places(c, p->n);
    put_pattern(c, p);
    classify(c);
    draw_cells(f, c, p->n, LEFT, "row");
    add_fill(c, p);
    classify(c);
    draw_cells(f, c, p->n, right, "row");
}

int picture_fill(svg_page *f, const pictures_plan *p) {
    Cells c = {0};
    char words[200];
    int taken = take(&c, p->n);
    if (taken) {
        uint64_t fill = p->fstarts[p->n] - p->starts[p->n];
        double side = (double)p->n / (double)c.each * c.size, right = LEFT + (side < NARROWEST ? NARROWEST : side) + GAP;
        snprintf(words, sizeof words, "%s column%s %s; elimination adds %s row%s below the diagonal", svg_grouped(p->n).text, p->n == 1 ? "" : "s",
                 p->ordering, svg_grouped(fill).text, fill == 1 ? "" : "s");
        svg_begin(f, right + (side < NARROWEST ? NARROWEST : side) + 24, TOP + side + (c.each == 1 ? 76 : 96), p->name, "pattern and fill", words);
        if (p->n) draw_both(f, &c, p, right); else svg_words(f, 20, TOP, "", "There are no columns.");
        if (p->n) legend(f, &c, TOP + side + 48);
        svg_end(f);
    }
    release(&c);
    return taken && !f->failed;
}
