/* The elimination tree. A small tree is drawn as boxes, a column each. A large one is drawn by subtree size: the plan does each subtree in
   consecutive steps with its top last, so a subtree is a stretch of the steps, and its children are stretches below it. */
#include "pictures.h"
#include <inttypes.h>
#include <stdio.h>
#include <stdlib.h>
#include <string.h>

enum { MOST_LEAVES = 16, MOST_LEVELS = 16, CLASSES = 6, NARROWEST = 2 };
static const char *const SHADE[CLASSES] = {"#cfe8c4", "#a6dbc0", "#5cbcc4", "#2b8cbe", "#2259a0", "#0b2a6b"};
static const char *const INK[CLASSES] = {"#222", "#222", "#222", "#fff", "#fff", "#fff"};
static const double LEFT = 70, TOP = 68, WIDE = 800, HIGH = 420;    /* where a large tree is drawn */

static const char NOTE[] = "fill=\"#555\"";

/* Column 0 stands above all roots. */
typedef struct {
    const pictures_plan *p;
    uint64_t *size;     /* the columns of a subtree */
    uint64_t *step;     /* when a column is done; 0 after all */
    uint64_t *level;    /* of boxes: ancestors; of blocks: of the block that a column is in */
    uint64_t *top;      /* the uppermost column of the block that a column is in */
    uint64_t *front;    /* the rows of a column's front; for the top of a block, of its greatest */
    double *middle;     /* of boxes */
    uint64_t leaves, levels, greatest;
    int boxes;          /* drawn as boxes, not as blocks */
} Tree;

static uint64_t parent(const Tree *t, uint64_t column) { return t->p->parents[column - 1]; }
static uint64_t column_at(const Tree *t, uint64_t step) { return t->p->order[step - 1]; }

static void release(Tree *t) {
    free(t->size); free(t->step); free(t->level); free(t->top); free(t->front); free(t->middle);
}

static int take(Tree *t, size_t count) {
    t->size = calloc(count, 8);
    t->step = calloc(count, 8);
    t->level = calloc(count, 8);
    t->top = calloc(count, 8);
    t->front = calloc(count, 8);
    t->middle = calloc(count, sizeof *t->middle);
    return t->size && t->step && t->level && t->top && t->front && t->middle;
}

static void measure(Tree *t) {
    const pictures_plan *p = t->p;
    t->step[0] = p->n + 1;
    t->size[0] = 1;
    for (uint64_t s = 1; s <= p->n; s++) {
        uint64_t j = column_at(t, s);
        t->step[j] = s;
        t->leaves += !t->size[j];
        t->size[j]++;
        t->size[parent(t, j)] += t->size[j];
        t->front[j] = p->fstarts[j] - p->fstarts[j - 1] + 1;
        if (t->front[j] > t->greatest) t->greatest = t->front[j];
    }
    for (uint64_t s = p->n; s; s--) {
        uint64_t j = column_at(t, s), above = parent(t, j);
        t->level[j] = above ? t->level[above] + 1 : 0;
        if (t->level[j] >= t->levels) t->levels = t->level[j] + 1;
    }
}

/* ---- colours: classes of fronts, as equal as they can be, the last up to the greatest front */

static uint64_t class_end(const Tree *t, int class) { return (t->greatest * (uint64_t)(class + 1) + CLASSES - 1) / CLASSES; }

static int class_of(const Tree *t, uint64_t front) {
    int class = 0;
    while (front > class_end(t, class)) class++;
    return class;
}

static void legend(svg_page *f, const Tree *t, double x, double y) {
    svg_words(f, x, y + 10, "", "rows of the %sfront:", t->boxes ? "" : "greatest ");
    x += t->boxes ? 125 : 185;
    for (int k = 0; k < CLASSES; k++) {
        uint64_t from = k ? class_end(t, k - 1) + 1 : 1, to = class_end(t, k);
        if (from > to) continue;
        svg_put(f, "<rect x=\"%.1f\" y=\"%.1f\" width=\"18\" height=\"12\" fill=\"%s\" stroke=\"#666\" stroke-width=\"0.5\"/>\n", x, y, SHADE[k]);
        svg_words(f, x + 23, y + 10, "", from == to ? "%s" : "%s–%s", svg_grouped(from).text, svg_grouped(to).text);
        x += from == to ? 58 : to < 1000 ? 94 : 116;
    }
}

/* ---- a small tree: boxes */

static const double UNIT = 66, PITCH = 58, BOX = 54, TALL = 36;

/* Leaves stand side by side in the order of the plan, a column above the middle of its children. */
static void place_boxes(Tree *t) {
    double next = 0.5;
    for (uint64_t s = 1; s <= t->p->n; s++) {
        uint64_t j = column_at(t, s);
        if (t->size[j] == 1) t->middle[j] = next++;
        else {
            uint64_t last = column_at(t, s - 1), first = last;
            for (uint64_t at = s - 1, end = s - t->size[j]; at > end; at -= t->size[first]) first = column_at(t, at);
            t->middle[j] = (t->middle[first] + t->middle[last]) / 2;
        }
    }
}

static void draw_boxes(svg_page *f, Tree *t, double left) {
    place_boxes(t);
    for (uint64_t j = 1; j <= t->p->n; j++) {
        uint64_t above = parent(t, j);
        if (above) svg_put(f, "<path d=\"M%.1f %.1fL%.1f %.1f\" stroke=\"#888\"/>\n", left + t->middle[j] * UNIT, TOP + (double)t->level[j] * PITCH,
                           left + t->middle[above] * UNIT, TOP + (double)t->level[above] * PITCH + TALL);
    }
    for (uint64_t j = 1; j <= t->p->n; j++) {
        double x = left + t->middle[j] * UNIT, y = TOP + (double)t->level[j] * PITCH;
        int class = class_of(t, t->front[j]);
        char ink[80];
        svg_put(f, "<rect x=\"%.1f\" y=\"%.1f\" width=\"%g\" height=\"%g\" rx=\"5\" ", x - BOX / 2, y, BOX, TALL);
        svg_put(f, "fill=\"%s\" stroke=\"#666\"/>\n", SHADE[class]);
        snprintf(ink, sizeof ink, "text-anchor=\"middle\" font-size=\"14\" font-weight=\"bold\" fill=\"%s\"", INK[class]);
        svg_words(f, x, y + 16, ink, "%" PRIu64, j);
        snprintf(ink, sizeof ink, "text-anchor=\"middle\" font-size=\"11\" fill=\"%s\"", INK[class]);
        svg_words(f, x, y + 30, ink, "front %" PRIu64, t->front[j]);
    }
}

/* ---- a large tree: blocks. A block is a run of columns, each the only part below the next. Subtrees of fewer columns than `small` get no block of
   their own: neighbours are drawn as one group, if together they are no longer small, and are left out of the drawing if not. */

typedef struct { uint64_t first, last, level, front; int group; } Block;

static uint64_t small_size(const Tree *t) { return (t->p->n * NARROWEST + (uint64_t)WIDE - 1) / (uint64_t)WIDE; }

/* The part below a column that ends at this step: a subtree, or a stretch of small ones back to the step `end`; its first step. */
static uint64_t part_from(const Tree *t, uint64_t step, uint64_t end, int *group) {
    uint64_t small = small_size(t), size = t->size[column_at(t, step)];
    *group = size < small;
    if (!*group) return step - size + 1;
    while (step > end && (size = t->size[column_at(t, step)]) < small) step -= size;
    return step + 1;
}

/* The number of parts of a column that are drawn. */
static int parts(const Tree *t, uint64_t column) {
    int count = 0, group;
    uint64_t end = t->step[column] - t->size[column];
    for (uint64_t s = t->step[column] - 1, first; s > end; s = first - 1) {
        first = part_from(t, s, end, &group);
        count += s - first + 1 >= small_size(t);
    }
    return count;
}

static uint64_t greatest_front(const Tree *t, uint64_t first, uint64_t last) {
    uint64_t greatest = 0;
    for (uint64_t s = first; s <= last; s++) if (t->front[column_at(t, s)] > greatest) greatest = t->front[column_at(t, s)];
    return greatest;
}

/* Puts the drawn subtrees below a column into its block, if there is but one part, or into blocks of their own; adds the groups. */
static size_t split(Tree *t, uint64_t column, Block *block, size_t blocks) {
    uint64_t end = t->step[column] - t->size[column], top = t->top[column];
    int alone = column && parts(t, column) == 1, group;
    for (uint64_t s = t->step[column] - 1, first; s > end; s = first - 1) {
        uint64_t child = column_at(t, s), level = column ? t->level[top] + 1 : 0;
        first = part_from(t, s, end, &group);
        if (s - first + 1 < small_size(t)) continue;
        if (group) block[blocks++] = (Block){first, s, level, greatest_front(t, first, s), 1};
        else if (alone) {
            t->top[child] = top;
            if (t->front[child] > t->front[top]) t->front[top] = t->front[child];
        } else {
            t->top[child] = child;
            t->level[child] = level;
        }
        if (level >= t->levels && (group || !alone)) t->levels = level + 1;
    }
    return blocks;
}

/* All blocks, parents before children; their number. */
static size_t make_blocks(Tree *t, Block *block) {
    size_t blocks = 0;
    t->levels = 0;
    blocks = split(t, 0, block, blocks);
    for (uint64_t s = t->p->n; s; s--) {
        uint64_t j = column_at(t, s);
        if (t->top[j]) blocks = split(t, j, block, blocks);
    }
    for (uint64_t s = t->p->n; s; s--) {
        uint64_t j = column_at(t, s);
        if (t->top[j] == j) block[blocks++] = (Block){s - t->size[j] + 1, s, t->level[j], t->front[j], 0};
    }
    return blocks;
}

static void draw_block(svg_page *f, const Tree *t, Block b, double high) {
    double each = WIDE / (double)t->p->n, wide = (double)(b.last - b.first + 1) * each;
    double x = LEFT + (double)(b.first - 1) * each, y = TOP + (double)b.level * high;
    svg_number number = svg_grouped(b.front);
    int class = class_of(t, b.front);
    svg_put(f, "<path d=\"M%.1f %.1fh%.2fv%.1fh%.2fz\" fill=\"%s\"/>\n", x, y, wide, high, -wide, SHADE[class]);
    if (b.group) svg_put(f, "<path d=\"M%.1f %.1fh%.2fv%.1fh%.2fz\" fill=\"url(#hatch)\"/>\n", x, y, wide, high, -wide);
    if (high >= 12 && wide >= 7 * (double)strlen(number.text) + 4 && !b.group) {
        char ink[80];
        snprintf(ink, sizeof ink, "stroke=\"none\" text-anchor=\"middle\" font-size=\"11\" fill=\"%s\"", INK[class]);
        svg_words(f, x + wide / 2, y + high / 2 + 4, ink, "%s", number.text);
    }
}

static void draw_blocks(svg_page *f, const Tree *t, const Block *block, size_t blocks, double high) {
    double down = (double)t->levels * high;
    svg_put(f, "<defs><pattern id=\"hatch\" width=\"4\" height=\"4\" patternUnits=\"userSpaceOnUse\">"
               "<path d=\"M0 4L4 0\" stroke=\"#fff\" stroke-width=\"1.4\"/>"
               "<path d=\"M0 4L4 0\" stroke=\"#777\" stroke-width=\"0.5\"/></pattern></defs>\n");
    svg_put(f, "<g stroke=\"#fff\" stroke-width=\"0.4\">\n");
    for (size_t k = 0; k < blocks; k++) draw_block(f, t, block[k], high);
    svg_put(f, "</g>\n");
    svg_put(f, "<path d=\"M%.1f %.1fv%.1fh%.1f\" fill=\"none\" stroke=\"#222\"/>\n", LEFT, TOP, down, WIDE);
    svg_axis_below(f, (svg_axis){t->p->n, LEFT, WIDE / (double)t->p->n}, TOP + down, 9, "step of the plan");
    svg_axis_left(f, (svg_axis){t->levels, TOP, high}, LEFT, 12, "level");
}

/* ---- the picture */

static void heading(char *words, size_t room, const Tree *t) {
    snprintf(words, room, "%s column%s %s, mark %" PRIu64 "; depth %s, greatest front %s", svg_grouped(t->p->n).text, t->p->n == 1 ? "" : "s",
             t->p->ordering, t->p->mark, svg_grouped(t->levels).text, svg_grouped(t->greatest).text);
}

static void small_tree(svg_page *f, Tree *t) {
    char words[200];
    double wide = (double)t->leaves * UNIT, page = wide + 60 < 640 ? 640 : wide + 60, below = TOP + (double)t->levels * PITCH;
    heading(words, sizeof words, t);
    svg_begin(f, page, below + 70, t->p->name, "elimination tree", words);
    if (t->p->n) {
        draw_boxes(f, t, (page - wide) / 2);
        legend(f, t, 20, below + 4);
        svg_words(f, 20, below + 38, NOTE, "A box is a column and the rows of its front; a line leads up to its parent.");
        svg_words(f, 20, below + 54, NOTE, "From left to right: the order of the plan.");
    } else svg_words(f, 20, TOP + 20, "", "There are no columns.");
    svg_end(f);
}

static void large_tree(svg_page *f, Tree *t, Block *block) {
    char words[200];
    heading(words, sizeof words, t);
    size_t blocks = make_blocks(t, block);
    double fits = HIGH / (double)t->levels, high = fits > 26 ? 26 : fits, below = TOP + high * (double)t->levels + 48;
    svg_begin(f, LEFT + WIDE + 30, below + 82, t->p->name, "elimination tree", words);
    draw_blocks(f, t, block, blocks, high);
    legend(f, t, 20, below);
    svg_words(f, 20, below + 34, NOTE, "A block is a run of columns, each the only child of the next; its number is its greatest front.");
    svg_words(f, 20, below + 50, NOTE, "It is as wide as its subtree: its children lie below it, and its own columns come last, at its right end.");
    if (small_size(t) > 1)
        svg_words(f, 20, below + 66, NOTE, "Subtrees of fewer than %" PRIu64 " columns are drawn together (hatched), or left out where they are few.",
                  small_size(t));
    svg_end(f);
}

int picture_tree(svg_page *f, const pictures_plan *p) {
    Tree t = {.p = p};
    int taken = take(&t, (size_t)p->n + 1);
    Block *block = calloc((size_t)p->n + 1, sizeof *block);
    if (taken && block) {
        measure(&t);
        t.boxes = t.leaves <= MOST_LEAVES && t.levels <= MOST_LEVELS;
        if (t.boxes) small_tree(f, &t); else large_tree(f, &t, block);
    }
    release(&t);
    free(block);
    return taken && block && !f->failed;
}
