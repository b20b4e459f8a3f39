/* The room in use over the steps of the plan, a panel for each sibling mark, all on one scale. */
#include "pictures.h"
#include <inttypes.h>
#include <stdio.h>

enum { MARKS = 3, WIDE = 270, HIGH = 260, GAP = 42, LEFT = 96, TOP = 100 };
static const char *const RULE[MARKS] = {"ascending numbers", "descending W − t", "descending t"};
static const char IN_USE[] = "#a9cfe8", HELD[] = "#4a86bd", PEAK[] = "#b2182b", NOTE[] = "fill=\"#555\"";

/* The greatest of the values of the k-th of `bars` equal stretches of the steps. */
static uint64_t greatest_in(const uint64_t *values, uint64_t n, uint64_t k, uint64_t bars) {
    uint64_t greatest = 0;
    for (uint64_t s = k * n / bars; s < (k + 1) * n / bars; s++) if (values[s] > greatest) greatest = values[s];
    return greatest;
}

/* A filled stair: for each step its value, or a bar for several steps where they would be narrower than a point. */
static void draw_stair(svg_page *f, const uint64_t *values, uint64_t n, double left, double scale, const char *colour) {
    uint64_t bars = n < WIDE ? n : WIDE;
    svg_put(f, "<path fill=\"%s\" d=\"M%g %d", colour, left, TOP + HIGH);
    for (uint64_t k = 0; k < bars; k++)
        svg_put(f, "V%.1fH%.1f", TOP + HIGH - (double)greatest_in(values, n, k, bars) * scale, left + WIDE * (double)(k + 1) / (double)bars);
    svg_put(f, "V%dz\"/>\n", TOP + HIGH);
}

static void draw_peak(svg_page *f, const pictures_plan *p, int mark, double left, double scale) {
    uint64_t step = 1;
    while (step < p->n && p->in_use[mark][step - 1] < p->peak[mark]) step++;
    double x = left + ((double)step - 0.5) * WIDE / (double)p->n, y = TOP + HIGH - (double)p->peak[mark] * scale;
    int right = x > left + WIDE / 2.0;
    char place[120];
    svg_put(f, "<path d=\"M%g %.1fh%d\" stroke=\"%s\" stroke-dasharray=\"4 3\"/>\n", left, y, WIDE, PEAK);
    svg_put(f, "<circle cx=\"%.1f\" cy=\"%.1f\" r=\"3\" fill=\"%s\"/>\n", x, y, PEAK);
    snprintf(place, sizeof place, "fill=\"%s\" font-weight=\"bold\" text-anchor=\"%s\"", PEAK, right ? "end" : "start");
    svg_words(f, right ? left + WIDE - 4 : left + 4, y - 7, place, "peak %s, step %s", svg_grouped(p->peak[mark]).text, svg_grouped(step).text);
}

static void draw_panel(svg_page *f, const pictures_plan *p, int mark, double scale) {
    double left = LEFT + mark * (WIDE + GAP);
    const char *head = (uint64_t)mark == p->mark ? "font-size=\"13\" font-weight=\"bold\"" : "font-size=\"13\"";
    svg_words(f, left, TOP - 14, head, "mark %d: %s", mark, RULE[mark]);
    draw_stair(f, p->in_use[mark], p->n, left, scale, IN_USE);
    draw_stair(f, p->held[mark], p->n, left, scale, HELD);
    svg_put(f, "<path d=\"M%g %dv%dh%d\" fill=\"none\" stroke=\"#222\"/>\n", left, TOP, HIGH, WIDE);
    svg_axis_below(f, (svg_axis){p->n, left, WIDE / (double)p->n}, TOP + HIGH, 4, "step");
    draw_peak(f, p, mark, left, scale);
}

/* Numbers at the left and thin lines through all panels. */
static void draw_scale(svg_page *f, uint64_t most, double scale) {
    for (uint64_t step = svg_step(most, 6), value = 0; value <= most; value += step) {
        double y = TOP + HIGH - (double)value * scale;
        svg_put(f, "<path d=\"M%d %.1fh%d\" stroke=\"#ddd\"/>\n", LEFT, y, MARKS * WIDE + (MARKS - 1) * GAP);
        svg_words(f, LEFT - 6, y + 4, "font-size=\"11\" text-anchor=\"end\"", "%s", svg_grouped(value).text);
    }
    svg_put(f, "<text transform=\"translate(24 %d) rotate(-90)\" text-anchor=\"middle\">entries</text>\n", TOP + HIGH / 2);
}

static void legend(svg_page *f, const pictures_plan *p, double y) {
    svg_put(f, "<rect x=\"%d\" y=\"%g\" width=\"18\" height=\"12\" fill=\"%s\"/>\n<rect x=\"%d\" y=\"%g\" width=\"18\" height=\"12\" fill=\"%s\"/>\n",
            LEFT, y, IN_USE, LEFT + 290, y, HELD);
    svg_words(f, LEFT + 23, y + 10, "", "in use at the step: stack and front");
    svg_words(f, LEFT + 313, y + 10, "", "held on the stack after the step");
    svg_words(f, LEFT, y + 32, NOTE, "The mark orders siblings: W is the peak of a sibling's subtree done alone, t the entries of its update.");
    if (p->n > WIDE)
        svg_words(f, LEFT, y + 48, NOTE, "A point across shows the greatest of up to %" PRIu64 " steps.", (p->n + WIDE - 1) / WIDE);
}

/* The marks that need the least room, in words. */
static const char *least_marks(const pictures_plan *p, uint64_t least) {
    static const char *const WORDS[8] = {"", "mark 0", "mark 1", "marks 0 and 1", "mark 2", "marks 0 and 2", "marks 1 and 2", "each mark"};
    int which = 0;
    for (int k = 0; k < MARKS; k++) which |= (p->peak[k] == least) << k;
    return WORDS[which];
}

int picture_room(svg_page *f, const pictures_plan *p) {
    char words[200];
    uint64_t most = 0, least = p->peak[0];
    for (int k = 0; k < MARKS; k++) {
        if (p->peak[k] > most) most = p->peak[k];
        if (p->peak[k] < least) least = p->peak[k];
    }
    double scale = most ? (HIGH - 22) / (double)most : 1;   /* 22 points above the highest peak are for its words */
    snprintf(words, sizeof words, "%s column%s %s; the least peak is %s, with %s", svg_grouped(p->n).text, p->n == 1 ? "" : "s", p->ordering,
             svg_grouped(least).text, least_marks(p, least));
    svg_begin(f, LEFT + MARKS * WIDE + (MARKS - 1) * GAP + 24, TOP + HIGH + 112, p->name, "room in use over the steps", words);
    if (p->n) {
        draw_scale(f, most, scale);
        for (int k = 0; k < MARKS; k++) draw_panel(f, p, k, scale);
        legend(f, p, TOP + HIGH + 48);
    } else svg_words(f, 20, TOP, "", "There are no steps.");
    svg_end(f);
    return !f->failed;
}
