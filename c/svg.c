#include "svg.h"
#include <inttypes.h>
#include <stdarg.h>
#include <stdio.h>
#include <stdlib.h>

enum { LONGEST_NAME = 48 };     /* letters of a name in a title: a longer one would run over the page */

/* Makes the room for so many more bytes and the 0 behind them. */
static int has_room(svg_page *f, size_t more) {
    size_t room = f->room ? f->room : 1 << 14;
    while (room - f->length <= more) room *= 2;
    if (!f->failed && room != f->room) {
        char *text = realloc(f->text, room);
        if (text) { f->text = text; f->room = room; } else f->failed = 1;
    }
    return !f->failed;
}

static void put_list(svg_page *f, const char *form, va_list list) {
    va_list again;
    va_copy(again, list);
    int count = vsnprintf(NULL, 0, form, again);
    va_end(again);
    if (count < 0) f->failed = 1;
    else if (has_room(f, (size_t)count)) f->length += (size_t)vsnprintf(f->text + f->length, (size_t)count + 1, form, list);
}

void svg_put(svg_page *f, const char *form, ...) {
    va_list more;
    va_start(more, form);
    put_list(f, form, more);
    va_end(more);
}

svg_number svg_grouped(uint64_t value) {
    char digits[24];
    svg_number out;
    size_t count = (size_t)snprintf(digits, sizeof digits, "%" PRIu64, value), at = 0;
    for (size_t k = 0; k < count; k++) {
        if (k && (count - k) % 3 == 0) out.text[at++] = ',';
        out.text[at++] = digits[k];
    }
    out.text[at] = 0;
    return out;
}

/* The bytes of the letter at c, or 0 if it is none that XML takes: bad UTF-8, a control, or one of the code points kept out of XML. */
static size_t letter(const unsigned char *c) {
    if (c[0] < 128) return c[0] >= ' ' && c[0] != 127;
    size_t length = c[0] >= 0xC2 && c[0] < 0xE0 ? 2 : (c[0] & 0xF0) == 0xE0 ? 3 : c[0] >= 0xF0 && c[0] < 0xF5 ? 4 : 0;
    uint32_t point = c[0] & (0x7Fu >> length);
    for (size_t k = 1; k < length; k++) {
        if ((c[k] & 0xC0) != 0x80) return 0;
        point = point << 6 | (c[k] & 0x3Fu);
    }
    if (length == 2) return point < 0xA0 ? 0 : 2;
    if (length == 3) return point < 0x800 || (point >= 0xD800 && point < 0xE000) || point >= 0xFFFE ? 0 : 3;
    return length == 4 && point >= 0x10000 && point < 0x110000 ? 4 : 0;
}

static void put_name(svg_page *f, const char *name) {
    const unsigned char *c = (const unsigned char *)name;
    for (int letters = 0; *c; letters++) {
        if (letters == LONGEST_NAME) { svg_put(f, "…"); return; }
        size_t length = letter(c);
        if (*c == '<') svg_put(f, "&lt;");
        else if (*c == '&') svg_put(f, "&amp;");
        else if (*c == '>') svg_put(f, "&gt;");
        else if (length) svg_put(f, "%.*s", (int)length, (const char *)c);
        else svg_put(f, "?");
        c += length ? length : 1;
    }
}

void svg_begin(svg_page *f, double width, double height, const char *name, const char *title, const char *below) {
    svg_put(f, "<?xml version=\"1.0\" encoding=\"UTF-8\"?>\n");
    svg_put(f, "<svg xmlns=\"http://www.w3.org/2000/svg\" viewBox=\"0 0 %g %g\" width=\"%g\" height=\"%g\" ", width, height, width, height);
    svg_put(f, "font-family=\"Helvetica, Arial, sans-serif\" font-size=\"12\" fill=\"#222\">\n<title>");
    put_name(f, name);
    svg_put(f, ": %s</title>\n<rect width=\"%g\" height=\"%g\" fill=\"#fff\"/>\n", title, width, height);
    svg_put(f, "<text x=\"20\" y=\"28\" font-size=\"18\" font-weight=\"bold\">");
    put_name(f, name);
    svg_put(f, ": %s</text>\n<text x=\"20\" y=\"48\" font-size=\"13\" fill=\"#555\">%s</text>\n", title, below);
}

void svg_end(svg_page *f) { svg_put(f, "</svg>\n"); }

void svg_words(svg_page *f, double x, double y, const char *attributes, const char *form, ...) {
    va_list more;
    svg_put(f, "<text x=\"%.1f\" y=\"%.1f\"%s%s>", x, y, *attributes ? " " : "", attributes);
    va_start(more, form);
    put_list(f, form, more);
    va_end(more);
    svg_put(f, "</text>\n");
}

uint64_t svg_step(uint64_t range, uint64_t most) {
    for (uint64_t ten = 1;; ten *= 10)
        for (uint64_t k = 1; k <= 5; k += k == 2 ? 3 : 1)
            if (range / (k * ten) <= most || ten > UINT64_MAX / 100) return k * ten;
}

/* The next place to be marked after this one: multiples of the step, then n; a multiple that is too near to n is left out. */
static uint64_t next_mark(uint64_t place, uint64_t step, uint64_t n) {
    uint64_t next = (place / step + 1) * step;
    if (place >= n) return n + 1;
    return next >= n || (n - next) * 4 < step * 3 ? n : next;
}

void svg_axis_below(svg_page *f, svg_axis a, double y, uint64_t most, const char *name) {
    uint64_t step = svg_step(a.n, most);
    for (uint64_t k = 1; k <= a.n; k = next_mark(k, step, a.n)) {
        double x = a.start + ((double)k - 0.5) * a.each;
        svg_put(f, "<path d=\"M%.1f %.1fv4\" stroke=\"#222\"/>\n", x, y);
        svg_words(f, x, y + 16, "font-size=\"11\" text-anchor=\"middle\"", "%s", svg_grouped(k).text);
    }
    svg_words(f, a.start + (double)a.n * a.each / 2, y + 32, "text-anchor=\"middle\"", "%s", name);
}

void svg_axis_left(svg_page *f, svg_axis a, double x, uint64_t most, const char *name) {
    uint64_t step = svg_step(a.n, most);
    for (uint64_t k = 1; k <= a.n; k = next_mark(k, step, a.n)) {
        double y = a.start + ((double)k - 0.5) * a.each;
        svg_put(f, "<path d=\"M%.1f %.1fh-4\" stroke=\"#222\"/>\n", x, y);
        svg_words(f, x - 7, y + 4, "font-size=\"11\" text-anchor=\"end\"", "%s", svg_grouped(k).text);
    }
    double middle = a.start + (double)a.n * a.each / 2;
    svg_put(f, "<text transform=\"translate(%.1f %.1f) rotate(-90)\" text-anchor=\"middle\">%s</text>\n", x - 48, middle, name);
}
