/* Small things that the programs here share. */
#ifndef TOOLS_H
#define TOOLS_H
#include <stdint.h>
#include <stdio.h>
#include <stdlib.h>
#include <string.h>

static inline void must(int good, const char *what) { if (!good) { fprintf(stderr, "%s\n", what); exit(1); } }
static inline void *room_of(size_t count, size_t size) { void *p = calloc(count + 1, size); must(p != NULL, "no memory"); return p; }

/* Seeded draws, the same everywhere. draw: a number from 0 to below - 1. */
static uint64_t seed = 1;
static inline void sow(uint64_t number) { seed = number * 2654435761u + 88172645463325252u; if (!seed) seed = 1; }
static inline uint64_t draw(uint64_t below) { seed ^= seed << 13; seed ^= seed >> 7; seed ^= seed << 17; return (seed >> 11) % below; }

/* A number with commas, as the tables have it; good until four more are made. */
static inline const char *grouped(uint64_t v) {
    static char all[4][32]; static int turn;
    char *p = all[turn = (turn + 1) % 4] + 31; *p = 0;
    for (int k = 0; k == 0 || v; k++, v /= 10) { if (k && k % 3 == 0) *--p = ','; *--p = (char)('0' + v % 10); }
    return p;
}

/* An argument is FILE or TITLE=FILE; the title of a bare FILE is its name. */
static inline const char *title_of(const char *argument, char *title, size_t size) {
    const char *equals = strchr(argument, '='), *path = equals ? equals + 1 : argument, *name = strrchr(path, '/');
    if (equals) snprintf(title, size, "%.*s", (int)(equals - argument), argument);
    else { snprintf(title, size, "%s", name ? name + 1 : path); char *dot = strstr(title, ".job"); if (dot) *dot = 0; }
    return path;
}
#endif
