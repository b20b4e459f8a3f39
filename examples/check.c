/* The solver's side: reads a stored key and a stored plan, and prints what the call answers.
   usage: check KEY-FILE PLAN-FILE      exits 0 if the plan is sound for the key's job */
#include "../include/loomsaffron.h"
#include <inttypes.h>
#include <stdio.h>
#include <stdlib.h>

static uint8_t *load(const char *path, size_t *count) {
    FILE *f = fopen(path, "rb");
    if (!f || fseek(f, 0, SEEK_END)) { perror(path); exit(2); }
    long size = ftell(f); rewind(f);
    uint8_t *bytes = malloc((size_t)size + 1); *count = fread(bytes, 1, (size_t)size, f); fclose(f);
    return bytes;
}

int main(int argc, char **argv) {
    if (argc != 3) { fprintf(stderr, "usage: check KEY-FILE PLAN-FILE\n"); return 2; }
    size_t key_len, plan_len;
    uint8_t *key = load(argv[1], &key_len), *plan = load(argv[2], &plan_len);
    uint64_t answer = check(key, key_len, plan, plan_len), number = answer >> 32, place = answer & UINT32_MAX;
    if (number) printf("refused %" PRIu64 " at %" PRIu64 "\n", number, place); else printf("sound\n");
    return number != 0;
}
