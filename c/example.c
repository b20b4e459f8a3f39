/* Analyses the nine columns of examples/nine.job, stores their plan in nine.plan, reads it back, checks it and runs it. */
#include <inttypes.h>
#include <ls_plan.h>
#include <stdio.h>

int main(void) {
    const uint64_t starts[] = {0, 3, 3, 5, 7, 9, 10, 11, 11, 11};
    const uint32_t rows[] = {2, 8, 9, 4, 7, 8, 9, 6, 8, 7, 9};
    const ls_job job = {.n = 9, .starts = starts, .starts_len = 10, .rows = rows, .rows_len = 11, .mark = 0, .limit = 20};
    ls_plan plan = {0};
    uint8_t stored[1000];
    ls_answer a = ls_plan_write(&plan, &job);
    FILE *file = a.number ? NULL : fopen("nine.plan", "w+b");
    int kept = file && fwrite(plan.bytes, 1, plan.bytes_len, file) == plan.bytes_len && !fseek(file, 0, SEEK_SET);
    size_t length = kept ? fread(stored, 1, sizeof stored, file) : 0;
    if (kept) a = ls_plan_check(&plan, &job, stored, length);
    if (kept && !a.number) a = ls_plan_run(&plan, plan.peak);
    if (a.number) fprintf(stderr, "refusal %" PRIu64 ", place %" PRIu64 ", count %" PRIu64 ": %s\n", a.number, a.place, a.count, ls_words(a.number));
    else if (!kept) perror("nine.plan");
    else printf("%" PRIu64 " columns, %zu factor rows, peak %" PRIu64 ", %zu bytes stored\n", plan.n, plan.frows_len, plan.peak, length);
    if (file) fclose(file);
    ls_plan_free(&plan);
    return a.number || !kept;
}
