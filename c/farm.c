/* farm: plans a Matrix Market file, checks plans, draws them, and makes plans of CHOLMOD's analyses. Not proved; what it hands to the proved library
   is judged there, and `farm check` asks only the library. It reads everything first, writes at the end, and says what is wrong in one line. HELP
   below says how it is called. */
#define _POSIX_C_SOURCE 200809L
#include "../include/loomsaffron.h"
#include "cholmod_analysis.h"
#include "matrix_market.h"
#include "pictures.h"
#include <errno.h>
#include <fcntl.h>
#include <inttypes.h>
#include <stdarg.h>
#include <stdio.h>
#include <stdlib.h>
#include <string.h>
#include <sys/stat.h>
#include <unistd.h>
#ifdef FARM_AMD
#include <amd.h>
#endif
#ifdef FARM_METIS
#include <metis.h>
#endif

static const char HELP[] =
    "usage: farm plan FILE.mtx [-m MARK] [-l LIMIT] [-p PERM | -o amd|metis|natural] [-d DIR]\n"
    "       farm check KEY PLAN\n"
    "       farm check FILE.mtx PLAN [-m MARK] [-l LIMIT] [-p PERM]\n"
    "       farm show FILE.mtx [-m MARK] [-p PERM | -o amd|metis|natural] [-d DIR]\n"
    "       farm import FILE.mtx [-m MARK] [-l LIMIT] [-p PERM | -o amd|metis|natural] [-d DIR]\n"
    "\n"
    "plan   writes FILE.key and FILE.plan beside FILE.mtx or in DIR, and FILE.perm if a permutation\n"
    "       was used. Files that are there already are replaced only if all went well.\n"
    "check  checks PLAN and runs it at its peak, and prints 'done, peak N', or 'refused NUMBER at\n"
    "       PLACE' and why. A name that ends in .mtx is a matrix: give the -m, -l and -p of its plan.\n"
    "show   draws FILE-tree.svg (the elimination tree with front sizes), FILE-room.svg (the room in use\n"
    "       over the steps, for each mark) and FILE-fill.svg (the pattern, and the factor with its fill).\n"
    "import has CHOLMOD analyse the matrix, writes what it says as a plan, and checks and runs that. If\n"
    "       it passes, FILE-cholmod.key, .plan and .perm are written: CHOLMOD's order is a permutation.\n"
    "\n"
    "-m     the sibling mark: 0 (if not given), 1 or 2\n"
    "-l     the room limit in entries, at most 2^40 (if not given)\n"
    "-p     a file of n numbers: the k-th says which column of the matrix becomes column k of the job\n"
    "-o     the order of the columns: as in the file (natural, if not given), or by AMD or METIS\n"
    "\n"
    "Exit status: 0 done, 1 the library refuses, 2 anything else is wrong.\n";

enum { DONE, REFUSED, WRONG, MOST_TAKEN = 64, MOST_OUTPUTS = 3 };
#define LARGEST_FILE ((size_t)64 << 20)     /* of keys and plans: 4,096 columns take less than 40 MB */

/* ---- what is given back when the program ends */

typedef struct { char *name, *part; } Output;
static struct {
    void *taken[MOST_TAKEN];
    size_t takings;
    mm_pattern matrix, job;
    Output output[MOST_OUTPUTS];
    size_t outputs;
} held;

_Noreturn static void leave(int status) {
    for (size_t k = 0; k < held.outputs; k++) if (held.output[k].part) unlink(held.output[k].part);
    for (size_t k = 0; k < held.takings; k++) free(held.taken[k]);
    mm_free(&held.matrix);
    mm_free(&held.job);
    exit(status);
}

/* One line on standard error: which file or option, which line of it, what is wrong. */
static void tell_list(const char *who, uint64_t line, const char *form, va_list more) {
    char words[400];
    vsnprintf(words, sizeof words, form, more);
    fputs("farm: ", stderr);
    if (who) {
        for (; *who; who++) fputc((unsigned char)*who < ' ' || *who == 127 ? '?' : *who, stderr);
        fputs(": ", stderr);
    }
    if (line) fprintf(stderr, "line %" PRIu64 ": ", line);
    for (char *c = words; *c; c++) fputc((unsigned char)*c < ' ' || *c == 127 ? '?' : *c, stderr);
    fputc('\n', stderr);
}

static void tell(const char *who, uint64_t line, const char *form, ...) {
    va_list more;
    va_start(more, form);
    tell_list(who, line, form, more);
    va_end(more);
}

_Noreturn static void stop(const char *who, int status, const char *form, ...) {
    va_list more;
    va_start(more, form);
    tell_list(who, 0, form, more);
    va_end(more);
    leave(status);
}

static void *hold(void *p) {
    if (!p) stop(NULL, WRONG, "out of memory");
    if (held.takings == MOST_TAKEN) { free(p); stop(NULL, WRONG, "more is held than was foreseen"); }
    return held.taken[held.takings++] = p;
}

static void *room_for(size_t count, size_t size) { return hold(calloc(count ? count : 1, size)); }

/* ---- the library's numbers in words */

static const char *in_words(uint64_t number) {
    switch (number) {
    case LS_TOO_MANY_COLUMNS: return "more than 4,096 columns";
    case LS_UNKNOWN_MARK: return "the sibling mark is not 0, 1 or 2";
    case LS_LIMIT_TOO_LARGE: return "the room limit is over 2^40";
    case LS_BAD_STARTS: return "the start numbers do not fit the rows";
    case LS_ROW_OUT_OF_RANGE: return "a row is not below the diagonal, or over n";
    case LS_ROW_NOT_ASCENDING: return "the rows of a column do not ascend";
    case LS_SLICE_TOO_SHORT: return "a lent slice is too short";
    case LS_ROWS_NEEDED: return "the factor rows do not fit";
    case LS_PEAK_OVER_LIMIT: return "the peak is over the room limit";
    case LS_BYTES_NEEDED: return "the bytes do not fit";
    case LS_WRONG_KEY: return "the plan is for another job: from this byte on it differs from the key";
    case LS_BYTES_END: return "the plan ends inside or before the number that starts at this byte";
    case LS_BAD_NUMBER: return "the number at this byte is too long, or not in shortest form";
    case LS_VALUE_OUT_OF_RANGE: return "the number at this byte is out of its range";
    case LS_BYTES_AFTER: return "bytes follow the plan, from this byte on";
    case LS_COLUMN_REPEATED: return "this step does a column a second time";
    case LS_WRONG_LIST: return "the list of this column is not that of elimination";
    case LS_SUBTREE_SCATTERED: return "the subtree whose top this step does is not in one piece";
    case LS_WRONG_POPS: return "this step does not pop its column's children";
    case LS_WRONG_PEAK: return "the declared peak is not the peak";
    case LS_POPS_OVER_HELD: return "this step of the run pops more than is held";
    case LS_ROW_OUTSIDE_FRONT: return "in this step of the run a popped row has no place in the front";
    case LS_ROOM_EXCEEDED: return "this step of the run needs more room than the peak";
    case LS_UPDATES_LEFT: return "updates are left on the stack after the run";
    case LS_SIZES_EXCEEDED: return "the key's job is over 256 columns or 2,048 pattern rows";
    case LS_UNREADABLE_KEY: return "the key is not the key of a job: it is damaged, or no key";
    default: return "the library does not say why";
    }
}

typedef struct { char text[200]; } Words;
static Words refusal(uint64_t number, uint64_t place, uint64_t count) {
    Words w;
    int length = snprintf(w.text, sizeof w.text, "refused %" PRIu64 " at %" PRIu64 ": %s", number, place, in_words(number));
    if (number == LS_PEAK_OVER_LIMIT || number == LS_WRONG_PEAK)
        snprintf(w.text + length, sizeof w.text - (size_t)length, "; the %speak is %" PRIu64, number == LS_WRONG_PEAK ? "true " : "", count);
    return w;
}

/* ---- how it was called */

typedef struct {
    const char *file[2], *perm, *order, *folder, *tag;
    int files, marked, limited;
    uint64_t mark, limit;
} Call;

static uint64_t number_of(const char *option, const char *word) {
    uint64_t value = 0;
    if (!*word) stop(option, WRONG, "a number is wanted, not nothing");
    for (const char *c = word; *c; c++) if (*c < '0' || *c > '9') stop(option, WRONG, "'%.60s' is no whole number", word);
    for (const char *c = word; *c; c++) {
        if (value > (UINT64_MAX - (uint64_t)(*c - '0')) / 10) stop(option, WRONG, "'%.60s' is over 64 bits", word);
        value = 10 * value + (uint64_t)(*c - '0');
    }
    return value;
}

static Call read_call(int argc, char **argv, const char *options, int files, const char *usage) {
    Call c = {.mark = 0, .limit = (uint64_t)1 << 40, .tag = ""};
    int only_files = 0;
    for (int k = 2; k < argc; k++) {
        const char *word = argv[k];
        if (only_files || word[0] != '-' || !word[1]) {
            if (c.files == files) stop(word, WRONG, "one file too many; usage: %s", usage);
            c.file[c.files++] = word;
            continue;
        }
        if (!strcmp(word, "--")) { only_files = 1; continue; }
        if (word[2] || !strchr(options, word[1])) stop(word, WRONG, "no such option; usage: %s", usage);
        if (++k == argc) stop(word, WRONG, "nothing follows this option; usage: %s", usage);
        int again = word[1] == 'm' ? c.marked++ : word[1] == 'l' ? c.limited++ : word[1] == 'p' ? !!c.perm : word[1] == 'o' ? !!c.order : !!c.folder;
        if (again) stop(word, WRONG, "this option is given twice");
        switch (word[1]) {
        case 'm': c.mark = number_of(word, argv[k]); break;
        case 'l': c.limit = number_of(word, argv[k]); break;
        case 'p': c.perm = argv[k]; break;
        case 'o': c.order = argv[k]; break;
        default:
            if (!*argv[k]) stop(word, WRONG, "a folder is wanted, not nothing");
            c.folder = argv[k];
        }
    }
    const char *missing = files == 1 ? "the matrix is" : c.files ? "the plan is" : "the key or matrix, and the plan are";
    if (c.files < files) stop(NULL, WRONG, "%s missing; usage: %s", missing, usage);
    return c;
}

/* ---- the job */

static void read_or_stop(const char *path, mm_answer answer, const mm_fault *fault) {
    if (answer == MM_DONE) return;
    if (answer == MM_TOO_MANY_COLUMNS) tell(path, fault->line, "%s", refusal(LS_TOO_MANY_COLUMNS, 0, 0).text);
    else tell(path, fault->line, "%s", fault->words);
    leave(answer == MM_TOO_MANY_COLUMNS ? REFUSED : WRONG);
}

static void read_matrix(const char *path) {
    mm_fault fault;
    read_or_stop(path, mm_read_pattern(path, &held.matrix, &fault), &fault);
    const mm_pattern *m = &held.matrix;
    if (m->repeated) tell(path, 0, "repeated entries, joined with the first of the same place: %" PRIu64, m->repeated);
    if (m->mirrored) tell(path, 0, "symmetric, but with entries in both triangles, joined: %" PRIu64, m->mirrored);
    if (m->unended) tell(path, m->unended, "the last line has no line end; if the file was cut off, this entry may be wrong");
}

/* Stops unless each of 1 to n is there once. */
static void test_numbers(const char *who, const uint32_t *numbers, size_t n) {
    uint8_t *seen = room_for(n + 1, 1);
    for (size_t k = 0; k < n; k++)
        if (numbers[k] < 1 || numbers[k] > n || seen[numbers[k]]++) stop(who, WRONG, "the ordering is no permutation");
}

static uint32_t *by_amd(const mm_pattern *m) {
#ifdef FARM_AMD
    size_t n = (size_t)m->n;
    int *starts = room_for(n + 1, sizeof *starts), *rows = room_for(m->rows_len, sizeof *rows), *found = room_for(n, sizeof *found);
    uint32_t *numbers = room_for(n, sizeof *numbers);
    for (size_t j = 0; j <= n; j++) starts[j] = (int)m->starts[j];
    for (size_t q = 0; q < m->rows_len; q++) rows[q] = (int)m->rows[q] - 1;
    if (n && amd_order((int)n, starts, rows, found, NULL, NULL) < 0) stop("-o amd", WRONG, "AMD gives no ordering");
    for (size_t k = 0; k < n; k++) numbers[k] = (uint32_t)found[k] + 1;
    test_numbers("-o amd", numbers, n);
    return numbers;
#else
    (void)m;
    stop("-o amd", WRONG, "AMD (of SuiteSparse) was not found when farm was built");
#endif
}

static uint32_t *by_metis(const mm_pattern *m) {
#ifdef FARM_METIS
    size_t n = (size_t)m->n;
    idx_t count = (idx_t)n, *starts = room_for(n + 2, sizeof *starts), *mates = room_for(2 * m->rows_len, sizeof *mates);
    idx_t *found = room_for(n, sizeof *found), *inverse = room_for(n, sizeof *inverse), options[METIS_NOPTIONS];
    uint32_t *numbers = room_for(n, sizeof *numbers);
    /* starts[j + 1] counts the mates of column j (from 0), then is where its next mate goes, then where they end */
    for (size_t j = 0; j < n; j++) for (uint64_t q = m->starts[j]; q < m->starts[j + 1]; q++) { starts[j + 2]++; starts[m->rows[q] + 1]++; }
    for (size_t j = 0; j <= n; j++) starts[j + 1] += starts[j];
    for (size_t j = 0; j < n; j++) for (uint64_t q = m->starts[j]; q < m->starts[j + 1]; q++) {
        mates[starts[j + 1]++] = (idx_t)m->rows[q] - 1;
        mates[starts[m->rows[q]]++] = (idx_t)j;
    }
    for (size_t k = 0; k < n; k++) found[k] = (idx_t)k;
    METIS_SetDefaultOptions(options);
    options[METIS_OPTION_SEED] = 1;     /* the same order every time */
    if (m->rows_len && METIS_NodeND(&count, starts, mates, NULL, options, found, inverse) != METIS_OK)
        stop("-o metis", WRONG, "METIS gives no ordering");
    for (size_t k = 0; k < n; k++) numbers[k] = (uint32_t)found[k] + 1;
    test_numbers("-o metis", numbers, n);
    return numbers;
#else
    (void)m;
    stop("-o metis", WRONG, "METIS was not found when farm was built");
#endif
}

static void test_order(const Call *c) {
    if (c->order && strcmp(c->order, "amd") && strcmp(c->order, "metis") && strcmp(c->order, "natural"))
        stop("-o", WRONG, "'%.60s' is not amd, metis or natural", c->order);
    if (c->order && c->perm) stop(NULL, WRONG, "give -p or -o, not both");
}

/* The order of the columns of held.matrix, as it was asked for: a permutation, or NULL for the file's own. */
static uint32_t *order_asked(const Call *c) {
    uint32_t *numbers = NULL;
    mm_fault fault;
    if (c->perm) {
        numbers = room_for((size_t)held.matrix.n, sizeof *numbers);
        read_or_stop(c->perm, mm_read_permutation(c->perm, held.matrix.n, numbers, &fault), &fault);
    } else if (c->order && !strcmp(c->order, "amd")) numbers = by_amd(&held.matrix);
    else if (c->order && !strcmp(c->order, "metis")) numbers = by_metis(&held.matrix);
    return numbers;
}

/* Makes held.job of held.matrix with its columns in this order, or as they are. */
static void make_job(const Call *c, const uint32_t *numbers) {
    mm_fault fault;
    if (numbers) read_or_stop(c->file[0], mm_permute(&held.matrix, numbers, &held.job, &fault), &fault);
    else { held.job = held.matrix; memset(&held.matrix, 0, sizeof held.matrix); }
}

/* ---- the library */

typedef struct { uint32_t *parents, *order, *pops, *rows; uint64_t *starts, *work, place, count; size_t rows_len; } Lent;

#define JOB held.job.n, held.job.starts, (size_t)held.job.n + 1, held.job.rows, held.job.rows_len, c->mark, c->limit
#define LENT s.parents, n, s.order, n, s.pops, n, s.starts, n + 1, s.rows, s.rows_len, s.work, LS_WORK(n)

typedef struct { uint8_t *first; size_t count; } Bytes;

static Lent lend(size_t n) {
    return (Lent){.parents = room_for(n, 4), .order = room_for(n, 4), .pops = room_for(n, 4), .rows = room_for(0, 4),
                  .starts = room_for(n + 1, 8), .work = room_for(LS_WORK(n), 8)};
}

static void lend_rows(Lent *s) { s->rows_len = (size_t)s->count; s->rows = room_for(s->rows_len, 4); }

/* Analyses held.job into the slices, which may lend no rows yet: the answer says how many are needed. The peak. */
static uint64_t analyse(const Call *c, Lent *lent) {
    size_t n = (size_t)held.job.n;
    Lent s = *lent;
    uint64_t number = ls_analyse(JOB, LENT, &s.place, &s.count);
    if (number == LS_ROWS_NEEDED) { lend_rows(&s); number = ls_analyse(JOB, LENT, &s.place, &s.count); }
    if (number) stop(c->file[0], REFUSED, "%s", refusal(number, s.place, s.count).text);
    *lent = s;
    return s.count;
}

/* Checks a plan for held.job and runs it at its peak; the number, and if done the peak as count. That a plan which passes the check also runs is
   proved. */
static uint64_t judge(const Call *c, Bytes plan, uint64_t *place, uint64_t *count) {
    size_t n = (size_t)held.job.n;
    Lent s = lend(n);
    uint64_t number = ls_check_plan(JOB, plan.first, plan.count, LENT, &s.place, &s.count);
    if (number == LS_ROWS_NEEDED) { lend_rows(&s); number = ls_check_plan(JOB, plan.first, plan.count, LENT, &s.place, &s.count); }
    *place = s.place;
    *count = s.count;
    if (number != LS_DONE) return number;
    uint32_t *stack = room_for(n, 4);
    return ls_run(n, s.starts, n + 1, s.rows, s.rows_len, s.order, n, s.pops, n, s.count, stack, n, place, count);
}

/* The key of held.job. */
static Bytes key_of_job(const Call *c) {
    uint64_t place, count, number = ls_write_key(JOB, NULL, 0, &place, &count);     /* lend no bytes: the answer says how many are needed */
    Bytes key = {.count = number == LS_BYTES_NEEDED ? (size_t)count : 0};
    key.first = room_for(key.count, 1);
    if (number == LS_BYTES_NEEDED) number = ls_write_key(JOB, key.first, key.count, &place, &count);
    if (number) stop(c->file[0], REFUSED, "%s", refusal(number, place, count).text);
    return key;
}

/* The plan of held.job, in the slices of its analysis. */
static Bytes plan_of_job(const Call *c, Lent s) {
    size_t n = (size_t)held.job.n;
    Bytes plan = {0};
    uint64_t number = ls_write_plan(JOB, LENT, NULL, 0, &s.place, &s.count);
    if (number == LS_BYTES_NEEDED) {
        plan.count = (size_t)s.count;
        plan.first = room_for(plan.count, 1);
        number = ls_write_plan(JOB, LENT, plan.first, plan.count, &s.place, &s.count);
    }
    if (number) stop(c->file[0], REFUSED, "%s", refusal(number, s.place, s.count).text);
    return plan;
}

static uint64_t triangle(uint64_t rows) { return rows * (rows + 1) / 2; }

/* The room in use at each step and what is held after it, by the rules, from lists and steps; the greatest room. */
static uint64_t measure_room(const Lent *s, size_t n, uint64_t *in_use, uint64_t *held_after) {
    uint64_t *stack = room_for(n, 8), entries = 0, greatest = 0;
    size_t height = 0;
    for (size_t k = 0; k < n; k++) {
        uint32_t j = s->order[k];
        uint64_t rows = s->starts[j] - s->starts[j - 1];
        in_use[k] = entries - (s->pops[k] ? stack[height - 1] : 0) + triangle(rows + 1);   /* the front lies over the last child's update */
        for (uint32_t pops = s->pops[k]; pops; pops--) entries -= stack[--height];
        if (s->parents[j - 1]) entries += stack[height++] = triangle(rows);
        held_after[k] = entries;
        if (in_use[k] > greatest) greatest = in_use[k];
    }
    return greatest;
}

/* ---- files */

static Bytes load(const char *path) {
    Bytes b = {0};
    size_t room = 0, got;
    FILE *f = fopen(path, "rb");
    if (!f) stop(path, WRONG, "cannot be opened: %s", strerror(errno));
    do {
        if (b.count == room) {
            int longer = room >= LARGEST_FILE;
            uint8_t *more = longer ? NULL : realloc(b.first, room = room ? 2 * room : 1 << 16);
            if (!more) { free(b.first); fclose(f); stop(path, WRONG, longer ? "no key and no plan is so long" : "out of memory"); }
            b.first = more;
        }
        got = fread(b.first + b.count, 1, room - b.count, f);
        b.count += got;
    } while (got);
    int error = ferror(f) ? errno : 0;
    fclose(f);
    hold(b.first);
    if (error) stop(path, WRONG, "cannot be read: %s", strerror(error));
    return b;
}

static int is_matrix_name(const char *path) {
    size_t length = strlen(path);
    if (length < 4) return 0;
    path += length - 4;
    return path[0] == '.' && (path[1] == 'm' || path[1] == 'M') && (path[2] == 't' || path[2] == 'T') && (path[3] == 'x' || path[3] == 'X');
}

/* The name of an output: the matrix's without .mtx, with the call's tag and the suffix, in the folder if one is given. */
static char *named(const Call *c, const char *suffix) {
    const char *path = c->file[0], *slash = strrchr(path, '/'), *base = slash ? slash + 1 : path;
    size_t length = strlen(base), before = c->folder ? strlen(c->folder) : (size_t)(base - path);
    if (is_matrix_name(base) && length > 4) length -= 4;
    char *name = room_for(before + length + strlen(c->tag) + strlen(suffix) + 2, 1);
    memcpy(name, c->folder ? c->folder : path, before);
    if (c->folder && before && name[before - 1] != '/') name[before++] = '/';
    memcpy(name + before, base, length);
    strcpy(name + before + length, c->tag);
    strcat(name, suffix);
    return name;
}

/* Writes bytes beside the name that they shall have. */
static const char *write_part(const Call *c, const char *suffix, const void *bytes, size_t count) {
    char *name = named(c, suffix), *part = room_for(strlen(name) + 60, 1);
    struct stat was;
    if (!stat(name, &was) && S_ISDIR(was.st_mode)) stop(name, WRONG, "cannot be written: it is a folder");
    int file = -1;
    for (int k = 0; k < 100; k++) {     /* a part that another run has, or left behind, stays as it is */
        sprintf(part, "%s.part-%ld-%d", name, (long)getpid(), k);
        file = open(part, O_WRONLY | O_CREAT | O_EXCL, 0666);
        if (file >= 0 || errno != EEXIST) break;
    }
    if (file < 0) stop(part, WRONG, "cannot be written: %s", strerror(errno));
    held.output[held.outputs].name = name;
    held.output[held.outputs++].part = part;
    for (size_t done = 0; done < count;) {
        ssize_t wrote = write(file, (const char *)bytes + done, count - done);
        if (wrote < 0 && errno == EINTR) continue;
        if (wrote < 0) { int error = errno; close(file); stop(name, WRONG, "cannot be written: %s", strerror(error)); }
        done += (size_t)wrote;
    }
    if (close(file)) stop(name, WRONG, "cannot be written: %s", strerror(errno));
    return name;
}

/* Gives the written files their names. */
static void finish_parts(void) {
    for (size_t k = 0; k < held.outputs; k++) {
        if (rename(held.output[k].part, held.output[k].name))
            stop(held.output[k].name, WRONG, "cannot be replaced: %s; %zu of %zu files are new", strerror(errno), k, held.outputs);
        held.output[k].part = NULL;
    }
}

/* Stores key, plan and permutation (or none) of held.job, and says so. */
static void store(const Call *c, Bytes key, Bytes plan, const uint32_t *numbers, size_t factor_rows, uint64_t peak) {
    size_t n = (size_t)held.job.n, text_len = 0;
    char *text = room_for(8 * n, 1);
    for (size_t k = 0; k < n && numbers; k++) text_len += (size_t)sprintf(text + text_len, "%" PRIu32 "\n", numbers[k]);
    const char *perm_name = numbers ? write_part(c, ".perm", text, text_len) : named(c, ".perm");
    const char *key_name = write_part(c, ".key", key.first, key.count), *plan_name = write_part(c, ".plan", plan.first, plan.count);
    finish_parts();

    struct stat was;
    if (!numbers && !stat(perm_name, &was)) tell(perm_name, 0, "this file is not of this plan, which has no permutation");
    printf("columns       %zu\npattern rows  %zu\nfactor rows   %zu\npeak          %" PRIu64 " entries\n", n, held.job.rows_len, factor_rows, peak);
    printf("key           %zu bytes, %s\nplan          %zu bytes, %s\n", key.count, key_name, plan.count, plan_name);
    if (numbers) printf("permutation   %zu numbers, %s\n", n, perm_name);
}

/* ---- farm plan */

static int plan_command(int argc, char **argv) {
    Call call = read_call(argc, argv, "mlpod", 1, "farm plan FILE.mtx [-m MARK] [-l LIMIT] [-p PERM | -o amd|metis|natural] [-d DIR]"), *c = &call;
    test_order(c);
    read_matrix(c->file[0]);
    uint32_t *numbers = order_asked(c);
    make_job(c, numbers);
    Lent s = lend((size_t)held.job.n);
    uint64_t peak = analyse(c, &s);
    Bytes key = key_of_job(c), plan = plan_of_job(c, s);
    store(c, key, plan, numbers, s.rows_len, peak);
    return DONE;
}

/* ---- farm import */

/* A number in groups of seven bits, the lowest first, the high bit on all but the last; the place behind it. Without bytes it only counts. */
static size_t put_number(uint8_t *bytes, size_t at, uint64_t value) {
    for (; value > 127; value >>= 7, at++) if (bytes) bytes[at] = (uint8_t)(value | 128);
    if (bytes) bytes[at] = (uint8_t)value;
    return at + 1;
}

/* The bytes of a plan behind its key: steps, lists, peak; the place behind them. */
static size_t put_plan(uint8_t *bytes, size_t at, const Lent *s, size_t n, uint64_t peak) {
    for (size_t k = 0; k < n; k++) at = put_number(bytes, put_number(bytes, at, s->order[k]), s->pops[k]);
    for (size_t j = 1; j <= n; j++) {
        uint64_t last = j;
        at = put_number(bytes, at, s->starts[j] - s->starts[j - 1]);
        for (uint64_t q = s->starts[j - 1]; q < s->starts[j]; last = s->rows[q++]) at = put_number(bytes, at, s->rows[q] - last);
    }
    return put_number(bytes, at, peak);
}

/* CHOLMOD's analysis of held.matrix as slices: step k does column k of its own order, which is left in numbers. */
static Lent by_cholmod(const Call *c, uint32_t **numbers) {
    cholmod_lists lists;
    size_t n = (size_t)held.matrix.n;
    const char *wrong = cholmod_lists_of(&held.matrix, order_asked(c), &lists);
    if (wrong) stop(c->file[0], WRONG, "%s", wrong);
    *numbers = hold(lists.numbers);
    Lent s = {.parents = hold(lists.parents), .starts = hold(lists.starts), .rows = hold(lists.rows), .rows_len = (size_t)lists.starts[n]};
    test_numbers(c->file[0], *numbers, n);
    s.order = room_for(n, 4);
    s.pops = room_for(n + 1, 4);
    for (size_t j = 1; j <= n; j++) {
        s.order[j - 1] = (uint32_t)j;
        if (s.parents[j - 1]) s.pops[s.parents[j - 1] - 1]++;
    }
    return s;
}

/* Writes what CHOLMOD says as a plan, with no other judgement than the library's. */
static int import_command(int argc, char **argv) {
    Call call = read_call(argc, argv, "mlpod", 1, "farm import FILE.mtx [-m MARK] [-l LIMIT] [-p PERM | -o amd|metis|natural] [-d DIR]"), *c = &call;
    uint32_t *numbers;
    uint64_t place, count, number;
    test_order(c);
    read_matrix(c->file[0]);
    Lent s = by_cholmod(c, &numbers);
    make_job(c, numbers);
    size_t n = (size_t)held.job.n;
    uint64_t peak = measure_room(&s, n, room_for(n, 8), room_for(n, 8));
    Bytes key = key_of_job(c), plan = {.count = put_plan(NULL, key.count, &s, n, peak)};
    plan.first = room_for(plan.count, 1);
    memcpy(plan.first, key.first, key.count);
    put_plan(plan.first, key.count, &s, n, peak);
    if ((number = judge(c, plan, &place, &count))) stop(c->file[0], REFUSED, "CHOLMOD's analysis is %s", refusal(number, place, count).text);
    c->tag = "-cholmod";
    store(c, key, plan, numbers, s.rows_len, peak);
    printf("check         done, peak %" PRIu64 "\n", count);
    return DONE;
}

/* ---- farm show */

/* Analyses held.job with each mark: p takes what each mark's steps need, and the lists of the mark that was asked for. */
static Lent measure_marks(const Call *c, pictures_plan *p) {
    size_t n = (size_t)held.job.n;
    Lent asked = lend(n);
    analyse(c, &asked);     /* first, so that an unknown mark is refused */
    for (uint64_t mark = 0; mark < 3; mark++) {
        Call one = *c;
        Lent s = asked;
        uint64_t *in_use = room_for(n, 8), *held_after = room_for(n, 8);
        one.mark = mark;
        if (mark != c->mark) {
            s.order = room_for(n, 4);
            s.pops = room_for(n, 4);
        }
        p->peak[mark] = analyse(&one, &s);
        if (measure_room(&s, n, in_use, held_after) != p->peak[mark]) stop(NULL, WRONG, "the room that would be drawn has not the library's peak");
        p->in_use[mark] = in_use;
        p->held[mark] = held_after;
    }
    return asked;
}

/* Draws one picture, to be written with the others. */
static const char *draw(const Call *c, const pictures_plan *p, const char *suffix, int (*picture)(svg_page *, const pictures_plan *)) {
    svg_page page = {0};
    if (!picture(&page, p)) { free(page.text); stop(NULL, WRONG, "out of memory"); }
    return write_part(c, suffix, hold(page.text), page.length);
}

/* The name of the matrix, without folder and .mtx. */
static const char *title_of(const Call *c) {
    Call here = *c;
    here.folder = ".";
    return named(&here, "") + 2;
}

static const char *order_words(const Call *c) {
    if (c->perm) return "in a given order";
    return !c->order || *c->order == 'n' ? "as in the file" : *c->order == 'a' ? "ordered by AMD" : "ordered by METIS";
}

static int show_command(int argc, char **argv) {
    Call call = read_call(argc, argv, "mpod", 1, "farm show FILE.mtx [-m MARK] [-p PERM | -o amd|metis|natural] [-d DIR]"), *c = &call;
    test_order(c);
    read_matrix(c->file[0]);
    make_job(c, order_asked(c));
    pictures_plan p = {.name = title_of(c), .n = held.job.n, .mark = c->mark, .starts = held.job.starts, .rows = held.job.rows};
    p.ordering = order_words(c);
    Lent s = measure_marks(c, &p);
    p.fstarts = s.starts;
    p.frows = s.rows;
    p.parents = s.parents;
    p.order = s.order;
    const char *tree = draw(c, &p, "-tree.svg", picture_tree), *room = draw(c, &p, "-room.svg", picture_room);
    const char *fill = draw(c, &p, "-fill.svg", picture_fill);
    finish_parts();
    printf("tree          %s: %zu columns, mark %" PRIu64 "\n", tree, (size_t)p.n, p.mark);
    printf("room          %s: peaks %" PRIu64 ", %" PRIu64 " and %" PRIu64 " with marks 0, 1 and 2\n", room, p.peak[0], p.peak[1], p.peak[2]);
    printf("fill          %s: %zu pattern rows, %" PRIu64 " rows of fill\n", fill, held.job.rows_len, p.fstarts[p.n] - held.job.rows_len);
    return DONE;
}

/* ---- farm check */

/* The next number of a key: groups of seven bits, the lowest first, the last without the high bit. */
static uint64_t key_number(const uint8_t *key, size_t key_len, size_t *at) {
    uint64_t value = 0;
    for (int shift = 0; *at < key_len && shift < 63; shift += 7) {
        uint8_t byte = key[(*at)++];
        value |= (uint64_t)(byte & 127) << shift;
        if (byte < 128) break;
    }
    return value;
}

/* Makes held.job, mark and limit of a key that the solver's call could read. To see that they are right, writes their key: no other job has it. */
static void job_of_key(Call *c, const uint8_t *key, size_t key_len) {
    size_t at = 0, row = 0;
    uint64_t place, count, number;
    key_number(key, key_len, &at);      /* the edition */
    uint64_t n = key_number(key, key_len, &at);
    c->mark = key_number(key, key_len, &at);
    c->limit = key_number(key, key_len, &at);
    if (n > 4096) stop(c->file[0], WRONG, "farm cannot read this key");
    held.job.starts = calloc((size_t)n + 1, 8);
    held.job.rows = malloc(key_len * 4 + 4);
    if (!held.job.starts || !held.job.rows) stop(NULL, WRONG, "out of memory");
    held.job.n = n;
    for (uint64_t j = 1; j <= n; j++) {
        uint64_t rows = key_number(key, key_len, &at), last = j;
        for (; rows && at < key_len; rows--) held.job.rows[row++] = (uint32_t)(last += key_number(key, key_len, &at));
        held.job.starts[j] = row;
    }
    held.job.rows_len = row;
    uint8_t *again = room_for(key_len, 1);
    number = ls_write_key(JOB, again, key_len, &place, &count);
    if (number || count != key_len || memcmp(key, again, key_len)) stop(c->file[0], WRONG, "farm cannot read this key");
}

static int check_command(int argc, char **argv) {
    Call call = read_call(argc, argv, "mlp", 2, "farm check KEY-or-FILE.mtx PLAN [-m MARK] [-l LIMIT] [-p PERM]"), *c = &call;
    int matrix = is_matrix_name(c->file[0]);
    if (!matrix && (c->marked || c->limited || c->perm)) stop(c->file[0], WRONG, "-m, -l and -p are for a .mtx file: a key has them in itself");
    if (matrix) { read_matrix(c->file[0]); make_job(c, order_asked(c)); }
    Bytes key = {0}, plan;
    if (!matrix) key = load(c->file[0]);
    plan = load(c->file[1]);
    if (!matrix) {
        uint64_t answer = check(key.first, key.count, plan.first, plan.count), number = answer >> 32;
        if (number && number != LS_SIZES_EXCEEDED) { puts(refusal(number, answer & UINT32_MAX, 0).text); return REFUSED; }
        job_of_key(c, key.first, key.count);    /* the solver's call tells no peak, and takes no large job */
    }
    uint64_t place, count, number = judge(c, plan, &place, &count);
    if (number == LS_DONE) printf("done, peak %" PRIu64 "\n", count); else puts(refusal(number, place, count).text);
    return number == LS_DONE ? DONE : REFUSED;
}

int main(int argc, char **argv) {
    int status;
    if (argc < 2) stop(NULL, WRONG, "usage: farm plan|show|import FILE.mtx [...], farm check KEY-or-FILE.mtx PLAN [...], farm --help");
    if (!strcmp(argv[1], "--help") || !strcmp(argv[1], "-h")) { fputs(HELP, stdout); status = DONE; }
    else if (!strcmp(argv[1], "plan")) status = plan_command(argc, argv);
    else if (!strcmp(argv[1], "check")) status = check_command(argc, argv);
    else if (!strcmp(argv[1], "show")) status = show_command(argc, argv);
    else if (!strcmp(argv[1], "import")) status = import_command(argc, argv);
    else stop(argv[1], WRONG, "no such command; there are plan, check, show, import and --help");
    if (fflush(stdout) || ferror(stdout)) stop(NULL, WRONG, "the answer cannot be printed: %s", strerror(errno));
    leave(status);
}
