"""Tries the reader of Matrix Market files, and the tool farm.
usage: test_matrix_market.py [-n FILES] [-s SEED] [FARM]

Without FARM: builds the reader with the sanitizers; hands it bad files one by one, which must be refused in the line that is at fault; then FILES
files (default 5,000) that SEED (default 1) made bad or left good. For each of these `reading` below, a second reading of the format, says what it is:
a pattern with these rows, or refused in this line. With FARM: also the program's answers, exit statuses and files. Exits with 1 if anything differs.
"""
import argparse
import os
import random
import re
import resource
import shlex
import signal
import subprocess
import sys
import tempfile

HERE = os.path.dirname(os.path.abspath(__file__))
STRICT = ["-std=c11", "-g", "-O1", "-Wall", "-Wextra", "-Wpedantic", "-Werror", "-fsanitize=address,undefined", "-fno-sanitize-recover=all"]

# For each line of standard input an answer in one line. "M FILE": the pattern, or its refusal. "P N FILE": the permutation, or its refusal. "F N FILE
# FILE": reads both and permutes, failing each taking of memory in turn, until one run meets no failure; answers how many runs had to say so.
DRIVER = r"""
#include "matrix_market.h"
#include <inttypes.h>
#include <stdio.h>
#include <stdlib.h>
#include <string.h>
static long left = -1;
static int fails(void) { return left > 0 && !--left; }
void *__real_malloc(size_t), *__real_calloc(size_t, size_t), *__real_realloc(void *, size_t);
void *__wrap_malloc(size_t a) { return fails() ? NULL : __real_malloc(a); }
void *__wrap_calloc(size_t a, size_t b) { return fails() ? NULL : __real_calloc(a, b); }
void *__wrap_realloc(void *p, size_t a) { return fails() ? NULL : __real_realloc(p, a); }
static void pattern(const char *path) {
    mm_pattern p; mm_fault f;
    mm_answer a = mm_read_pattern(path, &p, &f);
    if (a) { printf("%d %" PRIu64 " %s\n", (int)a, f.line, f.words); return; }
    printf("0 %" PRIu64 " %" PRIu64 " %" PRIu64 " %" PRIu64, p.n, p.repeated, p.mirrored, p.unended);
    for (uint64_t j = 1; j <= p.n; j++) {
        printf(" |");
        for (uint64_t k = p.starts[j - 1]; k < p.starts[j]; k++) printf(" %" PRIu32, p.rows[k]);
    }
    printf(" %s\n", p.starts[0] == 0 && p.starts[p.n] == p.rows_len ? "." : "starts");
    mm_free(&p);
}
static void permutation(const char *path, uint64_t n) {
    mm_fault f; uint32_t *numbers = calloc(n ? n : 1, 4);
    mm_answer a = mm_read_permutation(path, n, numbers, &f);
    if (a) printf("%d %" PRIu64 " %s\n", (int)a, f.line, f.words);
    else { printf("0"); for (uint64_t k = 0; k < n; k++) printf(" %" PRIu32, numbers[k]); printf("\n"); }
    free(numbers);
}
static void failing(const char *path, const char *perm, uint64_t n) {
    uint32_t *numbers = calloc(n ? n : 1, 4);
    for (long at = 1;; at++) {
        mm_pattern p = {0}, q = {0}; mm_fault f;
        left = at;
        mm_answer a = mm_read_pattern(path, &p, &f);
        if (!a) a = mm_read_permutation(perm, n, numbers, &f);
        if (!a) a = mm_permute(&p, numbers, &q, &f);
        long unused = left; left = -1;
        int empty = !q.starts && !q.rows && !q.n;
        mm_free(&p); mm_free(&q);
        if (!a) { printf("%s %ld\n", unused > 0 ? "done" : "silent", at - 1); break; }
        if (a != MM_NO_MEMORY || f.line || strcmp(f.words, "out of memory") || !empty) { printf("wrong %d %s\n", (int)a, f.words); break; }
    }
    free(numbers);
}
int main(void) {
    char line[8192];
    while (fgets(line, sizeof line, stdin)) {
        char *word[4] = {0}; int k = 0;
        for (char *w = strtok(line, " \n"); w && k < 4; w = strtok(NULL, " \n")) word[k++] = w;
        if (*word[0] == 'M') pattern(word[1]);
        else if (*word[0] == 'P') permutation(word[2], strtoull(word[1], NULL, 10));
        else failing(word[2], word[3], strtoull(word[1], NULL, 10));
    }
    return 0;
}
"""
WRAPPED = ["-Wl,--wrap=malloc,--wrap=calloc,--wrap=realloc"]

failures = tried = 0
WORK = None      # the folder of all files


def see(good, what, *more):
    global failures, tried
    tried += 1
    if not good:
        failures += 1
        if failures <= 20:
            print("FAILED", what, *more)


# ---- the second reading

def reading(data):
    """("refused", line), ("columns", line), or ("pattern", n, repeated, mirrored, unended, rows of each column)."""
    lines = data.split(b"\n")
    ended = lines[-1] == b""
    if ended:
        lines.pop()
    count = len(lines)
    lines = [l[:-1] if l.endswith(b"\r") else l for l in lines]
    cr_last = data.endswith(b"\r")

    def text(l):
        return not re.search(rb"[\x00-\x08\x0b-\x1f\x7f]", l)

    banner = lines[0] if lines else b""
    m = re.fullmatch(rb"%%matrixmarket[ \t]+matrix[ \t]+coordinate[ \t]+(real|integer|pattern)[ \t]+(general|symmetric)[ \t]*", banner.lower())
    if not m or len(banner) > 1024:
        return ("refused", 1)
    field, symmetric = m[1], m[2] == b"symmetric"
    value = {b"pattern": rb"", b"integer": rb"[ \t]+[+-]?[0-9]+", b"real": rb"[ \t]+[+-]?([0-9]+\.?[0-9]*|\.[0-9]+)([eEdD][+-]?[0-9]+)?"}[field]
    n = None
    places, missing = {}, 0
    repeated, unended = 0, 0
    for at, l in enumerate(lines[1:], 2):
        if not text(l):
            return ("refused", at)
        body = l.lstrip(b" \t")
        if body.startswith(b"%") and len(l) - len(body) <= 1024:
            continue
        if len(l) > 1024:
            return ("refused", at)
        if not body:
            continue
        if n is None:
            s = re.fullmatch(rb"[ \t]*([0-9]+)[ \t]+([0-9]+)[ \t]+([0-9]+)[ \t]*", l)
            if not s or max(map(int, s.groups())) >= 2 ** 64 or int(s[1]) != int(s[2]):
                return ("refused", at)
            n, missing = int(s[1]), int(s[3])
            if n > 4096:
                return ("columns", at)
            if missing > n * n:
                return ("refused", at)
            continue
        e = re.fullmatch(rb"[ \t]*([0-9]+)[ \t]+([0-9]+)" + value + rb"[ \t]*", l)
        if not e or not missing or not (1 <= int(e[1]) <= n and 1 <= int(e[2]) <= n):
            return ("refused", at)
        missing -= 1
        place = int(e[1]), int(e[2])
        repeated += place in places
        places.setdefault(place, at)
        if at == count and not ended and not cr_last:
            unended = at
    if n is None or missing:
        return ("refused", count + 1)
    if not symmetric:
        alone = [at for (i, j), at in places.items() if (j, i) not in places]
        if alone:
            return ("refused", min(alone))
    columns = [set() for _ in range(n)]
    for i, j in places:
        if i != j:
            columns[min(i, j) - 1].add(max(i, j))
    mirrored = sum((j, i) in places for i, j in places if i < j) if symmetric else 0
    return ("pattern", n, repeated, mirrored, unended, [sorted(c) for c in columns])


def said(answer):
    """A line of the driver in the same form."""
    words = answer.split()
    if words[0] != "0":
        return ({"1": "refused", "2": "columns"}.get(words[0], "answer " + words[0]), int(words[1]))
    columns = " ".join(words[5:-1]).split("|")[1:]
    return ("pattern", *map(int, words[1:5]), [list(map(int, c.split())) for c in columns]) if words[-1] == "." else ("starts",)


# ---- bad files, one by one: name, line, a word of the answer, bytes

H = b"%%MatrixMarket matrix coordinate real symmetric\n"
P = b"%%MatrixMarket matrix coordinate pattern symmetric\n"
G = b"%%MatrixMarket matrix coordinate real general\n"
BAD = [
    ("empty", 1, "empty", b""),
    ("no banner", 1, "begin", b"3 3 1\n2 1 5\n"),
    ("one percent sign", 1, "begin", b"%MatrixMarket matrix coordinate real symmetric\n3 3 1\n2 1 5\n"),
    ("blank before the banner", 1, "begin", b" " + H + b"3 3 1\n2 1 5\n"),
    ("blank line before the banner", 1, "begin", b"\n" + H + b"3 3 1\n2 1 5\n"),
    ("banner too short", 1, "4 words", b"%%MatrixMarket matrix coordinate real\n3 3 1\n2 1 5\n"),
    ("banner too long", 1, "6 words", H[:-1] + b" indeed\n3 3 1\n2 1 5\n"),
    ("vector", 1, "vector", b"%%MatrixMarket vector coordinate real symmetric\n3 3 1\n2 1 5\n"),
    ("array", 1, "array", b"%%MatrixMarket matrix array real symmetric\n1 1\n5\n"),
    ("complex", 1, "complex", b"%%MatrixMarket matrix coordinate complex symmetric\n3 3 1\n2 1 5 5\n"),
    ("hermitian", 1, "hermitian", b"%%MatrixMarket matrix coordinate real hermitian\n3 3 1\n2 1 5\n"),
    ("skew-symmetric", 1, "skew-symmetric", b"%%MatrixMarket matrix coordinate real skew-symmetric\n3 3 1\n2 1 5\n"),
    ("unknown field", 1, "field", b"%%MatrixMarket matrix coordinate double symmetric\n3 3 1\n2 1 5\n"),
    ("unknown symmetry", 1, "symmetry", b"%%MatrixMarket matrix coordinate real lopsided\n3 3 1\n2 1 5\n"),
    ("banner alone", 2, "size line", H),
    ("comments alone", 4, "size line", H + b"% one\n% two\n"),
    ("size of two numbers", 2, "2 words", H + b"3 3\n2 1 5\n"),
    ("size of four numbers", 2, "4 words", H + b"3 3 1 1\n2 1 5\n"),
    ("size of one word", 3, "1 word,", H + b"% c\n3\n2 1 5\n"),
    ("size of many words", 2, "12 words", H + b"3 3 1 1 1 1 1 1 1 1 1 1\n2 1 5\n"),
    ("size in words", 2, "no whole number", H + b"3 three 1\n2 1 5\n"),
    ("size with a sign", 2, "sign", H + b"-3 -3 1\n2 1 5\n"),
    ("size with a point", 2, "no whole number", H + b"3 3 1.0\n2 1 5\n"),
    ("size over 64 bits", 2, "64 bits", H + b"18446744073709551616 18446744073709551616 1\n2 1 5\n"),
    ("count over 64 bits", 2, "64 bits", H + b"3 3 18446744073709551617\n2 1 5\n"),
    ("not square", 2, "square", H + b"3 4 1\n2 1 5\n"),
    ("size that wraps to a square", 2, "square", H + b"3 4294967299 1\n2 1 5\n"),
    ("more entries than places", 2, "places", H + b"3 3 10\n2 1 5\n"),
    ("entries in no matrix", 2, "places", H + b"0 0 1\n1 1 5\n"),
    ("count that would take all memory", 2, "places", H + b"4096 4096 18446744073709551615\n2 1 5\n"),
    ("too few entries", 4, "ends after 1 of the 2", H + b"3 3 2\n2 1 5\n"),
    ("too few entries, no line end", 4, "ends after 1 of the 2", H + b"3 3 2\n2 1 5"),
    ("no entry of many", 3, "ends after 0", H + b"4096 4096 16777216\n"),
    ("an entry beyond", 4, "beyond", H + b"3 3 1\n2 1 5\n3 1 5\n"),
    ("an entry beyond, after comments", 6, "beyond", H + b"3 3 1\n2 1 5\n%\n\n3 1 5\n"),
    ("words beyond", 4, "beyond", H + b"3 3 1\n2 1 5\nthe end\n"),
    ("minus in a row", 4, "sign", H + b"3 3 2\n3 1 5\n-2 1 5\n"),
    ("minus in a column", 3, "sign", H + b"3 3 1\n2 -1 5\n"),
    ("plus in a row", 3, "sign", H + b"3 3 1\n+2 1 5\n"),
    ("row 0", 3, "row is 0", H + b"3 3 1\n0 1 5\n"),
    ("column 0", 3, "column is 0", H + b"3 3 1\n2 0 5\n"),
    ("row over n", 3, "row 4 is over", H + b"3 3 1\n4 1 5\n"),
    ("column over n", 3, "column 4 is over", H + b"3 3 1\n2 4 5\n"),
    ("row that wraps in 32 bits", 3, "over n", H + b"3 3 1\n4294967298 1 5\n"),
    ("row that wraps in 64 bits", 3, "64 bits", H + b"3 3 1\n18446744073709551618 1 5\n"),
    ("row in words", 3, "no whole number", H + b"3 3 1\ntwo 1 5\n"),
    ("column with a point", 3, "no whole number", H + b"3 3 1\n2 1.0 5\n"),
    ("row in hexadecimal", 3, "no whole number", H + b"3 3 1\n0x2 1 5\n"),
    ("column missing", 3, "column is missing", H + b"3 3 1\n2\n"),
    ("value missing", 3, "value is missing", H + b"3 3 1\n2 1\n"),
    ("value in words", 3, "no number", H + b"3 3 1\n2 1 five\n"),
    ("value nan", 3, "no number", H + b"3 3 1\n2 1 nan\n"),
    ("value inf", 3, "no number", H + b"3 3 1\n2 1 -inf\n"),
    ("value without a digit", 3, "no number", H + b"3 3 1\n2 1 .\n"),
    ("value with half an exponent", 3, "no number", H + b"3 3 1\n2 1 1e+\n"),
    ("value with a comma", 3, "no number", H + b"3 3 1\n2 1 1,5\n"),
    ("real value for integer", 3, "no whole number", b"%%MatrixMarket matrix coordinate integer symmetric\n3 3 1\n2 1 5.0\n"),
    ("value for pattern", 3, "follows", P + b"3 3 1\n2 1 5\n"),
    ("trailing word", 3, "follows", H + b"3 3 1\n2 1 5 6\n"),
    ("trailing comment", 3, "follows", H + b"3 3 1\n2 1 5 % five\n"),
    ("two entries in a line", 3, "follows", H + b"3 3 2\n2 1 5 3 1 5\n"),
    ("no mate", 5, "row 3, column 2 has no mate at row 2, column 3", G + b"3 3 3\n1 2 5\n2 1 5\n3 2 5\n"),
    ("no mate, above the diagonal", 3, "row 1, column 3 has no mate at row 3, column 1", G + b"3 3 4\n1 3 5\n1 2 5\n2 1 5\n1 3 7\n"),
    ("a byte 0", 3, "byte 0", H + b"3 3 1\n2 1 5\x00\n"),
    ("a byte 0 in a comment", 2, "byte 0", H + b"% a\x00b\n3 3 1\n2 1 5\n"),
    ("a packed file", 1, "byte 31", b"\x1f\x8b\x08\x00\x00\x00\x00\x00\x00\x03\xcb"),
    ("a program", 1, "byte 127", b"\x7fELF\x02\x01\x01" + bytes(900)),
    ("bytes over 127 in a number", 3, "no whole number", H + b"3 3 1\n2 \xb9 5\n"),
    ("a byte order mark", 1, "begin", b"\xef\xbb\xbf" + H + b"3 3 1\n2 1 5\n"),
    ("two bytes a letter", 1, "byte 0", (H + b"3 3 1\n2 1 5\n").decode().encode("utf-16-le")),
    ("line ends of CR alone", 1, "carriage return", (H + b"3 3 1\n2 1 5\n").replace(b"\n", b"\r")),
    ("a CR inside", 3, "carriage return", H + b"3 3 1\n2 1\r5\n"),
    ("a long line", 3, "longer", H + b"3 3 1\n2 1 " + b"5" * 5000 + b"\n"),
    ("a long first line", 1, "longer", b"%" * 100000),
]

MANY = [     # over the library's columns
    ("4,097 columns", 2, "4,096", H + b"4097 4097 1\n2 1 5\n"),
    ("very many columns", 3, "4,096", H + b"%\n18446744073709551615 18446744073709551615 18446744073709551615\n2 1 5\n"),
]

GOOD = [     # n, repeated, mirrored, unended, columns
    ("lower", (3, 0, 0, 0, [[2], [3], []]), H + b"3 3 3\n2 1 5\n3 2 5\n1 1 5\n"),
    ("upper", (3, 0, 0, 0, [[2], [3], []]), H + b"3 3 2\n1 2 5\n2 3 5\n"),
    ("both triangles", (3, 0, 2, 0, [[2], [3], []]), H + b"3 3 4\n1 2 5\n2 3 5\n2 1 5\n3 2 5\n"),
    ("general", (3, 0, 0, 0, [[2], [3], []]), G + b"3 3 5\n1 2 5\n2 3 6\n3 3 1\n2 1 7\n3 2 0\n"),
    ("repeated", (3, 3, 1, 0, [[3], [], []]), H + b"3 3 6\n3 1 1\n3 1 2\n1 3 1\n3 1 5\n2 2 1\n2 2 1\n"),
    ("any case, CRLF, long comment, blanks", (3, 0, 0, 0, [[2], [], []]),
     b"%%mATRIXmARKET\tMATRIX  Coordinate REAL Symmetric \r\n%" + b"x" * 100000 +
     b"\r\n  % \xe9\r\n\r\n \t 3\t3  1 \r\n\r\n  002 1 -.5D+07\t\r\n% end\r\n\r\n"),
    ("numbers", (2, 3, 0, 0, [[2], []]), H + b"2 2 4\n2 1 1.\n2 1 +1e5\n2 1 " + b"9" * 1000 + b"\n2 1 -0.0E-99999\n"),
    ("integer over 64 bits is a value", (2, 0, 0, 0, [[2], []]),
     b"%%MatrixMarket matrix coordinate integer symmetric\n2 2 1\n2 1 -99999999999999999999\n"),
    ("no line end", (2, 0, 0, 3, [[2], []]), P + b"2 2 1\n2 1"),
    ("no line end behind a comment", (2, 0, 0, 0, [[2], []]), P + b"2 2 1\n2 1\n% end"),
    ("no entries", (3, 0, 0, 0, [[], [], []]), P + b"3 3 0\n"),
    ("no columns", (0, 0, 0, 0, []), P + b"0 0 0\n"),
    ("the last column", (4096, 0, 0, 0, [[4096]] + [[]] * 4095), P + b"4096 4096 2\n4096 4096\n4096 1\n"),
]


# ---- files made bad, from a seed

def made(rng):
    n = rng.choice([0, 1, 2, 3, 4, 5, 7, 9, 12])
    field, shape = rng.choice(["real", "integer", "pattern"]), rng.choice(["symmetric", "symmetric", "general"])
    pairs = [(i, j) for i in range(1, n + 1) for j in range(1, i + 1) if rng.random() < 0.4]
    entries = []
    for i, j in pairs:
        both = shape == "general" or rng.random() < 0.1
        turn = rng.random() < 0.3
        entries += [(i, j), (j, i)] if both and i != j else [(j, i) if turn else (i, j)]
    if rng.random() < 0.3 and entries:
        entries += [rng.choice(entries) for _ in range(rng.randint(1, 3))]
    if rng.random() < 0.5:
        rng.shuffle(entries)

    def value():
        if field == "pattern":
            return ""
        return " " + (str(rng.randint(-99, 99)) if field == "integer" else rng.choice(["1.5", "-2", "+.5e3", "1.D-2", "0"]))

    lines = ["%%MatrixMarket matrix coordinate " + field + " " + shape]
    if rng.random() < 0.3:
        lines[0] = rng.choice([lines[0].upper(), lines[0].lower(), lines[0].title()])
    lines += ["% " + "c" * rng.choice([0, 5, 2000])] * rng.randint(0, 2)
    lines += [f"{n} {n} {len(entries)}"] + [f"{i} {j}{value()}" for i, j in entries]
    end = rng.choice(["\n", "\n", "\r\n"])
    return (end.join(lines) + (end if rng.random() < 0.8 else "")).encode()


WORDS = [b"0", b"1", b"2", b"-1", b"+1", b"99", b"1.5", b"1e5", b"x", b"", b" ", b"18446744073709551616", b"18446744073709551615", b"4294967297",
         b"4096", b"4097", b"nan", b"%", b"1 1", b"1 2 3", b"\xb2", b"1\r", b"1\x00", b"general", b"symmetric", b"real", b"pattern", b"integer",
         b"complex", b"array", b"Hermitian"]
LINES = [b"\n", b"% c\n", b" \t\r\n", b"1 1\n", b"2 1 1\n", b"1 2 1\n", b"%" * 1500 + b"\n"]
LETTERS = b"0123456789-+.eED% \t\r\n\x00\x0b\x0c\x1a\x7f\xffxX"


def spoilt(rng, data):
    for _ in range(rng.choice([0, 1, 1, 1, 2, 3])):
        how = rng.randrange(9)
        at = rng.randrange(len(data) + 1)
        if how == 0:
            data = data[:at] + bytes([rng.choice(LETTERS)]) + data[at:]
        elif how == 1:
            data = data[:at] + data[at + 1:]
        elif how == 2:
            data = data[:at] + bytes([rng.choice(LETTERS)]) + data[at + 1:]
        elif how == 3:
            data = data[:at]
        elif how in (4, 5):
            words = [m.span() for m in re.finditer(rb"[^ \t\r\n]+", data)][rng.choice([0, 5, 5]):]
            if words:
                a, b = rng.choice(words)
                data = data[:a] + rng.choice(WORDS) + data[b:]
        else:
            lines = data.splitlines(True)
            if lines:
                k = rng.randrange(len(lines))
                if how == 6:
                    del lines[k]
                elif how == 7:
                    lines.insert(rng.randrange(len(lines) + 1), lines[k])
                else:
                    lines.insert(rng.randrange(len(lines) + 1), rng.choice(LINES))
            data = b"".join(lines)
    return data


def run_reader(folder, files, lines):
    """Stores the files as folder/0, folder/1 and so on, and has the driver answer the lines; in a line, @K is the name of file K."""
    driver = WORK + "/driver"
    if not os.path.exists(driver):
        with open(driver + ".c", "w") as f:
            f.write(DRIVER)
        subprocess.run(["gcc", *STRICT, "-I", HERE, "-o", driver, driver + ".c", HERE + "/matrix_market.c", *WRAPPED], check=True)
    for k, data in enumerate(files):
        with open(f"{folder}/{k}", "wb") as f:
            f.write(data)
    ran = subprocess.run([driver], input=re.sub("@", folder + "/", "\n".join(lines) + "\n"), capture_output=True, text=True)
    see(ran.returncode == 0 and not ran.stderr, "the sanitizers", ran.returncode, ran.stderr[:2000])
    answers = ran.stdout.splitlines()
    see(len(answers) == len(lines), "answers", len(answers), "of", len(lines))
    return answers


def test_reader(folder, count, seed):
    rng = random.Random(seed)
    random_files = [spoilt(rng, made(rng)) for _ in range(count)]
    files = [b[3] for b in BAD + MANY] + [g[2] for g in GOOD] + random_files
    answers = run_reader(folder, files, [f"M @{k}" for k in range(len(files))])
    for (name, line, word, data), answer in zip(BAD + MANY, answers):
        kind = "columns" if (name, line, word, data) in MANY else "refused"
        see(said(answer) == (kind, line) and word in answer, name, "|", answer, "| not", kind, line, word)
        see(reading(data) == (kind, line), name, "| second reading:", reading(data))
    answers = answers[len(BAD) + len(MANY):]
    for (name, pattern, data), answer in zip(GOOD, answers):
        see(said(answer) == ("pattern", *pattern), name, "|", answer[:200])
        see(reading(data) == ("pattern", *pattern), name, "| second reading:", str(reading(data))[:200])
    taken = 0
    for data, answer in zip(random_files, answers[len(GOOD):]):
        want = reading(data)
        taken += want[0] == "pattern"
        see(said(answer) == want, data, "|", answer, "| not", want)
        see(len(answer) < 260 or want[0] == "pattern", "a long answer", answer)
    print(f"reader: {len(BAD) + len(MANY)} bad files, {len(GOOD)} good files, {count} from seed {seed}, of which {taken} are good")


def permutation_reading(data, n):
    lines = [l[:-1] if l.endswith(b"\r") else l for l in data.split(b"\n")]
    numbers = []
    for at, l in enumerate(lines, 1):
        if re.search(rb"[\x00-\x08\x0b-\x1f\x7f]", l):
            return ("refused", at)
        for word in l.replace(b"\t", b" ").split(b" "):
            if not word:
                continue
            if not re.fullmatch(rb"[0-9]{1,63}", word) or len(numbers) == n or not 1 <= int(word) <= n or int(word) in numbers:
                return ("refused", at)
            numbers.append(int(word))
    return ("numbers", numbers) if len(numbers) == n else ("refused", len(lines) + data.endswith(b"\r"))


def test_reading_permutations(folder, count, seed):
    rng = random.Random(seed)
    files, sizes = [], []
    for _ in range(count):
        n = rng.choice([0, 1, 2, 3, 5, 12])
        words = [str(x) for x in rng.sample(range(1, n + 1), n)]
        sizes.append(n)
        files.append(spoilt(rng, "".join(w + rng.choice(["\n", "\n", "\r\n", " ", " \t"]) for w in words).encode()))
    taken = 0
    for data, n, answer in zip(files, sizes, run_reader(folder, files, [f"P {n} @{k}" for k, n in enumerate(sizes)])):
        want = permutation_reading(data, n)
        taken += want[0] == "numbers"
        words = answer.split()
        got = ("numbers", list(map(int, words[1:]))) if words[0] == "0" else ("refused", int(words[1])) if words[0] == "1" else words
        see(got == want, "permutation", n, data, "|", answer, "| not", want)
    print(f"permutations: {count} from seed {seed}, of which {taken} are good")


def test_memory(folder):
    """Wherever memory runs out it is said, and what was taken is given back."""
    n = 60
    entries = [(i, j) for j in range(1, n + 1) for i in range(j, n + 1)]
    data = P + f"{n} {n} {len(entries)}\n".encode() + "".join(f"{i} {j}\n" for i, j in entries).encode()
    answers = run_reader(folder, [data, "\n".join(map(str, range(n, 0, -1))).encode()], [f"F {n} @0 @1"])
    see(re.fullmatch(r"done ([6-9]|\d\d)", answers[0]), "memory", answers)
    print(f"memory: {answers[0].split()[-1]} failures, each said")


# ---- the tool

def key_of(n, mark, limit, columns):
    """The bytes of a key: edition, n, mark, limit; for each column how many rows, and their gaps; groups of seven bits, the lowest first."""
    numbers = [1, n, mark, limit]
    for j, rows in enumerate(columns, 1):
        numbers += [len(rows)] + [b - a for a, b in zip([j] + rows, rows)]
    out = bytearray()
    for x in numbers:
        while x > 127:
            out.append(x % 128 + 128)
            x //= 128
        out.append(x)
    return bytes(out)


class Farm:
    def __init__(self, program, folder):
        self.program, self.folder = os.path.abspath(program), folder

    def file(self, name, data):
        with open(f"{self.folder}/{name}", "wb") as f:
            f.write(data)

    def bytes(self, name):
        try:
            with open(f"{self.folder}/{name}", "rb") as f:
                return f.read()
        except FileNotFoundError:
            return None

    def names(self):
        return sorted(os.listdir(self.folder))

    def run(self, *words, **more):
        ran = subprocess.run([self.program, *words], cwd=self.folder, capture_output=True, **more)
        return ran.returncode, ran.stdout.decode(), ran.stderr.decode()

    def sees(self, what, words, status, out, err, **more):
        """The answer matches: out and err are patterns for all that was printed, "" for nothing."""
        got = self.run(*words, **more)
        see(got[0] == status and re.fullmatch(out, got[1]) and re.fullmatch(err, got[2]), what, words, got, "| not", status, out, err)


def new_farm(program):
    folder = tempfile.mkdtemp(dir=WORK)
    return Farm(program, folder)


def test_bad_files(program):
    f = new_farm(program)
    for name, line, word, data in BAD + MANY:
        f.file("a.mtx", data)
        status = 1 if (name, line, word, data) in MANY else 2
        f.sees(name, ["plan", "a.mtx"], status, "", rf"farm: a\.mtx: line {line}: [^\n]*{re.escape(word)}[^\n]*\n")
    see(f.names() == ["a.mtx"], "bad files leave no files", f.names())
    f.sees("no file", ["plan", "b.mtx"], 2, "", r"farm: b\.mtx: cannot be opened: [^\n]*\n")
    f.sees("a folder", ["plan", "."], 2, "", r"farm: \.: cannot be read: [^\n]*\n")
    f.sees("a name with a line end", ["plan", "b\n.mtx"], 2, "", r"farm: b\?\.mtx: cannot be opened: [^\n]*\n")


def test_good_files(program):
    f = new_farm(program)
    for name, (n, repeated, mirrored, unended, columns), data in GOOD:
        f.file("a.mtx", data)
        notes = rf"farm: a\.mtx: repeated entries[^\n]*: {repeated}\n" if repeated else ""
        notes += rf"farm: a\.mtx: symmetric, but[^\n]*: {mirrored}\n" if mirrored else ""
        notes += rf"farm: a\.mtx: line {unended}: [^\n]*\n" if unended else ""
        f.sees(name, ["plan", "a.mtx"], 0, rf"columns +{n}\n(.*\n)*plan .* a\.plan\n", notes)
        see(f.bytes("a.key") == key_of(n, 0, 2 ** 40, columns), name, "key", f.bytes("a.key"))
        f.sees(name, ["check", "a.key", "a.plan"], 0, r"done, peak \d+\n", "")
        f.sees(name, ["check", "a.mtx", "a.plan"], 0, r"done, peak \d+\n", notes)


def matrix(rng, n, density):
    columns = [[i for i in range(j + 1, n + 1) if rng.random() < density] for j in range(1, n + 1)]
    entries = [(i, j) for j, c in enumerate(columns, 1) for i in c]
    return columns, P + f"{n} {n} {len(entries)}\n".encode() + "".join(f"{i} {j}\n" for i, j in entries).encode()


def permuted(columns, numbers):
    place = {old: new for new, old in enumerate(numbers, 1)}
    out = [[] for _ in columns]
    for j, rows in enumerate(columns, 1):
        for i in rows:
            out[min(place[i], place[j]) - 1].append(max(place[i], place[j]))
    return [sorted(c) for c in out]


def test_jobs(program, rng):
    """The key says which job was planned: with mark, limit and permutation. Damaged plans and keys are refused, by key and by matrix alike."""
    f = new_farm(program)
    for k in range(12):
        n = rng.choice([1, 2, 5, 20, 60, 300])
        columns, data = matrix(rng, n, 3 / n)
        mark, limit, numbers = rng.randrange(3), rng.choice([2 ** 40, 10 ** 6]), rng.sample(range(1, n + 1), n)
        f.file("a.mtx", data)
        f.file("p", (rng.choice([" ", "\n", "\r\n", " \n\n\t"]).join(map(str, numbers)) + rng.choice(["", "\n"])).encode())
        options = ["-m", str(mark), "-l", str(limit), "-p", "p"]
        f.sees("plan", ["plan", *options, "a.mtx", "-d", "."], 0, rf"(.*\n)*permutation   {n} numbers, \./a\.perm\n", "")
        see(f.bytes("a.key") == key_of(n, mark, limit, permuted(columns, numbers)), "the key of a permuted job", n)
        see(f.bytes("a.perm") == "".join(f"{x}\n" for x in numbers).encode(), "the permutation", n)
        options[5] = "a.perm"
        f.sees("check", ["check", "a.key", "a.plan"], 0, r"done, peak \d+\n", "")
        f.sees("check", ["check", "a.mtx", "a.plan", *options], 0, r"done, peak \d+\n", "")
        key, plan = f.bytes("a.key"), f.bytes("a.plan")
        for _ in range(6):
            at = rng.randrange(len(plan))
            f.file("bad.plan", rng.choice([plan[:at], plan + b"\x00", plan[:at] + bytes([plan[at] ^ 1 << rng.randrange(8)]) + plan[at + 1:]]))
            one, two = f.run("check", "a.key", "bad.plan"), f.run("check", "a.mtx", "bad.plan", *options)
            same = [re.sub(r"; the true peak is \d+", "", x[1]) for x in (one, two)]    # the solver's call does not tell it
            good = one[0] == two[0] == 1 and same[0] == same[1] and re.fullmatch(r"refused \d+ at \d+: [^\n]+\n", one[1])
            see(good and not one[2] + two[2], "a damaged plan", one, two)
            at = rng.randrange(len(key))
            f.file("bad.key", rng.choice([key[:at], key + b"\x00", key[:at] + bytes([key[at] ^ 1 << rng.randrange(8)]) + key[at + 1:]]))
            f.sees("a damaged key", ["check", "bad.key", "a.plan"], 1, r"refused (27|11) at \d+: [^\n]+\n", "")
        options[1] = str((mark + 1) % 3)
        f.sees("another mark", ["check", "a.mtx", "a.plan", *options], 1, r"refused 11 at [34]: [^\n]+\n", "")
    for order in ("amd", "metis"):
        columns, data = matrix(rng, 40, 0.1)
        f.file("o.mtx", data)
        status, out, err = f.run("plan", "o.mtx", "-o", order)
        if status:
            good = re.fullmatch(rf"farm: -o {order}: [^\n]* was not found when farm was built\n", err)
            see(good and status == 2 and "o.key" not in f.names(), order, err)
        else:
            numbers = list(map(int, f.bytes("o.perm").split()))
            see(sorted(numbers) == list(range(1, 41)) and f.bytes("o.key") == key_of(40, 0, 2 ** 40, permuted(columns, numbers)), order, numbers)
            f.sees(order, ["check", "o.mtx", "o.plan", "-p", "o.perm"], 0, r"done, peak \d+\n", "")
        print(f"farm: -o {order}: {'not built in' if status else 'built in'}")


BAD_PERMUTATIONS = [     # of 3 numbers
    (1, "ends after 0", b""), (3, "ends after 2", b"1\n2\n"), (1, "ends after 2", b"1 2"), (4, "beyond", b"1\n2\n3\n4\n"), (1, "beyond", b"1 2 3 3"),
    (2, "in line 1 already", b"3 1\n3\n"), (2, "not in 1 to 3", b"3\n0\n1\n"), (2, "not in 1 to 3", b"3\n4\n1\n"), (1, "sign", b"-1 2 3\n"),
    (3, "no whole number", b"1\n2\nthree\n"), (3, "no whole number", b"1\r\n2\r\n3.0\r\n"), (2, "64 bits", b"1\n18446744073709551618\n3\n"),
    (2, "byte 0", b"1\n2\x00\n3\n"), (1, "more than 63", b"0" * 63 + b"1 2 3\n"), (1, "no whole number", b"% 1 2 3\n"), (1, "carriage", b"1\r2\r3\r"),
]


def test_permutations(program):
    f = new_farm(program)
    f.file("a.mtx", P + b"3 3 2\n2 1\n3 1\n")
    for line, word, data in BAD_PERMUTATIONS:
        f.file("p", data)
        for words in (["plan", "a.mtx", "-p", "p"], ["check", "a.mtx", "a.mtx", "-p", "p"]):
            f.sees(data, words, 2, "", rf"farm: p: line {line}: [^\n]*{re.escape(word)}[^\n]*\n")
    see(f.names() == ["a.mtx", "p"], "bad permutations leave no files", f.names())


WRONG_CALLS = [
    ("", "usage"), ("pla", "no such command"), ("plan", "missing"), ("plan a.mtx b.mtx", "too many"), ("check a.mtx", "the plan is missing"),
    ("plan a.mtx -x", "no such option"), ("plan a.mtx -m", "nothing follows"), ("plan a.mtx -m ''", "a number is wanted"),
    ("plan a.mtx -m one", "no whole number"), ("plan a.mtx -m -1", "no whole number"), ("plan a.mtx -m 1x", "no whole number"),
    ("plan a.mtx -m ' 1'", "no whole number"), ("plan a.mtx -m1", "no such option"), ("plan a.mtx -l 1e6", "no whole number"),
    ("plan a.mtx -l 18446744073709551616", "64 bits"), ("plan a.mtx -m 1 -m 1", "twice"), ("plan a.mtx -o rcm", "not amd, metis or natural"),
    ("plan a.mtx -o natural -p p", "not both"), ("plan a.mtx -p p", "p: cannot be opened"), ("plan a.mtx -d nowhere", "cannot be written"),
    ("plan a.mtx -d ''", "a folder is wanted"), ("plan a.mtx -d a.mtx", "cannot be written"), ("check a.mtx a.plan", "a.plan: cannot be opened"),
    ("check a.key a.plan", "a.key: cannot be opened"), ("check a.mtx a.plan -o amd", "no such option"), ("check a.mtx .", "cannot be read"),
    ("check a.key a.plan -m 0", "for a .mtx file"),
]


def test_calls(program):
    f = new_farm(program)
    f.file("a.mtx", P + b"3 3 2\n2 1\n3 1\n")
    f.sees("help", ["--help"], 0, r"usage: farm plan (.*\n)+", "")
    for call, words in WRONG_CALLS:
        words = re.escape(words)
        f.sees("call", shlex.split(call), 2, "", rf"farm: [^\n]*{words}[^\n]*\n")
    for words, number in ((["-m", "3"], 2), (["-l", str(2 ** 40 + 1)], 3), (["-m", str(2 ** 32)], 2), (["-l", "1"], 9)):
        f.sees("call", ["plan", "a.mtx", *words], 1, "", rf"farm: a\.mtx: refused {number} at 0: [^\n]+\n")
    see(f.names() == ["a.mtx"], "refused calls leave no files", f.names())


def small_files():
    signal.signal(signal.SIGXFSZ, signal.SIG_IGN)
    resource.setrlimit(resource.RLIMIT_FSIZE, (40, 40))


def test_files(program, rng):
    """Files are replaced whole, or stay as they were."""
    f = new_farm(program)
    f.file("a.mtx", matrix(rng, 30, 0.2)[1])
    old = {"a.key": b"old key", "a.plan": b"old plan"}
    for name in old:
        f.file(name, old[name])
    whole = ["a.key", "a.mtx", "a.plan"]
    f.sees("over the limit", ["plan", "a.mtx", "-l", "1"], 1, "", r"farm: [^\n]+\n")
    see({k: f.bytes(k) for k in old} == old and f.names() == whole, "a refused plan touches nothing", f.names())
    f.sees("no room", ["plan", "a.mtx"], 2, "", r"farm: a\.key: cannot be written: [^\n]+\n", preexec_fn=small_files)
    see({k: f.bytes(k) for k in old} == old and f.names() == whole, "a full disk touches nothing", f.names())
    os.remove(f.folder + "/a.plan")
    os.mkdir(f.folder + "/a.plan")
    f.sees("a folder in the way", ["plan", "a.mtx"], 2, "", r"farm: a\.plan: cannot be written: [^\n]+\n")
    see(f.bytes("a.key") == b"old key" and f.names() == whole, "a folder in the way: nothing is touched", f.names())
    os.rmdir(f.folder + "/a.plan")
    f.sees("replaced", ["plan", "a.mtx"], 0, r"(.*\n)+", "")
    see(f.bytes("a.key")[:2] == bytes([1, 30]) and f.names() == whole, "replaced", f.names())
    f.file("a.perm", b"old\n")
    f.sees("an old permutation", ["plan", "a.mtx"], 0, r"(.*\n)+", r"farm: a\.perm: this file is not of this plan[^\n]*\n")
    see(f.bytes("a.perm") == b"old\n", "an old permutation stays")
    with open("/dev/full", "w") as full:
        ran = subprocess.run([f.program, "check", "a.key", "a.plan"], cwd=f.folder, stdout=full, stderr=subprocess.PIPE)
    see(ran.returncode == 2 and ran.stderr.startswith(b"farm: the answer cannot be printed"), "a full output", ran)


def test_farm(program, seed):
    before, rng = tried, random.Random(seed)
    test_bad_files(program)
    test_good_files(program)
    test_permutations(program)
    test_calls(program)
    test_jobs(program, rng)
    test_files(program, rng)
    print(f"farm: {tried - before} answers and files seen")


def main():
    global WORK
    p = argparse.ArgumentParser(usage=__doc__.splitlines()[1][7:])
    p.add_argument("-n", type=int, default=5000)
    p.add_argument("-s", type=int, default=1)
    p.add_argument("farm", nargs="?")
    a = p.parse_args()
    with tempfile.TemporaryDirectory() as WORK:
        test_reader(tempfile.mkdtemp(dir=WORK), a.n, a.s)
        test_reading_permutations(tempfile.mkdtemp(dir=WORK), a.n // 2, a.s)
        test_memory(tempfile.mkdtemp(dir=WORK))
        if a.farm:
            test_farm(a.farm, a.s)
    print(f"{tried - failures} passed, {failures} failed")
    sys.exit(failures > 0)


if __name__ == "__main__":
    main()
