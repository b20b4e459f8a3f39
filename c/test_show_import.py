"""Tries farm show and farm import.
usage: test_show_import.py [-s SEED] FARM [FLAG...]      FLAG: what cholmod_analysis.c is built with, such as -DFARM_CHOLMOD -lcholmod

show: every picture is well-formed, of a sensible size, and says what a second reading of the rules (../tests/damage.py, calls.py) says of the same
matrix: fronts, peaks, fill. import: the plan that is written is CHOLMOD's, the second reading passes it, and spoilt ones are refused by number and
place; skipped, with a line that says so, if farm was built without CHOLMOD. Both: bad files and calls are answered in one line, and leave no files.
"""
import argparse
import os
import random
import re
import shlex
import subprocess
import sys
import tempfile
import xml.etree.ElementTree

HERE = os.path.dirname(os.path.abspath(__file__))
sys.path += [os.path.join(HERE, "..", "tests"), os.path.join(HERE, "..", "bench")]
import test_matrix_market as base                                                       # noqa: E402
from test_matrix_market import BAD, MANY, P, key_of, matrix, new_farm, permuted, see    # noqa: E402
from calls import order_of                                                              # noqa: E402
from damage import Plan, as_bytes, check, fill, job_of, parents_of, read_plan, rooms    # noqa: E402
from imports import SPOILS                                                              # noqa: E402

SVG = "{http://www.w3.org/2000/svg}"
KINDS = ("tree", "room", "fill")
HEAVIEST = 300_000      # bytes of a picture
TEN = [[2, 3, 10], [5], [6, 9], [6, 7, 8], [8], [7], [9], [10], [10], []]


def as_matrix(columns):
    n = len(columns)
    return P + f"{n} {n} {sum(map(len, columns))}\n".encode() + "".join(f"{i} {j}\n" for j, c in enumerate(columns, 1) for i in c).encode()


def grouped(x):
    return f"{x:,}"


# ---- pictures

class Picture:
    """A picture that was read back: its words, and its shapes by colour."""

    def __init__(self, data, what):
        self.root = xml.etree.ElementTree.fromstring(data)
        self.words = ["".join(t.itertext()) for t in self.root.iter(SVG + "text")]
        box = [float(x) for x in self.root.get("viewBox").split()]
        see(self.root.tag == SVG + "svg" and box[:2] == [0, 0] and box[2] >= 300 and 100 <= box[3] <= 1200, what, "page", box)
        see(len(data) <= HEAVIEST, what, "bytes", len(data))
        see(not re.search(rb"nan|inf[^o]|-?\d{7,}\.", data), what, "a number that is none")
        areas = [(self.area(t), t) for t in self.root.iter(SVG + "text")]
        for k, ((left, top, right, bottom), t) in enumerate(areas):
            on = left >= 0 and right <= box[2] + 1 and top >= 0 and bottom <= box[3]
            free = all(right <= a[0] or a[2] <= left or bottom <= a[1] or a[3] <= top for a, _ in areas[:k])
            see(on and free, what, "words off the page, or over others", t.attrib, "".join(t.itertext()))

    @staticmethod
    def area(t):
        """Left, top, right and bottom of words; a letter is taken as 0.6 of the size of the type, as in a wide one."""
        size = float(t.get("font-size", 12))
        wide = 0.6 * size * len("".join(t.itertext()))
        if t.get("x") is None:      # turned, around its middle
            x, y = map(float, re.match(r"translate\((\S+) (\S+)\) rotate\(-90\)", t.get("transform")).groups())
            return x - 0.75 * size, y - wide / 2, x, y + wide / 2
        left = float(t.get("x")) - {"middle": wide / 2, "end": wide}.get(t.get("text-anchor"), 0)
        return left, float(t.get("y")) - 0.75 * size, left + wide, float(t.get("y"))

    def places(self, inner, colour):
        """The places (row, column) that the inner picture's path of this colour covers."""
        found = set()
        for path in list(self.root.iter(SVG + "svg"))[1 + inner].iter(SVG + "path"):
            if path.get("fill") == colour:
                for x, y, wide in re.findall(r"M(\d+) (\d+)h(\d+)", path.get("d")):
                    found |= {(int(y) + 1, int(x) + 1 + k) for k in range(int(wide))}
        return found


def shown(f, name, *options):
    """Draws name.mtx; the three pictures, by kind."""
    got = f.run("show", f"{name}.mtx", *options)
    lines = [rf"{kind} +{name}-{kind}\.svg: .*\n" for kind in KINDS]
    see(got[0] == 0 and re.fullmatch("".join(lines), got[1]) and not got[2], "show", name, options, got)
    return {kind: Picture(f.bytes(f"{name}-{kind}.svg"), f"{name}-{kind}") for kind in KINDS}


def see_small(f, columns, mark):
    """The pictures of a matrix of up to 40 columns say what the second reading says."""
    f.file("a.mtx", as_matrix(columns))
    drawn, n, lists = shown(f, "a", "-m", str(mark)), len(columns), fill(len(columns), columns)
    parents = parents_of(lists)
    counts = [parents.count(j) for j in range(1, n + 1)]
    fronts = [len(rows) + 1 for rows in lists]
    for m in range(3):
        order = order_of(m, lists)
        used = rooms(order, [counts[j - 1] for j in order], lists)
        words = f"peak {grouped(max(used))}, step {used.index(max(used)) + 1}" if n else ""
        see(not n or drawn["room"].words.count(words) >= 1, "peak", m, columns, words, drawn["room"].words)
    depth = {0: 0}
    for j in range(n, 0, -1):
        depth[j] = depth[parents[j - 1]] + 1
    heading = f"depth {max(depth.values())}, greatest front {max(fronts, default=0)}"
    see(any(heading in w for w in drawn["tree"].words), "heading", drawn["tree"].words)
    if counts.count(0) <= 16 and max(depth.values()) <= 16:
        got = sorted(int(w[6:]) for w in drawn["tree"].words if re.fullmatch(r"front \d+", w))
        see(got == sorted(fronts), "fronts", columns, got)
    else:
        tops = [j for j in range(1, n + 1) if parents[j - 1] == 0 or counts[parents[j - 1] - 1] > 1]
        blocks = [p for p in drawn["tree"].root.iter(SVG + "path") if re.fullmatch(r"M[\d.]+ [\d.]+h[\d.]+v[\d.]+h-[\d.]+z", p.get("d"))]
        see(len(blocks) == len(tops), "blocks", columns, len(blocks), len(tops))
    pattern = {(i, j) for j, rows in enumerate(columns, 1) for i in rows} | {(j, j) for j in range(1, n + 1)}
    filled = {(i, j) for j, rows in enumerate(lists, 1) for i in rows} - pattern
    if n:
        see(drawn["fill"].places(0, "#3a7fbf") == drawn["fill"].places(1, "#3a7fbf") == pattern, "pattern", columns)
        see(drawn["fill"].places(1, "#fbb566") == filled and not drawn["fill"].places(0, "#fbb566"), "fill", columns)


def mesh(side):
    at = [[r * side + c + 1 for c in range(side)] for r in range(side)]
    columns = [[] for _ in range(side * side)]
    for r in range(side):
        for c in range(side):
            columns[at[r][c] - 1] = sorted(([at[r][c + 1]] if c + 1 < side else []) + ([at[r + 1][c]] if r + 1 < side else []))
    return columns


def see_large(f, rng):
    """4,096 columns of every shape, and sizes at which the drawing changes."""
    n = 4096
    draws = {"mesh": mesh(64), "star": [[n]] * (n - 1) + [[]], "chain": [[j + 1] for j in range(1, n)] + [[]], "apart": [[]] * n,
             "binary": [[n - (n - j) // 2] for j in range(1, n)] + [[]], "wild": [sorted({rng.randint(j + 1, n)}) for j in range(1, n)] + [[]]}
    draws.update({f"tree{k}": [[rng.randint(j + 1, min(k, j + 9))] for j in range(1, k)] + [[]] for k in (200, 201, 270, 271, 400, 401)})
    for name, columns in draws.items():
        f.file(f"{name}.mtx", as_matrix(columns))
        drawn = shown(f, name)
        see(any(grouped(len(columns)) + " columns" in w for w in drawn["tree"].words), name, drawn["tree"].words)
    see("4,096" in drawn["tree"].words or len(columns) != n, "the axis ends in the last step")
    for options, words in ((["-o", "amd"], "ordered by AMD"), (["-o", "metis"], "ordered by METIS")):
        if f.run("show", "mesh.mtx", *options)[0] == 0:
            see(any(words in w for w in shown(f, "mesh", *options)["tree"].words), "order", options)


def see_permuted(f, rng):
    """What is drawn is the matrix in the order that was asked for."""
    numbers = rng.sample(range(1, 11), 10)
    f.file("a.mtx", as_matrix(TEN))
    f.file("order.mtx", " ".join(map(str, numbers)).encode())
    drawn = shown(f, "a", "-p", "order.mtx")["fill"].places(0, "#3a7fbf")
    see(drawn == {(i, j) for j, rows in enumerate(permuted(TEN, numbers), 1) for i in rows} | {(j, j) for j in range(1, 11)}, "order", numbers)


NAMES = [("a & b <c>", "a & b <c>"), ("träger", "träger"), ("x" * 90, "x" * 48 + "…"), ("'\"", "'\""), (b"bad\xff\xc0name", "bad??name"),
         ("tab\there", "tab?here")]


def test_names(program):
    f = new_farm(program)
    for name, title in NAMES:
        path = os.fsencode(name)
        with open(os.path.join(os.fsencode(f.folder), path + b".mtx"), "wb") as out:
            out.write(as_matrix(TEN))
        ran = subprocess.run([f.program, "show", path + b".mtx"], cwd=f.folder, capture_output=True)
        see(ran.returncode == 0, "name", name, ran)
        for kind in KINDS:
            with open(os.path.join(os.fsencode(f.folder), path + f"-{kind}.svg".encode()), "rb") as picture:
                root = xml.etree.ElementTree.fromstring(picture.read())
            see(root.find(SVG + "title").text.startswith(title + ": "), "title", name, root.find(SVG + "title").text)


def test_show(program, rng):
    f = new_farm(program)
    for mark in range(3):
        for columns in ([], [[]], [[2], []], [[], []], TEN):
            see_small(f, columns, mark)
    for k in range(40):
        n = rng.choice([3, 5, 9, 10, 20, 40])
        see_small(f, matrix(rng, n, rng.choice([0.5, 1, 2, 4]) / n)[0], k % 3)
    see_large(f, rng)
    see_permuted(f, rng)
    see(all(re.fullmatch(r"[a-z0-9]+(\.mtx|-(tree|room|fill)\.svg)", name) for name in f.names()), "no other files", f.names())
    test_names(program)


# ---- memory: each taking of it fails in turn, until a run meets no failure

DRIVER = r"""
#include "pictures.h"
#include "cholmod_analysis.h"
#include <stdio.h>
#include <stdlib.h>
#include <string.h>
static long left = -1;
static int fails(void) { return left > 0 && !--left; }
void *__real_malloc(size_t), *__real_calloc(size_t, size_t), *__real_realloc(void *, size_t);
void *__wrap_malloc(size_t a) { return fails() ? NULL : __real_malloc(a); }
void *__wrap_calloc(size_t a, size_t b) { return fails() ? NULL : __real_calloc(a, b); }
void *__wrap_realloc(void *p, size_t a) { return fails() ? NULL : __real_realloc(p, a); }
enum { N = 3000 };
static uint64_t starts[N + 1], room[N];
static uint32_t rows[N], parents[N], order[N];
static long draw(int (*picture)(svg_page *, const pictures_plan *), const pictures_plan *p) {
    for (long at = 1;; at++) {
        svg_page page = {0};
        left = at;
        int whole = picture(&page, p), met = left == 0;
        left = -1;
        int good = whole && page.length > 7 && !strcmp(page.text + page.length - 7, "</svg>\n");
        free(page.text);
        if (met == whole || whole != good) return -1;
        if (whole) return at - 1;
    }
}
static long analyse(const mm_pattern *m) {
    for (long at = 1;; at++) {
        cholmod_lists lists;
        left = at;
        const char *wrong = cholmod_lists_of(m, NULL, &lists);
        int met = left == 0;
        left = -1;
        if (wrong && strstr(wrong, "was not found")) return 0;
        if (met ? !wrong || strcmp(wrong, "out of memory") || lists.rows : !!wrong) return -1;
        if (!wrong) { cholmod_lists_free(&lists); return at - 1; }
    }
}
int main(void) {
    for (int j = 0; j < N; j++) {       /* pairs of columns */
        starts[j + 1] = starts[j] + (j % 2 == 0);
        if (j % 2 == 0) rows[starts[j]] = parents[j] = (uint32_t)j + 2;
        order[j] = (uint32_t)j + 1;
        room[j] = 3 - 2 * (unsigned)(j % 2);
    }
    pictures_plan p = {"memory", "as in the file", N, 0, starts, starts, rows, rows, parents, order,
                       {room, room, room}, {room, room, room}, {3, 3, 3}};
    mm_pattern m = {.n = N, .starts = starts, .rows = rows, .rows_len = N / 2};
    printf("%ld %ld %ld %ld\n", draw(picture_tree, &p), draw(picture_room, &p), draw(picture_fill, &p), analyse(&m));
    return 0;
}
"""


def test_memory(flags):
    """Wherever memory runs out it is said, and what was taken is given back."""
    folder = tempfile.mkdtemp(dir=base.WORK)
    with open(f"{folder}/driver.c", "w") as f:
        f.write(DRIVER)
    sources = [f"{HERE}/{name}.c" for name in ("picture_tree", "picture_room", "picture_fill", "svg", "cholmod_analysis")]
    command = ["gcc", *base.STRICT, f"-I{HERE}", "-o", f"{folder}/driver", f"{folder}/driver.c", *sources, *base.WRAPPED, *flags]
    built = subprocess.run(command, capture_output=True, text=True)
    ran = subprocess.run([f"{folder}/driver"], capture_output=True, text=True) if built.returncode == 0 else built
    met = [int(x) for x in ran.stdout.split()]
    see(ran.returncode == 0 and len(met) == 4 and min(met[:3]) > 0 and met[3] >= 0, "memory", met, ran.stderr[-2000:])
    print(f"memory: {sum(met)} failures, each said")


# ---- both commands: what is bad

WRONG_CALLS = [
    ("", "the matrix is missing"), ("a.mtx b.mtx", "too many"), ("a.mtx -x", "no such option"), ("a.mtx -m", "nothing follows"),
    ("a.mtx -m one", "no whole number"), ("a.mtx -m 1.0", "no whole number"), ("a.mtx -m -1", "no whole number"), ("a.mtx -m 1 -m 1", "twice"),
    ("a.mtx -o rcm", "not amd, metis or natural"), ("a.mtx -o natural -p p", "not both"), ("a.mtx -p p", "p: cannot be opened"),
    ("a.mtx -p a.mtx", "no whole number"), ("a.mtx -d nowhere", "cannot be written"),
    ("a.mtx -d ''", "a folder is wanted"), ("a.mtx -d a.mtx", "cannot be written"), ("b.mtx", "cannot be opened"), (".", "cannot be read"),
]


def test_bad(program, command, outputs):
    f = new_farm(program)
    for name, line, word, data in BAD + MANY:
        f.file("a.mtx", data)
        status = 1 if (name, line, word, data) in MANY else 2
        f.sees(name, [command, "a.mtx"], status, "", rf"farm: a\.mtx: line {line}: [^\n]*{re.escape(word)}[^\n]*\n")
    f.file("a.mtx", as_matrix(TEN))
    for call, words in WRONG_CALLS + ([("a.mtx -l 5", "no such option")] if command == "show" else [("a.mtx -l 5x", "no whole number")]):
        f.sees(call, [command, *shlex.split(call)], 2, "", rf"farm: [^\n]*{re.escape(words)}[^\n]*\n")
    f.sees("mark 3", [command, "a.mtx", "-m", "3"], 1, "", r"farm: a\.mtx: [^\n]*refused 2 at 0: [^\n]+\n")
    f.sees("no room", [command, "a.mtx"], 2, "", r"farm: [^\n]+: cannot be written: [^\n]+\n", preexec_fn=base.small_files)
    see(f.names() == ["a.mtx"], command, "leaves no files", f.names())
    os.mkdir(f"{f.folder}/{outputs[-1]}")
    f.file(outputs[0], b"old")
    f.sees("a folder in the way", [command, "a.mtx"], 2, "", rf"farm: {re.escape(outputs[-1])}: cannot be written: [^\n]+\n")
    see(f.names() == sorted(["a.mtx", outputs[0], outputs[-1]]) and f.bytes(outputs[0]) == b"old", "a folder in the way", f.names())
    os.rmdir(f"{f.folder}/{outputs[-1]}")
    status = f.run(command, "a.mtx")[0]
    see(status == 0 and f.names() == sorted(["a.mtx", *outputs]) and f.bytes(outputs[0]) != b"old", command, "replaces", f.names())


# ---- import

def as_job(f, columns, mark, limit):
    numbers = [int(x) for x in f.bytes("a-cholmod.perm").split()]
    see(sorted(numbers) == list(range(1, len(columns) + 1)), "the permutation", numbers)
    return job_of(permuted(columns, numbers), mark, limit)


def lent(n):
    return {"parents": n, "order": n, "pops": n, "fstarts": n + 1, "frows": n * n, "work": 8 * n + 8}


def see_import(f, columns, mark, limit):
    """The plan is sound by the second reading, and refused once it is spoilt."""
    n = len(columns)
    f.file("a.mtx", as_matrix(columns))
    f.sees("import", ["import", "a.mtx", "-m", str(mark), "-l", str(limit)], 0, r"columns(.*\n)+check +done, peak \d+\n", "")
    job, data = as_job(f, columns, mark, limit), f.bytes("a-cholmod.plan")
    key = key_of(n, mark, limit, job.columns())
    see(f.bytes("a-cholmod.key") == key, "key", n)
    answer = check(job, list(data), lent(n))[0]
    see(answer[0] == 0, "the second reading", columns, answer)
    for words in (["a-cholmod.key", "a-cholmod.plan"], ["a.mtx", "a-cholmod.plan", "-m", str(mark), "-l", str(limit), "-p", "a-cholmod.perm"]):
        f.sees("check", ["check", *words], 0, rf"done, peak {answer[2]}\n", "")
    for name, spoil in SPOILS:
        spoilt = spoil(Plan(*read_plan(n, list(key), list(data))))
        if spoilt:
            plan, number, place = spoilt
            f.file("spoilt.plan", key + bytes(as_bytes(plan.numbers())))
            f.sees(name, ["check", "a-cholmod.key", "spoilt.plan"], 1, rf"refused {number} at {place}: [^\n]+\n", "")
            see(check(job, list(f.bytes("spoilt.plan")), lent(n))[0][:2] == (number, place), name, "the second reading")


def test_import(program, rng):
    f = new_farm(program)
    f.file("a.mtx", as_matrix(TEN))
    status, _, err = f.run("import", "a.mtx")
    if "was not found when farm was built" in err:
        see(status == 2 and re.fullmatch(r"farm: a\.mtx: CHOLMOD [^\n]*\n", err) and f.names() == ["a.mtx"], "without CHOLMOD", err)
        print("farm import: CHOLMOD is not built in; its tests are skipped")
        return
    test_bad(program, "import", ["a-cholmod.key", "a-cholmod.perm", "a-cholmod.plan"])
    for columns in ([], [[]], [[2], []], [[], []], TEN):
        see_import(f, columns, 0, 2 ** 40)
    for k in range(30):
        n = rng.choice([3, 5, 9, 10, 20, 40])
        see_import(f, matrix(rng, n, rng.choice([0.5, 1, 2, 4]) / n)[0], k % 3, rng.choice([2 ** 40, 10 ** 6]))
    f.file("a.mtx", as_matrix(TEN))
    before = {name: f.bytes(name) for name in f.names()}
    f.sees("over the limit", ["import", "a.mtx", "-l", "5"], 1, "", r"farm: a\.mtx: CHOLMOD's analysis is refused 9 at 0: [^\n]+\n")
    see(before == {name: f.bytes(name) for name in f.names()}, "a refused analysis is not stored", f.names())
    f.file("mesh.mtx", as_matrix(mesh(64)))
    for order in ("natural", "amd", "metis"):
        got = f.run("import", "mesh.mtx", "-o", order)
        if got[0] == 0 or "was not found" not in got[2]:
            see(got[0] == 0, "4,096 columns", order, got)
            f.sees(order, ["check", "mesh-cholmod.key", "mesh-cholmod.plan"], 0, r"done, peak \d+\n", "")


def main():
    p = argparse.ArgumentParser(usage=__doc__.splitlines()[1][7:])
    p.add_argument("-s", type=int, default=1)
    p.add_argument("farm")
    p.add_argument("flags", nargs=argparse.REMAINDER)
    a = p.parse_args()
    rng = random.Random(a.s)
    with tempfile.TemporaryDirectory() as base.WORK:
        test_bad(a.farm, "show", ["a-fill.svg", "a-room.svg", "a-tree.svg"])
        test_show(a.farm, rng)
        print(f"farm show: {base.tried} answers and pictures seen")
        before = base.tried
        test_import(a.farm, rng)
        print(f"farm import: {base.tried - before} answers and plans seen")
        test_memory(a.flags)
    print(f"{base.tried - base.failures} passed, {base.failures} failed")
    sys.exit(base.failures > 0)


if __name__ == "__main__":
    main()
