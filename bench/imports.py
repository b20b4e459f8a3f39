"""What the check says of CHOLMOD's analyses, as `farm import` writes them, and of the same analyses spoilt: a table in Markdown.
usage: bench/imports.py FARM JOB...     FARM: c/farm, built with CHOLMOD; JOB: job texts, as in real/ and as fetch_real.sh leaves them

Each job is analysed in its own numbering (up to 500 columns) or in those of AMD and METIS (above). Exits with 1 if an analysis is refused, or if a
spoilt one is not refused with the number and at the place that it must be.
"""
import os
import re
import subprocess
import sys
import tempfile

sys.path.append(os.path.join(os.path.dirname(os.path.abspath(__file__)), "..", "tests"))
from damage import Plan, as_bytes, job_of, key_numbers, read_plan    # noqa: E402
from matrix import columns_of, write_matrix                          # noqa: E402


def row_left_out(plan):
    """The longest list loses its middle row: 17 at that column."""
    if not any(plan.lists):
        return None
    column = max(range(len(plan.lists)), key=lambda j: len(plan.lists[j]))
    del plan.lists[column][len(plan.lists[column]) // 2]
    return plan, 17, column + 1


def steps_swapped(plan):
    """A column comes before its only or last child, at the middle of the plan or as near as may be: 18 at the step where the column is now done."""
    steps = [k for k in range(len(plan.order) - 1) if plan.lists[plan.order[k] - 1][:1] == [plan.order[k + 1]]]
    if not steps:
        return None
    k = min(steps, key=lambda step: abs(2 * step - len(plan.order)))
    for numbers in plan.order, plan.pops:
        numbers[k], numbers[k + 1] = numbers[k + 1], numbers[k]
    return plan, 18, k + 1


def peak_one_less(plan):
    """20 at 0."""
    if not plan.peak:
        return None
    plan.peak -= 1
    return plan, 20, 0


SPOILS = [("a row left out", row_left_out), ("two steps swapped", steps_swapped), ("peak less 1", peak_one_less)]


def run(*words):
    return subprocess.run(words, capture_output=True, text=True)


def in_order(columns, numbers):
    """The rows of each column after a permutation."""
    place = {old: new for new, old in enumerate(numbers, 1)}
    out = [[] for _ in columns]
    for j, rows in enumerate(columns, 1):
        for i in rows:
            out[min(place[i], place[j]) - 1].append(max(place[i], place[j]))
    return [sorted(rows) for rows in out]


def judged(farm, folder, key, plan):
    with open(f"{folder}/spoilt.plan", "wb") as f:
        f.write(key + bytes(as_bytes(plan.numbers())))
    said = run(farm, "check", f"{folder}/a-cholmod.key", f"{folder}/spoilt.plan").stdout
    found = re.match(r"refused (\d+) at (\d+):", said)
    return (int(found[1]), int(found[2])) if found else None


def line(farm, folder, columns, order):
    """The cells of a line of the table, or the words of a refusal."""
    with open(f"{folder}/a.mtx", "w") as f:
        write_matrix(f, columns)
    ran = run(farm, "import", f"{folder}/a.mtx", "-o", order)
    if ran.returncode:
        return ran.stderr.strip()
    said = dict(re.findall(r"(?m)^(\w+(?: \w+)*)  +(.*)$", ran.stdout))
    with open(f"{folder}/a-cholmod.perm") as f:
        job = job_of(in_order(columns, [int(x) for x in f.read().split()]))
    with open(f"{folder}/a-cholmod.plan", "rb") as f:
        data = f.read()
    key = bytes(as_bytes(key_numbers(job)))
    sound = Plan(*read_plan(job.n, key, data))
    own = run(farm, "plan", f"{folder}/a.mtx", "-p", f"{folder}/a-cholmod.perm", "-m", "1").stdout
    cells = [f"{job.n:,}", f"{int(said['factor rows']):,}", f"{len(data):,}", said["check"].split(",")[0], f"{sound.peak:,}",
             f"{int(re.search(r'peak +([0-9]+)', own)[1]):,}"]
    for _, spoil in SPOILS:
        plan, number, place = spoil(sound.copy())
        if judged(farm, folder, key, plan) != (number, place):
            return f"a spoilt analysis is not refused {number} at {place}"
        cells.append(f"{number} at {place:,}")
    return cells


def main():
    farm, failed = os.path.abspath(sys.argv[1]), 0
    print("<!-- figures: imports -->\n")
    print("| pattern | order | n | factor rows | plan bytes | check | peak | peak with mark 1 |", " | ".join(name for name, _ in SPOILS), "|")
    print("|---|---|---:|---:|---:|---|---:|---:|---|---|---|")
    for path in sys.argv[2:]:
        columns = columns_of(path)
        for order in ["natural"] if len(columns) <= 500 else ["amd", "metis"]:
            with tempfile.TemporaryDirectory() as folder:
                cells = line(farm, folder, columns, order)
            if isinstance(cells, str):
                failed = 1
                print(f"imports: {path}, {order}: {cells}", file=sys.stderr)
            else:
                name = {"natural": "its own", "amd": "AMD", "metis": "METIS"}[order]
                print("|", os.path.basename(path)[:-4], "|", name, "|", " | ".join(cells), "|", flush=True)
    sys.exit(failed)


if __name__ == "__main__":
    main()
