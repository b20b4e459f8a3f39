#!/usr/bin/env python3
"""Keys and plans to be written, and keys and plans for the solver's call, each with the answer that a plain reading of the rules gives it.

    python3 tests/calls.py > crates/trial_calls/stdin

The program `trial_calls` reads them and holds write_key, write_plan and the solver's call against every one. The reading of the refusals, of fill
and of bytes is that of damage.py beside this file; here are the order that each mark gives, and what a readable key is. The rest of the
file draws cases from a seed. How many cases there are of each number goes to standard error.

A line has the form that damage.py describes, with these lists: starts, rows, plan bytes; the bytes that the lent byte slice has to hold, before
zeros; the bytes of the key for the solver's call; four lists that stay empty. The six lengths are those of the byte slice and of the slice
for factor rows, three zeros, and the entry point: 1 write_key, 2 write_plan, 3 the solver's call. The call lends no slice, so its `kept` is 0.
"""
import sys

from damage import (Dice, Late, MOST_COLUMNS, MOST_LIMIT, Reader, Refused, SAYS, as_bytes, change_numbers, check, draw, draw_limit, draw_size,
                    entries, fill, in_fields, job_of, key_numbers, long_form, other_rows, parents_of, pattern, planned, read_list, rooms, sound,
                    spoil_head, spoil_rows, spoil_starts, test_job, work_length, written)

WRITE_KEY, WRITE_PLAN, CALL = 1, 2, 3

# The sizes of the program, which the solver's call has too.
COLUMNS, PATTERN_ROWS, FACTOR_ROWS = 256, 2048, 4096

# What `trial_calls` has room for.
MOST_BYTES = 4000
MOST_ROWS = 400
MOST_NUMBERS = 4096
LONGEST_LINE = 8192


# ---------------------------------------------------------------- The rules

def order_of(mark, lists):
    """The columns in the order of a mark: each subtree's steps together, its top last, roots ascending."""
    parents = parents_of(lists)
    children = {top: [c for c, p in enumerate(parents, 1) if p == top] for top in range(len(lists) + 1)}
    steps = {}

    def size(c):
        return entries(len(lists[c - 1]))

    def alone(c):
        """W: the peak of the subtree done alone."""
        pops = [len(children[j]) for j in steps[c]]
        return max(rooms(steps[c], pops, lists))

    def rank(c):
        return {0: c, 1: (size(c) - alone(c), c), 2: (-size(c), c)}[mark]

    for j in range(1, len(lists) + 1):
        steps[j] = [k for c in sorted(children[j], key=rank) for k in steps[c]] + [j]
    return [k for root in children[0] for k in steps[root]]


def write_key(job, length):
    """The answer; whether the slice keeps what it held; the bytes that then lie at its start."""
    try:
        test_job(job)
        data = as_bytes(key_numbers(job))
        if len(data) > length:
            raise Late(10, 0, len(data))
    except Refused as refused:
        return refused.args, refused.kept, []
    return (0, 0, len(data)), 0, data


def write_plan(job, length, rows):
    """The same of a plan; the other slices are long enough."""
    try:
        test_job(job)
        lists = fill(job.n, job.columns())
        needed = sum(len(found) for found in lists)
        if needed > rows:
            raise Late(8, 0, needed)
        plan = planned(lists, order_of(job.mark, lists))
        if plan.peak > job.limit:
            raise Late(9, 0, plan.peak)
        data = written(job, plan)
        if len(data) > length:
            raise Late(10, 0, len(data))
    except Refused as refused:
        return refused.args, refused.kept, []
    return (0, 0, len(data)), 0, data


def read_key(key):
    """The job of a readable key, or None."""
    reader = Reader(key, 0)
    try:
        reader.number(1, 1)
        n, mark, limit = reader.number(0, MOST_COLUMNS), reader.number(0, 2), reader.number(0, MOST_LIMIT)
        columns = [read_list(reader, n, j) for j in range(1, n + 1)]
    except Refused:
        return None
    return job_of(columns, mark, limit) if reader.at == len(key) else None


def call(key, plan):
    """Number and place of the solver's call."""
    job = read_key(key)
    if job is None:
        return 27, 0, 0
    if job.n > COLUMNS or len(job.rows) > PATTERN_ROWS:
        return 26, 0, 0
    lent = {"parents": COLUMNS, "order": COLUMNS, "pops": COLUMNS, "fstarts": COLUMNS + 1, "frows": FACTOR_ROWS, "work": work_length(COLUMNS)}
    number, place, _ = check(job, plan, lent)[0]
    return number, place, 0


# ---------------------------------------------------------------- Cases: each answers an entry point and what it is given

def slice_length(dice, needed):
    return dice.pick([needed, needed, needed + 1, needed + dice.below(40), max(needed - 1, 0), dice.below(needed + 1), 0])


def spoilt(dice, job):
    for _ in range(dice.pick([1, 1, 2])):
        dice.pick([spoil_head, spoil_starts, spoil_rows])(dice, job)
    return in_fields(job)


def case_key(dice):
    job, _ = draw(dice)
    length = slice_length(dice, len(as_bytes(key_numbers(job))))
    return WRITE_KEY, spoilt(dice, job) if dice.often(25) else job, length, 0, [], []


def case_wide_key(dice):
    """A job whose size, counts, gaps and limit need two groups and more."""
    n = dice.between(125, 300)
    columns = [sorted({dice.between(j + 1, n) for _ in range(dice.below(3))}) if j < n else [] for j in range(1, n + 1)]
    job = job_of(columns, dice.below(3), dice.pick([2 ** dice.below(41), MOST_LIMIT, 2 ** (7 * dice.between(1, 5)) - dice.below(2)]))
    return WRITE_KEY, job, slice_length(dice, len(as_bytes(key_numbers(job)))), 0, [], []


def case_plan(dice):
    columns = pattern(dice, draw_size(dice))
    lists = fill(len(columns), columns)
    mark = dice.below(3)
    plan = planned(lists, order_of(mark, lists))
    limit = dice.pick([draw_limit(dice, plan.peak), plan.peak, max(plan.peak - 1, 0)] + [MOST_LIMIT] * 3)
    job = job_of(columns, mark, limit)
    rows = plan.rows() + dice.pick([0, 0, 1, 5]) if dice.often(85) else dice.below(plan.rows() + 1)
    length = slice_length(dice, len(written(job, plan)))
    return WRITE_PLAN, spoilt(dice, job) if dice.often(10) else job, length, rows, [], []


def keyed(key, plan):
    return CALL, job_of([]), 0, 0, key, plan


def case_call(dice):
    """A sound key with its plan, which is sound or says something else."""
    job, plan = draw(dice)
    if dice.often(15):
        job.limit = dice.below(plan.peak + 1)
    for way in dice.shuffled(SAYS)[:dice.pick([0, 0, 1, 2])]:
        plan = way(dice, job, plan)
    data = written(job, plan)
    if dice.often(15):
        data = data[:dice.below(len(data) + 1)]
    if dice.often(10):
        data = data + [dice.below(256)]
    return keyed(as_bytes(key_numbers(job)), data)


def case_spoilt_key(dice):
    """A key with a byte or a number changed, cut short, longer than it is, or a number in too many groups; the plan is that of the key as it was, or as it is."""
    job, plan = draw(dice)
    numbers = key_numbers(job)
    key, way = as_bytes(numbers), dice.below(5)
    if way == 0:
        key[dice.below(len(key))] = dice.pick([0, 1, 2, 3, 127, 128, 129, 255, dice.below(256)])
    if way == 1:
        key = as_bytes(change_numbers(dice, job, numbers, 1))
    if way == 2:
        key = key[:dice.below(len(key))]
    if way == 3:
        key = key + [dice.pick([0, 1, 128, dice.below(256)]) for _ in range(dice.between(1, 3))]
    if way == 4:
        at = dice.below(len(numbers))
        key = as_bytes(numbers[:at]) + long_form(dice, numbers[at]) + as_bytes(numbers[at + 1:])
    return keyed(key, key + as_bytes(plan.numbers()) if dice.often(50) else written(job, plan))


def case_other_key(dice):
    """The key of another job."""
    job, plan = draw(dice)
    other = job_of(other_rows(dice, job.columns()), dice.below(3), dice.pick([job.limit, job.limit ^ 1]))
    return keyed(as_bytes(key_numbers(other)), written(job, plan))


def case_large(dice):
    """Columns and pattern rows about the sizes of the call."""
    way = dice.below(3)
    if way == 0:
        most = MOST_COLUMNS if dice.often(20) else COLUMNS
        columns = [[] for _ in range(dice.pick([COLUMNS - 1, COLUMNS, COLUMNS + 1, COLUMNS + 2, 300, most]))]
    elif way == 1:
        rows = dice.pick([PATTERN_ROWS - 1, PATTERN_ROWS, PATTERN_ROWS + 1, 2080])
        columns = [list(range(j + 1, 66)) for j in range(1, 66)]
        columns[0] = columns[0][:64 - (2080 - rows)]
    else:
        n = dice.between(200, COLUMNS + 1)
        columns = [[min(n, j + 1 + dice.below(4))] if j < n else [] for j in range(1, n + 1)]
    job = job_of(columns, dice.below(3))
    key = as_bytes(key_numbers(job))
    plan = key + as_bytes(sound(dice, columns).numbers()) if way == 2 or way == 0 and job.n < 300 else key
    return keyed(key, dice.pick([plan, plan, key, []]))


FAMILIES = ((500, case_key), (40, case_wide_key), (500, case_plan), (500, case_call), (600, case_spoilt_key), (150, case_other_key), (60, case_large))

PAIR = "01 02 00 0A 01 01 00 01 00 02 01 01 01 00 03"


def pieces():
    """The bench pieces that are written, and the pair through the solver's call, each with the answer that its text gives. None keeps what the
    slice held."""
    pair = job_of([[2], []], 0, 10)
    plan = [int(byte, 16) for byte in PAIR.split()]
    yield (WRITE_PLAN, job_of([], 0, 0), 8, 0, [], []), (0, 0, 5), [1, 0, 0, 0, 0]
    yield (WRITE_PLAN, pair, 15, 1, [], []), (0, 0, 15), plan
    yield (WRITE_PLAN, pair, 14, 1, [], []), (10, 0, 15), []
    yield (WRITE_PLAN, job_of([[2], []], 0, 2), 15, 1, [], []), (9, 0, 3), []
    yield (WRITE_KEY, pair, 7, 0, [], []), (0, 0, 7), plan[:7]
    yield (WRITE_KEY, pair, 6, 0, [], []), (10, 0, 7), []
    yield (CALL, job_of([]), 0, 0, plan[:7], plan), (0, 0, 0), []
    yield (CALL, job_of([]), 0, 0, plan[:7], plan[:3] + [11] + plan[4:]), (11, 4, 0), []
    yield (CALL, job_of([]), 0, 0, plan[:6], plan), (27, 0, 0), []


def right(case):
    entry, job, length, rows, key, plan = case
    if entry == WRITE_KEY:
        return write_key(job, length)
    if entry == WRITE_PLAN:
        return write_plan(job, length, rows)
    return call(key, plan), 0, []


# ---------------------------------------------------------------- The file

def line(case):
    """The case as a line, and the number of its answer; None where it is longer than `trial_calls` has room for."""
    entry, job, length, rows, key, plan = case
    answer, kept, data = right(case)
    lists = [job.starts, job.rows, plan, data, key, [], [], [], []]
    head = [job.n, job.mark, job.limit, *answer, kept, *(len(found) for found in lists), length, rows, 0, 0, 0, entry]
    numbers = [x for part in [head] + lists for x in part]
    text = " ".join(str(x) for x in numbers) + "\n"
    small = max(len(key), len(plan), length) <= MOST_BYTES and rows <= MOST_ROWS and len(job.starts) <= 1100 and len(job.rows) <= 500
    if not small or len(numbers) > MOST_NUMBERS or len(text) > LONGEST_LINE:
        return None
    return f"{len(text):05d} {text}", answer[0]


def lines():
    for case, answer, data in pieces():
        assert right(case) == (answer, 0, data), (case, right(case))
        yield line(case)
    for seed, (count, family) in enumerate(FAMILIES, 1):
        dice = Dice(seed)
        while count:
            found = line(family(dice))
            if found:
                count -= 1
                yield found


def main():
    met = {}
    for text, number in lines():
        met[number] = met.get(number, 0) + 1
        sys.stdout.write(text)
    print(sum(met.values()), "cases;", ", ".join(f"{count} of {number}" for number, count in sorted(met.items())), file=sys.stderr)


if __name__ == "__main__":
    main()
