#!/usr/bin/env python3
"""Plans, sound and damaged, each with the answer that a plain reading of the rules gives it.

    python3 tests/damage.py > crates/trial_check/stdin

The program `trial_check` reads them and compares what the proved check answers with every one. The first half of this file is that reading: it
tests the refusals in their order, fills by dense elimination, and shares nothing with the product, neither code nor definitions. The second
half draws jobs and plans from a seed and damages them. A draw depends on the seed alone, so the file is the same everywhere. The script prints
to standard error how many cases each number has.

A line is a case, in decimals with one space between. The first number, of five digits, counts the bytes after its space. Then come
    n mark limit                                          of the job,
    number place count                                    that the check has to answer,
    kept                                                  1 if the lent slices keep what they held, 0 if not,
    starts rows plan                                      how many of each are given,
    parents order pops fstarts frows work                 how long the result is in each lent slice, before the zeros,
    parents order pops fstarts frows work                 how long each lent slice is,
and the lists themselves: starts, rows, plan bytes, and those of the result, in the same order.
"""
import sys

# The bounds of the rules: n, the room limit and the declared peak.
MOST_COLUMNS = 4096
MOST_LIMIT = MOST_PEAK = 2 ** 40

LENT = ("parents", "order", "pops", "fstarts", "frows", "work")

# The most numbers that `trial_check` keeps of each list, and the longest line that it reads.
MOST = {"starts": 1152, "rows": 512, "plan": 2048, "parents": 512, "order": 512, "pops": 512, "fstarts": 1152, "frows": 512, "work": 1152}
LONGEST_LINE = 8192


# ---------------------------------------------------------------- The rules

class Refused(Exception):
    """Number, place and count of a refusal; each kind says whether the lent slices keep what they held."""

    def __init__(self, number, place=0, count=0):
        super().__init__(number, place, count)


class Early(Refused):
    """Found before the lent slices are touched: they keep what they held."""
    kept = 1


class Late(Refused):
    """Found later: the lent slices are zero."""
    kept = 0


class Job:
    def __init__(self, n, starts, rows, mark, limit):
        self.n, self.starts, self.rows, self.mark, self.limit = n, starts, rows, mark, limit

    def column(self, j):
        """The pattern rows of column j."""
        return self.rows[self.starts[j - 1]:self.starts[j]]

    def columns(self):
        return [self.column(j) for j in range(1, self.n + 1)]


def test_job(job):
    """1 to 6."""
    if job.n > MOST_COLUMNS:
        raise Early(1)
    if job.mark not in (0, 1, 2):
        raise Early(2)
    if job.limit > MOST_LIMIT:
        raise Early(3)
    if len(job.starts) != job.n + 1 or job.starts[0] != 0:
        raise Early(4, 0)
    for j in range(1, job.n + 1):
        if job.starts[j] < job.starts[j - 1]:
            raise Early(4, j)
    if job.starts[job.n] != len(job.rows):
        raise Early(4, job.n)
    for j in range(1, job.n + 1):
        before = None
        for row in job.column(j):
            if row <= j or row > job.n:
                raise Early(5, j)
            if before is not None and row <= before:
                raise Early(6, j)
            before = row


def work_length(n):
    """The fixed length of work."""
    return 8 * n + 8


def test_lent(n, lent):
    """7."""
    fixed = {"parents": n, "order": n, "pops": n, "fstarts": n + 1, "work": work_length(n)}
    if any(lent[name] < length for name, length in fixed.items()):
        raise Early(7)


def fill(n, columns):
    """R(1) to R(n): the columns are eliminated one after the other, and each couples all its rows with each other."""
    filled = [[False] * (n + 1) for _ in range(n + 1)]
    for j, rows in enumerate(columns, 1):
        for i in rows:
            filled[i][j] = True
    for k in range(1, n + 1):
        for j in range(k + 1, n + 1):
            for i in range(j + 1, n + 1):
                if filled[i][k] and filled[j][k]:
                    filled[i][j] = True
    return [[i for i in range(j + 1, n + 1) if filled[i][j]] for j in range(1, n + 1)]


def parents_of(lists):
    return [rows[0] if rows else 0 for rows in lists]


def entries(r):
    """t(r)"""
    return r * (r + 1) // 2


def rooms(order, pops, lists):
    """The room in use at each step; the stack lists the entries of each update."""
    stack, used = [], []
    for column, taken in zip(order, pops):
        r = len(lists[column - 1])
        used.append(sum(stack) - (stack[-1] if taken else 0) + entries(r + 1))
        del stack[len(stack) - taken:]
        if r:
            stack.append(entries(r))
    return used


def groups(x):
    out = []
    while x >= 128:
        out.append(x % 128 + 128)
        x //= 128
    return out + [x]


def gaps(j, rows):
    return [b - a for a, b in zip([j] + rows, rows)]


def list_numbers(columns):
    """Per column the count and the gaps."""
    return [x for j, rows in enumerate(columns, 1) for x in [len(rows)] + gaps(j, rows)]


def key_numbers(job):
    return [1, job.n, job.mark, job.limit] + list_numbers(job.columns())


def as_bytes(numbers):
    return [b for x in numbers for b in groups(x)]


class Reader:
    """Reads the numbers of a plan one after the other; `at` bytes are read."""

    def __init__(self, plan, at):
        self.plan, self.at = plan, at

    def number(self, least, most):
        """12, 13 and 14."""
        place = self.at + 1
        value = 0
        for group in range(7):
            if self.at == len(self.plan):
                raise Late(12, place)
            if group == 6:
                raise Late(13, place)
            byte = self.plan[self.at]
            self.at += 1
            value += byte % 128 * 128 ** group
            if byte < 128:
                break
        if group > 0 and byte == 0:
            raise Late(13, place)
        if not least <= value <= most:
            raise Late(14, place)
        return value


def test_key(key, plan):
    """11."""
    for place, byte in enumerate(key, 1):
        if place > len(plan):
            raise Late(11, len(plan) + 1)
        if plan[place - 1] != byte:
            raise Late(11, place)


def read_list(reader, n, j):
    row, rows = j, []
    for _ in range(reader.number(0, n - j)):
        row += reader.number(1, n - row)
        rows.append(row)
    return rows


def read_plan(n, key, plan):
    """11 to 15."""
    test_key(key, plan)
    reader = Reader(plan, len(key))
    order, pops = [], []
    for _ in range(n):
        order.append(reader.number(1, n))
        pops.append(reader.number(0, n - 1))
    lists = [read_list(reader, n, j) for j in range(1, n + 1)]
    peak = reader.number(0, MOST_PEAK)
    if reader.at < len(plan):
        raise Late(15, reader.at + 1)
    return order, pops, lists, peak


def subtree(parents, top):
    """The columns from which the parents lead to the top."""
    found = set()
    for column in range(1, len(parents) + 1):
        c = column
        while c not in (0, top):
            c = parents[c - 1]
        if c == top:
            found.add(column)
    return found


def test_order(order, parents):
    """18: the steps up to that of a top, as many as its subtree has columns, are those of its subtree."""
    for step, top in enumerate(order, 1):
        columns = subtree(parents, top)
        first = step - len(columns)
        if first < 0 or set(order[first:step]) != columns:
            raise Late(18, step)


def check(job, plan, lent):
    """Number, place and count of the check; whether the slices keep what they held; the result if it is done."""
    try:
        test_job(job)
        n = job.n
        test_lent(n, lent)
        order, pops, lists, declared = read_plan(n, as_bytes(key_numbers(job)), plan)
        needed = sum(len(rows) for rows in lists)
        if needed > lent["frows"]:
            raise Late(8, 0, needed)
        for step, column in enumerate(order, 1):
            if column in order[:step - 1]:
                raise Late(16, step)
        true_lists = fill(n, job.columns())
        for j in range(1, n + 1):
            if lists[j - 1] != true_lists[j - 1]:
                raise Late(17, j)
        parents = parents_of(true_lists)
        test_order(order, parents)
        for step, column in enumerate(order, 1):
            if pops[step - 1] != parents.count(column):
                raise Late(19, step)
        peak = max(rooms(order, pops, lists), default=0)
        if declared != peak:
            raise Late(20, 0, peak)
        if peak > job.limit:
            raise Late(9, 0, peak)
    except Refused as refused:
        return refused.args, refused.kept, None
    fstarts = [sum(len(rows) for rows in lists[:j]) for j in range(n + 1)]
    return (0, 0, peak), 0, (parents, order, pops, fstarts, sum(lists, []))


# ---------------------------------------------------------------- Draws

class Dice:
    """A linear congruential generator; its low bits repeat soon, so a draw takes the high ones."""

    def __init__(self, seed):
        self.state = seed

    def below(self, bound):
        self.state = (self.state * 6364136223846793005 + 1442695040888963407) % 2 ** 64
        return (self.state >> 33) % bound

    def between(self, least, most):
        return least + self.below(most - least + 1)

    def pick(self, things):
        return things[self.below(len(things))]

    def often(self, percent):
        return self.below(100) < percent

    def shuffled(self, things):
        left, out = list(things), []
        while left:
            out.append(left.pop(self.below(len(left))))
        return out


def job_of(columns, mark=0, limit=MOST_LIMIT):
    starts = [sum(len(rows) for rows in columns[:j]) for j in range(len(columns) + 1)]
    return Job(len(columns), starts, sum(columns, []), mark, limit)


NINE = [[2, 8, 9], [], [4, 7], [8, 9], [6, 8], [7], [9], [], []]


def pattern(dice, n):
    """Dense, chain, star, arrow, forest of small blocks, tree, tree with more rows, or rows by chance."""
    shape = dice.below(12)
    odds = dice.pick([10, 20, 35, 60])
    block = dice.between(2, 4)
    columns = []
    for j in range(1, n + 1):
        below = range(j + 1, n + 1)
        tree = [dice.pick(below)] if below else []
        some = [i for i in below if dice.often(odds)]
        chosen = {
            0: list(below) if dice.often(90) else some,
            1: [i for i in below if i == j + 1],
            2: [i for i in below if i == n],
            3: [i for i in below if i == n or j == 1],
            4: [i for i in below if (i - 1) // block == (j - 1) // block],
            5: tree,
            6: tree if dice.often(80) else [],
            7: sorted(set(tree + some)) if dice.often(50) else tree,
            8: tree[:1] if j % 3 else some,
        }
        columns.append(chosen.get(shape, some))
    return NINE if n == 9 and dice.often(20) else columns


def draw_size(dice):
    return dice.pick([0, 1, 2, 3, 3, 4, 4, 5, 5, 5, 6, 6, 6, 7, 7, 8, 8, 9, 9, 10, 12])


class Plan:
    """What a plan says after its key."""

    def __init__(self, order, pops, lists, peak):
        self.order, self.pops, self.lists, self.peak = order, pops, lists, peak

    def copy(self):
        return Plan(self.order[:], self.pops[:], [rows[:] for rows in self.lists], self.peak)

    def numbers(self):
        steps = [x for step in zip(self.order, self.pops) for x in step]
        return steps + list_numbers(self.lists) + [self.peak]

    def rows(self):
        return sum(len(rows) for rows in self.lists)


def any_order(dice, parents):
    """An order in which each subtree is consecutive with its top last; siblings and roots are in random order."""
    def of_siblings(top):
        found = []
        for child in dice.shuffled([c for c, p in enumerate(parents, 1) if p == top]):
            found += of_siblings(child) + [child]
        return found
    return of_siblings(0)


def planned(lists, order):
    """The plan of some lists in some order."""
    pops = [parents_of(lists).count(column) for column in order]
    return Plan(order, pops, lists, max(rooms(order, pops, lists), default=0))


def sound(dice, columns):
    lists = fill(len(columns), columns)
    return planned(lists, any_order(dice, parents_of(lists)))


def draw_limit(dice, peak):
    return dice.pick([peak, peak, peak + 1, peak + dice.below(300), peak + 2 ** dice.below(40), MOST_LIMIT])


def draw(dice, n=None):
    """A job and a sound plan within its limit."""
    columns = pattern(dice, draw_size(dice) if n is None else n)
    plan = sound(dice, columns)
    return job_of(columns, dice.below(3), draw_limit(dice, plan.peak)), plan


def written(job, plan):
    return as_bytes(key_numbers(job) + plan.numbers())


def enough(dice, n, rows):
    """Lengths of lent slices that are long enough, some of them longer than needed."""
    fixed = (n, n, n, n + 1, rows, work_length(n))
    return {name: length + (dice.between(1, 5) if dice.often(30) else 0) for name, length in zip(LENT, fixed)}


def lent_for(dice, job, plan):
    return enough(dice, job.n, plan.rows())


# ---------------------------------------------------------------- Damage to what a plan says

def other_value(dice, value, n):
    """Near the value, anywhere in the fields, at their ends or beyond."""
    near = [value + 1, max(value - 1, 0), value + 2, 0, 1]
    ends = [n, n + 1, max(n - 1, 0), 127, 128, 16384, MOST_PEAK, MOST_PEAK + 1, 2 ** 42 - 1]
    others = near + near + [dice.below(n + 2) for _ in near] + [dice.pick(ends) for _ in near[2:]]
    return dice.pick([x for x in others if x != value])


def change_numbers(dice, job, numbers, times):
    for _ in range(times):
        at = dice.below(len(numbers))
        numbers[at] = other_value(dice, numbers[at], job.n)
    return numbers


def move_steps(plan, order):
    """The steps in another order, each with its pops."""
    taken = dict(zip(plan.order, plan.pops))
    return Plan(order, [taken.get(column, 0) for column in order], plan.lists, plan.peak)


def broken_order(dice, order, parents):
    """Two neighbours or any two steps exchanged, one step or several moved, tops first, the given numbering, or no order at all."""
    n = len(order)
    a, b = dice.below(n), dice.below(n)
    way = dice.below(7)
    if way == 0:
        a, b = min(a, n - 2), min(a, n - 2) + 1
    if way in (0, 1):
        order = order[:]
        order[a], order[b] = order[b], order[a]
        return order
    if way == 2:
        rest = order[:a] + order[a + 1:]
        return rest[:b] + [order[a]] + rest[b:]
    if way == 3:
        a, b = min(a, b), max(a, b)
        rest, at = order[:a] + order[b + 1:], dice.below(n)
        return rest[:at] + order[a:b + 1] + rest[at:]
    if way == 4:
        return any_order(dice, parents)[::-1]
    return sorted(order) if way == 5 else dice.shuffled(order)


def damage_kept_order(dice, job, plan):
    """Siblings and roots in another order; the peak sometimes stays that of the first one."""
    moved = planned(plan.lists, any_order(dice, parents_of(plan.lists)))
    if dice.often(50):
        moved.peak = plan.peak
    return moved


def damage_order(dice, job, plan):
    if job.n < 2:
        return damage_peak(dice, job, plan)
    return move_steps(plan, broken_order(dice, plan.order, parents_of(plan.lists)))


def damage_repeat(dice, job, plan):
    """A column is done at several steps."""
    if job.n < 2:
        return damage_pops(dice, job, plan)
    for _ in range(dice.pick([1, 1, 1, 2, 3])):
        a, b = dice.below(job.n), dice.below(job.n)
        plan.order[a] = plan.order[b]
        if dice.often(50):
            plan.pops[a] = plan.pops[b]
    return plan


def more_rows(dice, j, n, rows):
    return sorted(set(rows + [dice.between(j + 1, n) for _ in range(dice.pick([1, 1, 2]))]))


def fewer_rows(dice, rows):
    at = dice.below(len(rows))
    return rows[:at] + rows[at + 1:]


def damage_lists(dice, job, plan):
    """Supersets, subsets, a row exchanged, the pattern in place of its fill, the fill of a greater or smaller pattern, all rows, lists
    exchanged. The steps sometimes follow the damaged lists."""
    n, lists = job.n, plan.lists
    if n < 2:
        return damage_peak(dice, job, plan)
    way = dice.below(9)
    for _ in range(dice.pick([1, 1, 1, 2, 4]) if way < 6 else 1):
        j = dice.between(1, n - 1)
        rows = lists[j - 1]
        if way in (0, 1, 2):
            lists[j - 1] = more_rows(dice, j, n, rows)
        if way in (2, 3, 4) and rows:
            lists[j - 1] = fewer_rows(dice, lists[j - 1])
        if way == 5:
            k = dice.between(1, n - 1)
            lists[j - 1] = [row for row in lists[k - 1] if row > j]
    if way == 6:
        lists = job.columns()
    if way == 7:
        lists = fill(n, lists[:j - 1] + [more_rows(dice, j, n, rows)] + lists[j:])
    if way == 8:
        lists = [list(range(j + 1, n + 1)) for j in range(1, n + 1)]
    if dice.often(50):
        return planned(lists, any_order(dice, parents_of(lists)))
    return Plan(plan.order, plan.pops, lists, plan.peak)


def damage_pops(dice, job, plan):
    """One more, one less, exchanged, all at a root, any."""
    if job.n < 2:
        return damage_peak(dice, job, plan)
    for _ in range(dice.pick([1, 1, 2])):
        a, b = dice.below(job.n), dice.below(job.n)
        way = dice.below(4)
        if way == 0:
            plan.pops[a] = min(plan.pops[a] + 1, job.n - 1)
        if way in (0, 1):
            plan.pops[b] = max(plan.pops[b] - 1, 0)
        if way == 2:
            plan.pops[a], plan.pops[b] = plan.pops[b], plan.pops[a]
        if way == 3:
            plan.pops[a] = dice.below(job.n)
    return plan


def wrong_rooms(plan):
    """Rooms by rules that are not the rule: the front beside the last child's update, all children off first, the front without its top,
    and only what is held after a step."""
    greatest, stack = [0, 0, 0, 0], []
    for column, taken in zip(plan.order, plan.pops):
        r = len(plan.lists[column - 1])
        top = stack[-1] if taken and stack else 0
        before = sum(stack)
        del stack[max(len(stack) - taken, 0):]
        after = sum(stack)
        used = (before + entries(r + 1), after + entries(r + 1), before - top + entries(r), after + entries(r))
        greatest = [max(pair) for pair in zip(greatest, used)]
        if r:
            stack.append(entries(r))
    return greatest


def damage_peak(dice, job, plan):
    plan.peak = dice.pick(wrong_rooms(plan) + [plan.peak + 1, max(plan.peak - 1, 0), 0, job.limit, MOST_PEAK, dice.below(200)])
    return plan


SAYS = (damage_kept_order, damage_order, damage_repeat, damage_lists, damage_pops, damage_peak)


# ---------------------------------------------------------------- Cases: each answers a job, plan bytes and lengths of slices

def case_said(way):
    """A plan that is damaged in one way; a try that changes nothing is repeated a few times."""
    def case(dice):
        job, plan = draw(dice)
        for _ in range(8):
            said = way(dice, job, plan.copy())
            if said.numbers() != plan.numbers():
                break
        return job, written(job, said), lent_for(dice, job, said)
    return case


def case_sound(dice):
    job, plan = draw(dice)
    return job, written(job, plan), lent_for(dice, job, plan)


def case_number(dice):
    """One number after the key is replaced by another."""
    job, plan = draw(dice)
    numbers = change_numbers(dice, job, plan.numbers(), 1)
    return job, as_bytes(key_numbers(job) + numbers), lent_for(dice, job, plan)


def case_numbers(dice):
    """Several numbers, the key's included, are replaced, left out, put in or exchanged."""
    job, plan = draw(dice)
    key, numbers = key_numbers(job), plan.numbers()
    for _ in range(dice.between(1, 3)):
        at, to = dice.below(len(numbers)), dice.below(len(numbers))
        way = dice.below(8)
        if way == 0 and len(numbers) > 1:
            del numbers[at]
        elif way == 1:
            numbers.insert(at, other_value(dice, numbers[at], job.n))
        elif way == 2:
            numbers[at], numbers[to] = numbers[to], numbers[at]
        elif way == 3 and dice.often(30):
            key = change_numbers(dice, job, key, 1)
        else:
            numbers = change_numbers(dice, job, numbers, 1)
    return job, as_bytes(key + numbers), lent_for(dice, job, plan)


def case_cut(dice):
    """The bytes end early, more often behind the key than in it; sometimes a number before the end is damaged too."""
    job, plan = draw(dice)
    key, numbers = as_bytes(key_numbers(job)), plan.numbers()
    if dice.often(20):
        numbers = change_numbers(dice, job, numbers, 1)
    data = key + as_bytes(numbers)
    end = dice.below(len(key)) if dice.often(15) else dice.between(len(key), len(data) - 1)
    return job, data[:end], lent_for(dice, job, plan)


def case_more(dice):
    """Bytes after the peak."""
    job, plan = draw(dice)
    more = [dice.pick([0, 1, 127, 128, 255, dice.below(256)]) for _ in range(dice.pick([1, 1, 2, 9]))]
    return job, written(job, plan) + more, lent_for(dice, job, plan)


def case_bytes(dice):
    """Some bytes, anywhere, are replaced by others."""
    job, plan = draw(dice)
    data = written(job, plan)
    first = dice.pick([0, len(as_bytes(key_numbers(job)))])
    for _ in range(dice.pick([1, 1, 2, 3])):
        at = dice.between(first, len(data) - 1)
        data[at] = dice.pick([data[at] ^ 128, data[at] ^ 1, dice.below(256), dice.below(job.n + 2)])
    return job, data, lent_for(dice, job, plan)


def long_form(dice, x):
    """A number in more groups than it needs, in seven or more, or with groups that do not end."""
    short = groups(x)
    more = dice.pick([0, 0, 1, 2, 3, 4, 5, 6, 9])
    way = dice.below(4)
    if way == 0:
        return short[:-1] + [short[-1] + 128] + [128] * more + [0]
    if way == 1:
        return [128 + dice.below(128) for _ in range(more + 1)] + [dice.below(128)]
    if way == 2:
        return [128 + dice.below(128) for _ in range(6)] + [dice.pick([0, 1, 127, 128])]
    return [128 + dice.below(128) for _ in range(5)] + [dice.pick([0, 1, 32, 33, 64, 127])]


def case_long(dice):
    """A number after the key, or rarely in it, is longer than it must be; sometimes the bytes end within some bytes of its start."""
    job, plan = draw(dice)
    numbers = key_numbers(job) + plan.numbers()
    first = 0 if dice.often(8) else len(key_numbers(job))
    at = dice.pick([dice.between(first, len(numbers) - 1), len(numbers) - 1])
    before, after = as_bytes(numbers[:at]), as_bytes(numbers[at + 1:])
    data = before + long_form(dice, numbers[at]) + after
    if dice.often(35):
        data = data[:len(before) + dice.between(1, 8)]
    return job, data, lent_for(dice, job, plan)


def case_short(dice):
    """Slices below their length, of a plan that is sound or not: the fixed ones, the factor rows, or both."""
    job, plan = draw(dice)
    said = dice.pick(SAYS)(dice, job, plan.copy()) if dice.often(40) else plan
    data = written(job, said)
    if dice.often(10):
        data = data[:dice.below(len(data))]
    lent = enough(dice, job.n, said.rows())
    for name in dice.pick([[dice.pick(LENT)], ["frows"], ["frows"], ["frows"], [dice.pick(LENT), dice.pick(LENT)]]):
        lent[name] = dice.pick([max(lent[name] - dice.between(1, 2), 0), dice.below(lent[name] + 1), 0])
    return job, data, lent


def case_true_rows(dice):
    """Damaged lists with slices for the true ones."""
    job, plan = draw(dice)
    said = damage_lists(dice, job, plan.copy())
    return job, written(job, said), enough(dice, job.n, plan.rows())


def case_limit(dice):
    """The plan of a job whose limit is near the peak, on either side."""
    job, plan = draw(dice)
    job.limit = dice.pick([max(plan.peak - 1, 0), plan.peak, plan.peak + 1, 0, dice.below(plan.peak + 1)])
    if dice.often(30):
        plan = dice.pick(SAYS)(dice, job, plan)
    return job, written(job, plan), lent_for(dice, job, plan)


def other_rows(dice, columns):
    """A pattern with one row more or fewer."""
    n, columns = len(columns), [rows[:] for rows in columns]
    if n > 1:
        j = dice.between(1, n - 1)
        full = columns[j - 1] and dice.often(50)
        columns[j - 1] = fewer_rows(dice, columns[j - 1]) if full else more_rows(dice, j, n, columns[j - 1])
    return columns


def case_other_key(dice):
    """The key of another job: mark, limit, size or rows differ. The rest of the plan is that of either job."""
    job, plan = draw(dice)
    columns, mark, limit = job.columns(), job.mark, job.limit
    way = dice.below(5)
    if way == 0:
        mark = dice.below(3)
    if way == 1:
        limit = dice.pick([limit ^ 1, max(limit - 1, 0), min(limit + 128, MOST_LIMIT), dice.below(300)])
    if way == 2:
        columns = columns + [[]] if dice.often(50) else pattern(dice, job.n)
    if way >= 3:
        columns = other_rows(dice, columns)
    other = job_of(columns, mark, limit)
    keys = [key_numbers(other)] + [key_numbers(job)] * (way >= 2)
    said = plan if dice.often(50) else sound(dice, columns)
    data = as_bytes(dice.pick(keys) + said.numbers())
    if dice.often(10):
        data[0] = dice.pick([0, 2, 129])
    return job, data, lent_for(dice, job, plan)


WIDE = [2 ** 8, 2 ** 16, 2 ** 32 - 1, 2 ** 32, 2 ** 32 + 1, 2 ** 63, 2 ** 64 - 1]


def spoil_head(dice, job):
    way = dice.below(4)
    if way == 0:
        job.n = dice.pick([MOST_COLUMNS + 1, MOST_COLUMNS, job.n + 1, max(job.n - 1, 0)] + WIDE)
    if way == 1:
        job.mark = dice.pick([3, 4, 127, 128] + WIDE)
    if way >= 2:
        job.limit = dice.pick([MOST_LIMIT + 1, MOST_LIMIT, 2 ** 41, 2 ** 42] + WIDE)


def spoil_starts(dice, job):
    starts = job.starts
    if not starts:
        return
    at, way = dice.below(len(starts)), dice.below(6)
    if way == 0 and dice.often(60):
        del starts[at]
    elif way == 0:
        starts.insert(at, dice.below(5))
    elif way == 1:
        starts[0] = dice.pick([1, 2 ** 64 - 1, len(job.rows)])
    elif way == 2:
        starts[-1] = dice.pick([starts[-1] + 1, max(starts[-1] - 1, 0), 2 ** 64 - 1])
    elif way == 3:
        job.rows.append(job.n)
    else:
        starts[at] = dice.pick([dice.below(len(job.rows) + 3), starts[at] + 1, max(starts[at] - 1, 0)] + WIDE)


def spoil_rows(dice, job):
    """A row is exchanged with its neighbour, repeats another, or is moved."""
    if job.rows:
        at = dice.below(len(job.rows))
        if dice.often(35):
            job.rows[at - 1], job.rows[at] = job.rows[at], job.rows[at - 1]
            return
        to = dice.pick([max(at - 1, 0), max(at - 1, 0), dice.below(len(job.rows))])
        near = dice.pick([dice.below(job.n % 5000 + 2), job.rows[to], job.rows[at] + 1, max(job.rows[at] - 1, 0)])
        job.rows[at] = dice.pick([near, near, near, 0, MOST_COLUMNS, 2 ** 32 - 1])


def in_fields(job):
    """The job with every number cut to the field that it is handed over in: 32 bits for a row, 64 for the others."""
    starts = [min(start, 2 ** 64 - 1) for start in job.starts]
    rows = [min(row, 2 ** 32 - 1) for row in job.rows]
    return Job(min(job.n, 2 ** 64 - 1), starts, rows, job.mark, job.limit)


def case_bad_job(dice):
    """A job with a fault or two, the plan of the job as it was, and sometimes slices below their length."""
    job, plan = draw(dice)
    data, lent = written(job, plan), lent_for(dice, job, plan)
    if dice.often(20):
        lent[dice.pick(LENT)] = dice.below(3)
    for _ in range(dice.pick([1, 1, 2, 3])):
        dice.pick([spoil_head, spoil_starts, spoil_rows, spoil_rows])(dice, job)
    return in_fields(job), data, lent


def case_mixed(dice):
    """Several faults at once: the case asks which is answered."""
    job, plan = draw(dice)
    true_rows = plan.rows()
    if dice.often(40):
        job.limit = dice.below(plan.peak + 2)
    for _ in range(dice.between(2, 4)):
        plan = dice.pick(SAYS)(dice, job, plan)
    numbers = plan.numbers()
    if dice.often(10):
        numbers = change_numbers(dice, job, numbers, 1)
    data = as_bytes(key_numbers(job) + numbers)
    if dice.often(10):
        data.append(dice.below(256))
    lent = enough(dice, job.n, dice.pick([plan.rows(), plan.rows(), true_rows]))
    if dice.often(15):
        lent["frows"] = dice.below(plan.rows() + 1)
    return job, data, lent


def case_large(dice):
    """More columns than one group holds: a tree with few rows more, so that columns, counts, gaps and peak need two groups."""
    n = dice.between(126, 136)
    columns = [[min(n, j + 1 + dice.pick([0, 0, 1, dice.below(20), dice.below(n)]))] if j < n else [] for j in range(1, n + 1)]
    job = job_of(columns, dice.below(3))
    plan = sound(dice, columns)
    job.limit = draw_limit(dice, plan.peak)
    for way in dice.shuffled(SAYS)[:dice.pick([0, 1, 1, 1])]:
        plan = way(dice, job, plan)
    numbers = plan.numbers()
    if dice.often(25):
        numbers = change_numbers(dice, job, numbers, 1)
    return job, as_bytes(key_numbers(job) + numbers), enough(dice, n, plan.rows())


def fits(case):
    """A line stays shorter than the longest that `trial_check` reads."""
    job, data, lent = case
    return len(data) <= 1500 and lent["frows"] <= 400


FAMILIES = (
    (400, case_sound),
    (900, case_number),
    (450, case_numbers),
    (300, case_cut),
    (150, case_more),
    (350, case_bytes),
    (450, case_long),
    (200, case_said(damage_kept_order)),
    (550, case_said(damage_order)),
    (200, case_said(damage_repeat)),
    (600, case_said(damage_lists)),
    (200, case_true_rows),
    (250, case_said(damage_pops)),
    (200, case_said(damage_peak)),
    (350, case_short),
    (300, case_limit),
    (250, case_other_key),
    (600, case_bad_job),
    (500, case_mixed),
    (24, case_large),
)


# ---------------------------------------------------------------- Cases that are not drawn

PAIR = "01 02 00 0A 01 01 00 01 00 02 01 01 01 00 03"


def from_hex(text):
    return [int(byte, 16) for byte in text.split()]


def pieces(dice):
    """The bench pieces that a check can show, each with the answer that its text gives. None keeps what the slices held."""
    def pair(limit):
        return job_of([[2], []], 0, limit)

    texts = [
        (job_of([], 0, 0), "01 00 00 00 00", (0, 0, 0)),
        (pair(10), PAIR, (0, 0, 3)),
        (pair(11), PAIR, (11, 4, 0)),
        (pair(10), "01 02 00 0A 01 01 00 01 00 01 01 01 01 00 03", (16, 2, 0)),
        (pair(10), "01 02 00 0A 01 01 00 02 01 01 00 01 01 00 03", (18, 1, 0)),
        (pair(10), "01 02 00 0A 01 01 00 01 00 02 00 01 01 00 03", (19, 2, 0)),
        (pair(10), "01 02 00 0A 01 01 00 01 00 02 01 01 01 00 04", (20, 0, 3)),
        (pair(10), PAIR + " 00", (15, 16, 0)),
        (pair(2), "01 02 00 02 01 01 00 01 00 02 01 01 01 00 03", (9, 0, 3)),
        (pair(3), "01 02 00 03 01 01 00 01 00 02 01 01 01 00 03", (0, 0, 3)),
    ]
    for job, text, right in texts:
        yield job, from_hex(text), enough(dice, job.n, 8), right

    shown = [
        ([[], [], []], 0, [1, 2, 3], 1),
        ([[2, 3], [3], []], 0, [1, 2, 3], 6),
        ([[3, 4], [3], [], []], 0, [1, 2, 3, 4], 6),
        ([[3], [4], [4], []], 0, [2, 1, 3, 4], 4),
        ([[4], [4], [4], []], 0, [1, 2, 3, 4], 5),
        (NINE, 0, [1, 2, 3, 4, 5, 6, 7, 8, 9], 15),
        (NINE, 1, [3, 4, 5, 6, 7, 1, 2, 8, 9], 13),
    ]
    for columns, mark, order, peak in shown:
        plan = planned(fill(len(columns), columns), order)
        plan.peak = peak
        job = job_of(columns, mark, 20)
        yield job, written(job, plan), lent_for(dice, job, plan), (0, 0, peak)

    # The listing of the nine, its lists and pops as printed.
    lists = [[2, 8, 9], [8, 9], [4, 7], [7, 8, 9], [6, 8], [7, 8], [8, 9], [9], []]
    job = job_of(NINE, 0, 20)
    plan = Plan([1, 2, 3, 4, 5, 6, 7, 8, 9], [0, 1, 0, 1, 0, 1, 2, 2, 1], lists, 15)
    yield job, written(job, plan), lent_for(dice, job, plan), (0, 0, 15)


def permutations(things):
    if not things:
        return [[]]
    return [[x] + rest for x in things for rest in permutations([y for y in things if y != x])]


def swept(dice):
    """All orders of four columns of some trees; every byte of small plans with values around the ends; small plans cut everywhere."""
    for columns in ([[3], [4], [4], []], [[2], [4], [4], []], [[4], [4], [4], []], [[2], [], [4], []], [[2], [3], [4], []]):
        lists = fill(4, columns)
        taken = [parents_of(lists).count(j) for j in range(1, 5)]
        for order in permutations([1, 2, 3, 4]):
            job = job_of(columns, 0, 20)
            plan = Plan(order, [taken[j - 1] for j in order], lists, dice.pick([3, 4, 5]))
            yield job, written(job, plan), lent_for(dice, job, plan)
    for columns, limit in (([[2], []], 10), ([[2, 3], [], []], 300)):
        plan = sound(dice, columns)
        job = job_of(columns, 0, limit)
        data = written(job, plan)
        for at in range(len(data)):
            for byte in (0, 1, 2, 3, 4, 127, 128, 129, 255):
                yield job, data[:at] + [byte] + data[at + 1:], lent_for(dice, job, plan)
            yield job, data[:at], lent_for(dice, job, plan)


# ---------------------------------------------------------------- The file

def line(job, data, lent):
    """The case as a line, and the number of its answer."""
    answer, kept, result = check(job, data, lent)
    lists = [job.starts, job.rows, data, *(result or ([],) * 5), []]
    lengths = [lent[name] for name in LENT]
    assert all(length <= MOST[name] for name, length in zip(("starts", "rows", "plan") + LENT, [len(x) for x in lists[:3]] + lengths))
    assert max(job.rows, default=0) < 2 ** 32 and max(job.starts + [job.n, job.mark, job.limit]) < 2 ** 64
    head = [job.n, job.mark, job.limit, *answer, kept, *(len(x) for x in lists), *lengths]
    text = " ".join(str(x) for part in [head] + lists for x in part) + "\n"
    assert len(text) <= LONGEST_LINE
    return f"{len(text):05d} {text}", answer[0]


def cases():
    dice = Dice(1)
    for job, data, lent, right in pieces(dice):
        assert check(job, data, lent)[:2] == (right, 0), (data, right, check(job, data, lent))
        yield job, data, lent
    yield from swept(dice)
    for seed, (count, family) in enumerate(FAMILIES, 2):
        dice = Dice(seed)
        for _ in range(count):
            case = family(dice)
            while not fits(case):
                case = family(dice)
            yield case


def main():
    met = {}
    for case in cases():
        text, number = line(*case)
        met[number] = met.get(number, 0) + 1
        sys.stdout.write(text)
    print(sum(met.values()), "cases;", ", ".join(f"{count} of {number}" for number, count in sorted(met.items())), file=sys.stderr)


if __name__ == "__main__":
    main()
