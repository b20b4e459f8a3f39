#!/usr/bin/env python3
"""Job texts, each with what the listing program must print for it by a plain reading of the rules.

    python3 tests/texts.py > crates/trial_text/stdin

The program `trial_text` reads them and compares what the proved listing prints with every one. The first half of this file is that reading: it
takes a text apart line by line and word by word, fills by dense elimination, sorts siblings by the mark's key and sums up room on a stack. It
shares neither code nor definitions with the product. It is not independent of tests/damage.py: its author knew that file, and takes the draws
from it. The second half makes the texts: each refusal that a text can meet, each size met exactly and exceeded by one, trees of many forms,
real patterns, and texts drawn from a seed, whole and damaged. A draw depends on the seed alone, so the file is the same everywhere. The script
prints to standard error how many cases each number has.

A case is a head of 14 bytes, `ttttt m lllll` and a newline, then t bytes of text and l bytes that must be printed. Of a text longer than the
program's buffer, a case contains as much as the buffer holds, with m 1, for more input; else m is 0. A text that is a little longer comes a
second time, whole. The last cases give m 1 with short texts: `listing` answers 26 for these, and the paper's program never asks.
"""
import json
import pathlib
import sys

sys.dont_write_bytecode = True

from damage import Dice, pattern  # the draws; the rules are read anew below

INPUT_BYTES, COLUMNS, PATTERN_ROWS, FACTOR_ROWS = 8192, 256, 2048, 4096
DIGITS = 13
MOST_ROOM = 2 ** 40

# The longest text that the test program can hand over as a whole.
LONGEST_TEXT = 8448


# ---------------------------------------------------------------- The rules

class Refused(Exception):
    """Number, place and count of a refusal."""

    def __init__(self, number, place=0, count=0):
        super().__init__(number, place, count)


def decimal(word, line):
    """A decimal without leading zeros and of at most 13 digits."""
    if word == b"" or len(word) > DIGITS:
        raise Refused(25, line)
    if word[:1] == b"0" and word != b"0":
        raise Refused(25, line)
    value = 0
    for byte in word:
        if not 48 <= byte <= 57:
            raise Refused(25, line)
        value = 10 * value + byte - 48
    return value


def line_numbers(text, line):
    """The numbers of the line that the text begins with, and the text after its newline."""
    end = text.find(b"\n")
    if end < 0:
        raise Refused(25, line)
    return [decimal(word, line) for word in text[:end].split(b" ")], text[end + 1:]


def read_text(text):
    """n, limit, mark and the columns' rows: 25 and 26."""
    if len(text) > INPUT_BYTES:
        raise Refused(26, 0)
    first, text = line_numbers(text, 1)
    if len(first) not in (2, 3):
        raise Refused(25, 1)
    if first[0] > COLUMNS:
        raise Refused(26, 1)
    columns, total = [], 0
    for line in range(2, first[0] + 2):
        numbers, text = line_numbers(text, line)
        if numbers[0] != len(numbers) - 1:
            raise Refused(25, line)
        total += numbers[0]
        if total > PATTERN_ROWS:
            raise Refused(26, line)
        columns.append(numbers[1:])
    if text != b"":
        raise Refused(25, first[0] + 2)
    return first[0], first[1], (first + [0])[2], columns


def test_job(n, limit, mark, columns):
    """2, 3, 5 and 6. A text cannot meet 1, 4 and 7."""
    if mark not in (0, 1, 2):
        raise Refused(2)
    if limit > MOST_ROOM:
        raise Refused(3)
    for j, rows in enumerate(columns, 1):
        for place, row in enumerate(rows):
            if row <= j or row > n:
                raise Refused(5, j)
            if place > 0 and row <= rows[place - 1]:
                raise Refused(6, j)


def fill(n, columns):
    """R(1) to R(n), at index 0 nothing. A column is a number whose bit i says that (i, j) is filled; its elimination couples all its rows."""
    filled = [0] + [sum(1 << i for i in rows) for rows in columns]
    for k in range(1, n + 1):
        for j in range(k + 1, n + 1):
            if filled[k] >> j & 1:
                filled[j] |= filled[k] >> (j + 1) << (j + 1)
    return [[i for i in range(1, n + 1) if bits >> i & 1] for bits in filled]


def t(r):
    return r * (r + 1) // 2


class Tree:
    """The columns by parent, the siblings of each in the order of the mark."""

    def __init__(self, lists, mark):
        self.lists, self.mark = lists, mark
        self.children = [[] for _ in lists]
        for j in range(1, len(lists)):
            self.children[lists[j][0] if lists[j] else 0].append(j)
        for j in range(1, len(lists)):
            self.children[j].sort(key=self.sibling_key)

    def sibling_key(self, c):
        """A sort by this key puts the greatest measure of the mark first, and of equals the lower number. A child's own
        children are sorted before it, since they are lower."""
        update = t(len(self.lists[c]))
        if self.mark == 0:
            return c
        if self.mark == 1:
            return (update - self.alone(c), c)
        return (-update, c)

    def subtree(self, j):
        """The columns of the subtree in their order."""
        return [c for child in self.children[j] for c in self.subtree(child)] + [j]

    def order(self):
        return [c for root in self.children[0] for c in self.subtree(root)]

    def alone(self, j):
        """W(j)"""
        return max(self.rooms(self.subtree(j)))

    def rooms(self, order):
        """The room in use at each step. The stack lists the columns whose updates are held."""
        stack, used = [], []
        for j in order:
            taken = len(self.children[j])
            held = sum(t(len(self.lists[c])) for c in stack)
            over = t(len(self.lists[stack[-1]])) if taken else 0
            used.append(held - over + t(len(self.lists[j]) + 1))
            assert sorted(stack[len(stack) - taken:]) == sorted(self.children[j])
            del stack[len(stack) - taken:]
            if self.lists[j]:
                stack.append(j)
        return used


def lines_of(n, limit, mark, columns):
    """The numbers of each line of the listing: 8 and 9."""
    lists = fill(n, columns)
    needed = sum(len(rows) for rows in lists)
    if needed > FACTOR_ROWS:
        raise Refused(8, 0, needed)
    tree = Tree(lists, mark)
    order = tree.order()
    rooms = tree.rooms(order)
    peak = max(rooms, default=0)
    if peak > limit:
        raise Refused(9, 0, peak)
    return [(n, mark, peak)] + [[j, len(tree.children[j]), room] + lists[j] for j, room in zip(order, rooms)]


def joined(words):
    return " ".join(str(word) for word in words) + "\n"


def listing(text):
    """The number, 0 for done, and what is printed."""
    try:
        n, limit, mark, columns = read_text(text)
        test_job(n, limit, mark, columns)
        header, *steps = lines_of(n, limit, mark, columns)
    except Refused as refused:
        return refused.args[0], joined(("refused",) + refused.args).encode()
    return 0, (joined(("plan",) + header) + "".join(joined(step) for step in steps)).encode()


# ---------------------------------------------------------------- Texts of jobs

def text_of(columns, limit, mark=None):
    """The text of a job; without a mark where none is given."""
    first = [len(columns), limit] + ([] if mark is None else [mark])
    return (joined(first) + "".join(joined([len(rows)] + rows) for rows in columns)).encode()


def peak_of(columns, mark):
    number, printed = listing(text_of(columns, MOST_ROOM, mark))
    assert number == 0
    return int(printed.split()[3])


def about_the_peak(columns):
    """Each mark, and none; as much room as is needed, and one entry less."""
    for mark in (None, 0, 1, 2):
        peak = peak_of(columns, mark or 0)
        yield text_of(columns, peak, mark)
        if peak > 0:
            yield text_of(columns, peak - 1, mark)


def of_parents(parents):
    """One row in each column, or none: a forest without fill."""
    return [[p] if p else [] for p in parents]


def chain(n):
    return of_parents(list(range(2, n + 1)) + [0])


def star(n):
    return of_parents([n] * (n - 1) + [0])


def fan(n):
    """One column with all rows: its elimination couples all of them."""
    return [list(range(2, n + 1))] + [[] for _ in range(n - 1)]


def dense(n):
    return [list(range(j + 1, n + 1)) for j in range(1, n + 1)]


def band(n, width):
    return [list(range(j + 1, min(j + width, n) + 1)) for j in range(1, n + 1)]


def broom(handle, hairs):
    """Hairs, their top, and a chain over it."""
    n = handle + hairs
    return of_parents([hairs + 1] * hairs + list(range(hairs + 2, n + 1)) + [0])


def broom_beside(handle, hairs):
    """A chain and hairs side by side under one top."""
    n = handle + hairs + 1
    return of_parents(list(range(2, handle + 1)) + [n] * (hairs + 1) + [0])


def caterpillar(n):
    """Odd columns are hairs of the even ones, which are a chain."""
    return of_parents([min(j + 1 + (j + 1) % 2, n) if j < n else 0 for j in range(1, n + 1)])


def halves(n):
    """A binary tree numbered from the leaves up, not in the order of its steps."""
    return of_parents([n + 1 - (n + 1 - j) // 2 if j < n else 0 for j in range(1, n + 1)])


def chains(n, count):
    """A forest of chains, each of whose columns has the number `count` above the one before."""
    return of_parents([j + count if j + count <= n else 0 for j in range(1, n + 1)])


def cliques(sizes):
    """Dense blocks, and a last column that all their tops have in common: siblings of many sizes."""
    n, columns = sum(sizes) + 1, []
    for size in sizes:
        first = len(columns)
        columns += [[first + i for i in range(j + 1, size + 1)] + [n] for j in range(1, size + 1)]
    return columns + [[]]


def grid(wide, high):
    """Each point with its neighbours to the right and below."""
    def rows(x, y):
        j = y * wide + x + 1
        return ([j + 1] if x + 1 < wide else []) + ([j + wide] if y + 1 < high else [])
    return [rows(x, y) for y in range(high) for x in range(wide)]


def beside(a, b):
    """The two patterns as one, with nothing between."""
    return a + [[row + len(a) for row in rows] for rows in b]


def shapes():
    """Small trees and forests."""
    for n in (1, 2, 3, 4, 7, 10):
        yield from (chain(n), star(n), fan(n), dense(n), band(n, 2), halves(n), caterpillar(n), [[]] * n)
    yield from (broom(3, 4), broom(1, 6), broom(6, 1), broom_beside(3, 4), broom_beside(1, 5), broom_beside(6, 2))
    yield from (chains(9, 2), chains(10, 3), chains(12, 5), beside(chain(4), star(5)), beside(dense(4), beside([[]], fan(4))))
    for sizes in ((1, 2, 3), (3, 2, 1), (2, 2, 2), (1, 3, 2, 3, 1), (4, 1, 1, 1), (1, 1, 1, 4), (2, 5, 2, 5)):
        yield cliques(sizes)
    yield from (grid(2, 2), grid(3, 3), grid(4, 3), grid(3, 5), grid(5, 5), band(14, 3), band(20, 5), NINE)


NINE = [[2, 8, 9], [], [4, 7], [8, 9], [6, 8], [7], [9], [], []]


def pieces():
    """The paper's worked pieces, and those about which it is easily misread."""
    for mark in (None, 0, 1, 2):
        for limit in (20, 15, 14, 13, 12, 0):
            yield text_of(NINE, limit, mark)
    yield text_of([], 0)
    for limit in (10, 11, 3, 2, 1, 0):
        yield text_of([[2], []], limit)
    for columns in ([[], [], []], dense(3), [[3, 4], [3], [], []], [[3], [4], [4], []], star(4), [[]], [[], []]):
        yield from about_the_peak(columns)


def real():
    """Patterns of real matrices that fit the program's buffers."""
    folder = pathlib.Path(__file__).resolve().parent.parent / "bench" / "real"
    for path in sorted(folder.glob("*.job")):
        first, *lines = [[int(word) for word in line.split()] for line in path.read_text().splitlines()]
        columns = [line[1:] for line in lines]
        try:
            read_text(text_of(columns, MOST_ROOM, 0))
        except Refused:
            continue
        for mark in (None, 1, 2):
            yield text_of(columns, MOST_ROOM, mark)
        if listing(text_of(columns, MOST_ROOM))[0] == 0:
            for mark in (0, 1, 2):
                yield text_of(columns, peak_of(columns, mark) - 1, mark)


# ---------------------------------------------------------------- The sizes

def with_rows(total):
    """So many pattern rows: the dense lists of 65 columns, as far as they go."""
    columns = dense(65)
    for rows in columns:
        del rows[:max(sum(map(len, columns)) - total, 0)]
    return columns


def with_factor_rows(total, base):
    """So many factor rows: the base, and beside it chains of columns to make up the rest."""
    missing = total - sum(map(len, fill(len(base), base)))
    assert missing >= 0
    return beside(base, chain(missing + 1))


def spread(total):
    """So many rows of three digits, 25 in a column as far as they go, in 250 columns."""
    full, rest = divmod(total, 25)
    counts = [25] * full + [rest] + [0] * (249 - full)
    return [list(range(150, 150 + count)) for count in counts]


def padded(length, last=b""):
    """A good text of so many bytes, with something behind it: as many rows as fit, and then more digits in the limit."""
    def text(rows, digits):
        return text_of(spread(rows), 10 ** (digits - 1)) + last
    rows = max(rows for rows in range(1700, 2000) if len(text(rows, 8)) <= length)
    return next(text(rows, digits) for digits in range(8, 14) if len(text(rows, digits)) == length)


def input_sizes():
    """8,192 bytes, and one less and one more."""
    for length in (8191, 8192, 8193):
        yield padded(length)
        yield padded(length, b"\n")
        yield padded(length)[:-1]
        for filling in (b"0", b"1 ", b"\n", b"\0", b"1 5\n" + b"1" * 3):
            yield (filling * length)[:length]
    good = padded(8192)
    yield from (good + b"\n", good + b"x", good + good, good[:-1] + b" ", b"0 0\n" + b"\n" * 8189, b"0 0\n" + b"\0" * 8188)
    yield b"300 1\n" + b"0\n" * 4094
    yield b"1" * 9000


def column_sizes():
    """256 columns, and one more."""
    for n in (255, 256, 257, 300, 4096, 4097, 65536, 2 ** 32, 2 ** 32 + 1, 10 ** 13 - 1, 10 ** 13):
        empty = [[]] * min(n, 258)
        text = text_of(empty, 1)
        rest = text[text.index(b"\n"):]
        yield b"%d 1" % n + rest
        yield b"%d 1 0" % n + rest[:-2]
        yield b"%d 0 7" % n + rest + b"x"
        yield b"%d 1 1 1" % n + rest[:40]
        yield b"%d 99999999999999" % n + rest[:40]
        yield b"%d 1099511627777 1" % n + rest[:40]
    for columns in (chain(256), chain(257), star(256), star(257), halves(256), caterpillar(256), chains(256, 7), broom(100, 156)):
        for mark in (None, 1):
            yield text_of(columns, MOST_ROOM, mark)
    yield text_of(broom_beside(100, 155), 154, 2)


def row_sizes():
    """2,048 pattern rows, and one more; at the last line that has any, in the midst, and twice over."""
    for total in (2047, 2048, 2049):
        text = text_of(with_rows(total), MOST_ROOM)
        yield from (text, text + b"0\n", text[:-1], text.replace(b" 65\n", b" 65 \n", 1), text.replace(b"2 64 65", b"2 64 x"))
        yield b"1 0\n%d" % total + b" 0" * total + b"\n"
        yield b"1 0\n%d" % total + b" 2" * total + b" \n"
        yield b"1 0 7\n%d" % total + b" 2" * total
        yield b"3 0\n1000" + b" 3" * 1000 + b"\n%d" % (total - 1000) + b" 3" * (total - 1000) + b"\n0\n"
        yield b"3 0\n1000" + b" 3" * 1000 + b"\n%d" % (total - 1000) + b" 3" * (total - 1000) + b"\nx\n"
        yield b"3 0\n%d" % (total - 1) + b" 3" * (total - 1) + b"\n1 3\n\n"
        yield b"3 0\n1000" + b" 3" * 1000 + b"\n%d" % (total - 999) + b" 3" * (total - 1000) + b"\n0\n"
    yield text_of(dense(64), MOST_ROOM, 1)
    yield text_of(dense(65), MOST_ROOM, 1)


def factor_sizes():
    """4,096 factor rows, and one more; if they are too many the limit is not tested."""
    for columns in (fan(90), fan(91), fan(92), fan(200), grid(16, 16), grid(17, 15), beside(fan(64), fan(65)), beside(fan(80), fan(80))):
        yield text_of(columns, MOST_ROOM)
    bases = [fan(91), beside(fan(64), fan(64)), beside(fan(65), fan(63))]
    for base, mark in zip(bases, (0, 1, 2)):
        for total in (4095, 4096, 4097):
            columns = with_factor_rows(total, base)
            yield text_of(columns, MOST_ROOM, mark)
            yield text_of(columns, 0, mark)
    for limit in (0, 4186, MOST_ROOM, MOST_ROOM + 1):
        yield text_of(fan(92), limit, 2)


def number_sizes():
    """Digits, limits, marks, counts and rows at their ends, and wider than what they are kept in."""
    wide = [0, 1, 2, 3, 4, 9, 10, 127, 128, 255, 256, 257, 258, 259, 65535, 65536, 65537, 65538]
    wide += [x + k for x in (2 ** 31, 2 ** 32, 2 ** 33, 2 ** 40) for k in (-1, 0, 1, 2, 3)]
    wide += [x for k in (12, 13, 14) for x in (10 ** k - 1, 10 ** k)] + [2 ** 63, 2 ** 64, 2 ** 64 + 2, 10 ** 20, 10 ** 30]
    for x in wide:
        yield b"3 %d\n1 3\n1 3\n0\n" % x
        yield b"3 %d 1\n1 3\n1 3\n0\n" % x
        yield b"3 4 %d\n1 3\n1 3\n0\n" % x
        yield b"3 3 %d\n1 3\n1 3\n0\n" % x
        yield b"3 4\n1 %d\n1 3\n0\n" % x
        yield b"3 4\n2 2 %d\n1 3\n0\n" % x
        yield b"3 4\n%d 3\n1 3\n0\n" % x
        yield b"3 4\n1 3\n1 3\n%d\n" % x
        yield b"%d 4\n1 3\n1 3\n0\n" % x
        yield b"3 %d %d\n1 3\n1 %d\n0\n" % (x, x, x)
        yield b"3 0%d\n1 3\n1 3\n0\n" % x
    for zeros in range(1, 15):
        yield b"3 4\n1 " + b"0" * zeros + b"\n1 3\n0\n"
        yield b"3 4 " + b"0" * zeros + b"\n1 3\n1 3\n0\n"


# ---------------------------------------------------------------- Faults by hand

NINE_TEXT = text_of(NINE, 20)

BAD_TEXTS = [
    # Nothing, and hardly anything.
    b"", b"\n", b" ", b"\0", b"0", b"x", b"0\n", b"0 0", b"0 0\n", b"0 0 0\n", b"0 0 1\n", b"0 0 2\n", b"0 0 3\n", b"0 1099511627776\n",
    b"0 1099511627777\n", b"0 1099511627777 3\n", b"0 0\n\n", b"0 0\n0\n", b"0 0\n ", b"0 0 0 0\n", b"1 0\n", b"1 0\n0\n", b"1 1\n0\n",
    b"1 0\n0", b"1 1\n\n", b"1 1\n0\n\n", b"1 1\n0\n0\n",
    # Between the words.
    b"2  3\n1 2\n0\n", b" 2 3\n1 2\n0\n", b"2 3 \n1 2\n0\n", b"2\t3\n1 2\n0\n", b"2 3\r\n1 2\r\n0\r\n", b"2 3\n1  2\n0\n",
    b"2 3\n 1 2\n0\n", b"2 3\n1 2 \n0\n", b"2 3\n1 2\n0 \n", b"2 3\n1 2\n 0\n", b"2 3\n\n1 2\n0\n", b"2 3\n1 2\n\n0\n", b"\n2 3\n1 2\n0\n",
    b"2 3 0 \n1 2\n0\n", b"2 3  0\n1 2\n0\n", b"2 3 0 0\n1 2\n0\n", b"2\n3\n1 2\n0\n", b"2 3\n1\n2\n0\n", b"2 3\n1 2\x0b\n0\n",
    b"2 3\n1\x0c2\n0\n", b"2 3\n1,2\n0\n", b"2 3\n1\xa02\n0\n", b"\xef\xbb\xbf2 3\n1 2\n0\n", b"2 3\n1 \xd9\xa2\n0\n", b"2 3\n1 \xb2\n0\n",
    # Words that are no decimals.
    b"02 3\n1 2\n0\n", b"2 03\n1 2\n0\n", b"2 3 00\n1 2\n0\n", b"2 3\n01 2\n0\n", b"2 3\n1 02\n0\n", b"2 3\n1 2\n00\n", b"+2 3\n1 2\n0\n",
    b"2 +3\n1 2\n0\n", b"2 -3\n1 2\n0\n", b"2 3 -1\n1 2\n0\n", b"2 3\n1 +2\n0\n", b"2 3\n1 -2\n0\n", b"2 3\n-1 2\n0\n", b"2 3.0\n1 2\n0\n",
    b"2 3e0\n1 2\n0\n", b"2 0x3\n1 2\n0\n", b"2 3\n1 2x\n0\n", b"2 3\n1 a\n0\n", b"2 3\n1 /\n0\n", b"2 3\n1 :\n0\n", b"2 3\n1 2:\n0\n",
    b"2 3\n1 2/\n0\n", b"two 3\n1 2\n0\n", b"2 3\n1 2\n-0\n", b"2 3\n1 2\n\x30\x00\n", b"2 3\0\n1 2\n0\n", b"2 3\n1 2\0\n0\n",
    b"2 3\n1 2\n0\n\0",
    # Counts that are not the number of the rows.
    b"2 3\n0 2\n0\n", b"2 3\n2 2\n0\n", b"2 3\n1\n0\n", b"2 3\n1 2\n1\n", b"2 3\n1 2\n2 2\n", b"2 3\n1 2 2\n0\n", b"2 3\n4294967297 2\n0\n",
    b"2 3\n4294967296\n0\n", b"2 3\n1 2\n4294967296\n", b"2 3\n2049 2\n0\n", b"2 3\n257 2\n0\n", b"2 3\n9999999999999 2\n0\n",
    b"2 3\n99999999999999 2\n0\n",
    # The end: missing lines, a last line without its newline, text after it.
    b"2 3", b"2 3\n", b"2 3\n1", b"2 3\n1 2", b"2 3\n1 2\n", b"2 3\n1 2\n0", b"2 3\n1 2\n0\n\n", b"2 3\n1 2\n0\n0", b"2 3\n1 2\n0\n0\n",
    b"2 3\n1 2\n0\n ", b"2 3\n1 2\n0\nx", b"2 3\n1 2\n0\n\r\n", b"2 3\n1 2\n0\n2 3\n1 2\n0\n", b"3 3\n1 2\n0\n", b"1 3\n1 2\n0\n",
    b"0 3\n1 2\n0\n", b"256 3\n", b"257 3\n", b"257 3", b"257  3\n", b"257\n", b"257 3 0 0\n", b"257 3 x\n", b"257 3\nx", b"257 03\n",
    b"0257 3\n", b"9999999999999 0\n", b"99999999999999 0\n", b"9999999999999 9999999999999 9999999999999\n",
    b"9999999999999 9999999999999 99999999999999\n",
    # Faults of the text come before those of the job, and these in their order.
    b"2 3 7\n1 2\nx\n", b"2 1099511627777\n1 2\n0\n\n", b"2 3\n1 1\n0", b"2 3\n1 1\n0\n\n", b"2 3 7\n1 1\n0\n",
    b"2 1099511627777 7\n1 1\n0\n", b"2 1099511627777 1\n1 1\n0\n", b"2 1099511627776 1\n1 1\n0\n", b"2 0\n1 1\n0\n", b"2 0 2\n1 2\n0\n",
    b"2 0 3\n1 2\n0\n", b"2 3 3\n1 2\n0\n", b"1 0\n1 1\n", b"1 0\n1 0\n", b"1 0\n1 2\n", b"2 3\n1 3\n0\n", b"2 3\n1 0\n0\n",
    b"2 3\n0\n1 2\n", b"2 3\n0\n1 1\n", b"2 3\n0\n1 3\n", b"2 3\n1 4294967298\n0\n", b"2 3\n1 9999999999999\n0\n",
    b"2 3\n1 10000000000000\n0\n", b"4 9\n2 3 3\n0\n0\n0\n", b"4 9\n2 3 2\n0\n0\n0\n", b"4 9\n2 4 1\n0\n0\n0\n", b"4 9\n3 3 2 1\n0\n0\n0\n",
    b"4 9\n3 3 1 2\n0\n0\n0\n", b"4 9\n2 3 2\n1 2\n0\n0\n", b"4 9\n1 1\n2 4 3\n0\n0\n", b"4 9\n1 4\n2 4 3\n1 3\n0\n",
    b"4 9\n1 4\n1 3\n1 4\n1 5\n", b"4 9\n3 2 3 5\n0\n0\n0\n", b"4 9\n2 5 2\n0\n0\n0\n", b"4 9\n4 2 3 4 4\n0\n0\n0\n",
    b"4 9\n4 2 3 4 5\n0\n0\n0\n", b"4 9\n4 1 2 3 4\n0\n0\n0\n", b"4 9\n1 2\n1 2\n0\n0\n", b"4 9\n1 2\n2 3 3\n0\n1 4\n",
]

# What a byte of a good text is exchanged for.
OTHER_BYTES = b" \n019x\0\t-"


def swept():
    """The nine columns with each byte left out, doubled, or exchanged for each of some others, and cut off at each place."""
    for at in range(len(NINE_TEXT)):
        before, after = NINE_TEXT[:at], NINE_TEXT[at + 1:]
        yield before
        yield before + after
        yield before + NINE_TEXT[at:at + 1] * 2 + after
        for byte in OTHER_BYTES:
            yield before + bytes([byte]) + after


def given():
    """Texts that others wrote; this file works out what they print."""
    for line in (pathlib.Path(__file__).resolve().parent / "given_texts.jsonl").read_text().splitlines():
        yield json.loads(line).encode("latin-1")


# ---------------------------------------------------------------- Draws

def draw_mark(dice):
    return dice.pick([None, 0, 1, 1, 2, 2])


def draw_good(dice, most=20):
    """A job with a limit about its peak."""
    columns, mark = pattern(dice, dice.between(0, most)), draw_mark(dice)
    peak = peak_of(columns, mark or 0)
    limit = dice.pick([peak, peak, peak + 1, max(peak - 1, 0), dice.below(peak + 1), peak + 2 ** dice.below(40), MOST_ROOM])
    return text_of(columns, limit, mark)


def draw_larger(dice):
    """More columns, sparse, in trees with some rows besides."""
    n, columns = dice.between(25, 110), []
    for j in range(1, n):
        reach = dice.pick([2, 4, 10, n])
        columns.append(sorted({dice.between(j + 1, min(j + reach, n)) for _ in range(dice.pick([0, 1, 1, 1, 2]))}))
    return text_of(columns + [[]], MOST_ROOM, draw_mark(dice))


def draw_siblings(dice):
    """A tree whose columns have rows of any of their ancestors, so that siblings differ in W as well as in their updates."""
    n, columns = dice.between(6, 22), [[]]
    for j in range(n - 1, 0, -1):
        parent = min(j + dice.pick([1, 1, 2, 3, 5, 8]), n)
        above = columns[n - parent] if dice.often(60) else []
        columns.append([parent] + [row for row in above if dice.often(70)])
    return text_of(columns[::-1], MOST_ROOM, dice.pick([1, 1, 1, 2]))


def one_byte(dice, text):
    """One byte exchanged, left out, put in, or two neighbours exchanged."""
    at, way = dice.below(max(len(text), 1)), dice.below(5)
    byte = bytes([dice.pick(b" \n0123456789") if dice.often(80) else dice.below(256)])
    if way == 0:
        return text[:at] + text[at + 1:]
    if way == 1:
        return text[:at] + byte + text[at:]
    if way == 2:
        return text[:at] + text[at + 1:at + 2] + text[at:at + 1] + text[at + 2:]
    return text[:at] + byte + text[at + 1:]


def draw_damaged(dice):
    text = draw_good(dice, 12)
    for _ in range(dice.pick([1, 1, 1, 2])):
        text = one_byte(dice, text)
    return text


def draw_number(dice, n):
    near = [dice.below(n + 2) for _ in range(5)]
    return dice.pick(near + [n, n + 1, 0, 256, 257, 2 ** 32 + dice.below(4), MOST_ROOM + dice.below(3), 10 ** 13 - 1, 10 ** 13])


def draw_faulty(dice):
    """Good text of a job with some numbers at fault."""
    columns = [rows[:] for rows in pattern(dice, dice.between(1, 12))]
    n = len(columns)
    for _ in range(dice.pick([1, 1, 2, 3])):
        rows = dice.pick(columns)
        rows.insert(dice.below(len(rows) + 1), draw_number(dice, n))
        if dice.often(40):
            del rows[dice.below(len(rows))]
    mark = draw_mark(dice) if dice.often(80) else draw_number(dice, 4)
    return text_of(columns, MOST_ROOM if dice.often(85) else draw_number(dice, n), mark)


def draw_unsorted(dice):
    """Rows that do not ascend: two exchanged, or one repeated; now and then a row outside its column's range before or behind them."""
    columns = [rows[:] for rows in dense(dice.between(3, 9))]
    for _ in range(dice.pick([1, 1, 2])):
        rows = dice.pick(columns[:-2])
        at = dice.below(len(rows) - 1)
        rows[at:at + 2] = dice.pick([[rows[at + 1], rows[at]], [rows[at], rows[at]], rows[at:at + 2] + [rows[at]]])
    if dice.often(30):
        dice.pick(columns).append(draw_number(dice, len(columns)))
    return text_of(columns, MOST_ROOM, draw_mark(dice))


def draw_over(dice):
    """A limit over 2^40, and sometimes another fault."""
    columns = [rows[:] for rows in pattern(dice, dice.between(0, 8))] + [[]]
    if dice.often(30):
        dice.pick(columns).append(draw_number(dice, len(columns)))
    limit = MOST_ROOM + dice.pick([1, 2, 2 ** 32, 1 + dice.below(10 ** 9), 2 ** 40, 2 ** 42, 10 ** 13 - 1 - MOST_ROOM])
    return text_of(columns, limit, draw_number(dice, 3) if dice.often(20) else draw_mark(dice))


def draw_coupled(dice):
    """As many factor rows as fit, or more: two fans, the second as large as possible, and a chain for the rest."""
    total, first = FACTOR_ROWS + dice.pick([0, 1, 1, 2, dice.below(500)]), dice.between(40, 91)
    left = total - t(first - 1)
    second = max(n for n in range(1, 93) if t(n - 1) <= left)
    columns = with_factor_rows(total, beside(fan(first), fan(second)))
    return text_of(columns, dice.pick([0, dice.below(5000), MOST_ROOM, MOST_ROOM]), draw_mark(dice))


def draw_words(dice):
    """Random words and line ends."""
    words = [b"0", b"1", b"2", b"3", b"1 2", b"1 3", b"2 2 3", b"\n", b"\n", b"\n", b" ", b"12", b"00", b"257", b"x"]
    return dice.pick([b"1 9\n", b"2 9\n", b"3 9\n", b"3 9 1\n", b""]) + b"".join(dice.pick(words) for _ in range(dice.below(10)))


def draw_lines(dice):
    """Random lines; now and then they make a job."""
    n = dice.between(0, 3)
    lines = [b"0", b"0", b"0", b"1 2", b"1 3", b"2 2 3", b"1 4", b"", b"0 "]
    count = max(n + dice.pick([-1, 0, 0, 0, 0, 1]), 0)
    return b"%d %d\n" % (n, dice.below(8)) + b"".join(dice.pick(lines) + b"\n" for _ in range(count))


FAMILIES = [(600, draw_good), (24, draw_larger), (700, draw_damaged), (500, draw_faulty), (250, draw_words), (200, draw_lines),
            (250, draw_unsorted), (120, draw_over), (50, draw_coupled), (300, draw_siblings)]


def cases():
    yield from pieces()
    yield from given()
    for columns in shapes():
        yield from about_the_peak(columns)
    yield from real()
    yield from column_sizes()
    yield from row_sizes()
    yield from factor_sizes()
    yield from input_sizes()
    yield from number_sizes()
    yield from BAD_TEXTS
    yield from swept()
    for seed, (count, family) in enumerate(FAMILIES, 1):
        dice = Dice(seed)
        for _ in range(count):
            yield family(dice)


def records():
    """The number, the bytes of text handed over, whether more follow, and what has to be printed."""
    for text in dict.fromkeys(cases()):
        number, printed = listing(text)
        yield number, text[:INPUT_BYTES], len(text) > INPUT_BYTES, printed
        if INPUT_BYTES < len(text) <= LONGEST_TEXT:
            yield number, text, False, printed
    number, printed = listing(b"0" * (INPUT_BYTES + 1))
    for text in BAD_TEXTS[::9] + [NINE_TEXT]:
        yield number, text, True, printed


def main():
    met, longest = {}, 0
    for number, text, more, printed in records():
        met[number] = met.get(number, 0) + 1
        longest = max(longest, len(printed))
        sys.stdout.buffer.write(b"%05d %d %05d\n" % (len(text), more, len(printed)) + text + printed)
    print(sum(met.values()), "cases;", ", ".join(f"{count} of {number}" for number, count in sorted(met.items())), file=sys.stderr)
    print(longest, "bytes in the longest listing", file=sys.stderr)


if __name__ == "__main__":
    main()
