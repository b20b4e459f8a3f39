#!/usr/bin/env python3
"""Compares the library with its documents and with vectors.

    test.py LIBRARY.so                    ls_words and the header against docs/REFUSALS.md
    test.py LIBRARY.so FILE.jsonl...      every case of the files through the doors, and those of a job through the wrapper too

A case is a JSON object: kind (key, analyse, plan, check, run, solver), in, out. Slices are lent full of a pattern and between guards, so that what a call
keeps, clears or must not touch is seen.
"""
import ctypes
import json
import re
import sys
from pathlib import Path

ROOT = Path(__file__).resolve().parent.parent
U8, U32, U64 = ctypes.c_uint8, ctypes.c_uint32, ctypes.c_uint64
GUARD = 4
UNKNOWN = "no refusal has this number"
LENT = {"parents": U32, "order": U32, "pops": U32, "fstarts": U64, "frows": U32, "work": U64, "bytes": U8, "stack": U32}
ANALYSIS = ("parents", "order", "pops", "fstarts", "frows", "work")


# ---------------------------------------------------------------- Words

def documented():
    """Number to words, from the tables; a number that the tables have twice has its lines joined."""
    words = {0: ["done"]}
    for line in (ROOT / "docs/REFUSALS.md").read_text().splitlines():
        found = re.match(r"\| (\d+) \| (.*?) \|", line)
        if found:
            words.setdefault(int(found[1]), []).append(found[2])
    return {number: "; or ".join(lines) for number, lines in words.items()}


def compare_words(library):
    library.ls_words.restype, library.ls_words.argtypes = ctypes.c_char_p, [U64]
    documents, faults = documented(), []
    for number in [*range(10_000), *(2 ** k - d for k in (32, 64) for d in (1, 2)), 2 ** 32]:
        said, right = library.ls_words(number).decode(), documents.get(number, UNKNOWN)
        if said != right:
            faults.append(f"{number}: ls_words says '{said}', docs/REFUSALS.md '{right}'")
    header = (ROOT / "include/loomsaffron.h").read_text() + (ROOT / "c/ls_plan.h").read_text()
    named = {int(n) for n in re.findall(r"^    LS_\w+ = (\d+)", header, re.M) + re.findall(r"^#define LS_NO_MEMORY (\d+)", header, re.M)}
    for number in sorted(named ^ (set(documents) - {25})):  # 25 is the listing program's alone
        faults.append(f"{number}: not in both of the headers and docs/REFUSALS.md")
    version = re.search(r'^#define LOOMSAFFRON_VERSION "(.*)"', header, re.M)[1]
    if f"## {version}" not in (ROOT / "CHANGELOG.md").read_text():
        faults.append(f"CHANGELOG.md says nothing of {version}")
    return faults, f"the words of {len(documents)} numbers are those of docs/REFUSALS.md"


# ---------------------------------------------------------------- Calls

class Slice:
    """A lent slice full of a pattern, between guards."""

    def __init__(self, kind, length):
        self.kind, self.length = kind, length
        self.before = [(37 * k + 11) % 251 for k in range(length + 2 * GUARD)]
        self.whole = (kind * len(self.before))(*self.before)

    def arguments(self):
        return ctypes.byref(self.whole, GUARD * ctypes.sizeof(self.kind)), ctypes.c_size_t(self.length)

    def now(self):
        assert self.whole[:GUARD] == self.before[:GUARD] and self.whole[GUARD + self.length:] == self.before[GUARD + self.length:], "a guard is broken"
        return self.whole[GUARD:GUARD + self.length]

    def kept(self):
        return self.now() == self.before[GUARD:GUARD + self.length]


def given(kind, numbers):
    return (kind * max(len(numbers), 1))(*numbers), ctypes.c_size_t(len(numbers))


def job_arguments(job):
    n, starts, rows, mark, limit = job[:5]
    return [U64(n), *given(U64, starts), *given(U32, rows), U64(mark), U64(limit)]


def call(library, case):
    """Answer and slices of the door."""
    kind, put = case["kind"], case["in"]
    data = list(bytes.fromhex(put["data"])) if "data" in put else []
    if kind == "solver":
        arguments = [*given(U8, list(bytes.fromhex(put["key"]))), *given(U8, data)]
        assert library.check(*arguments) == library.ls_check(*arguments), "check and ls_check differ"
        return library.ls_check(*arguments), {}
    names = {"key": ("bytes",), "analyse": ANALYSIS, "check": ANALYSIS, "plan": ANALYSIS + ("bytes",), "run": ("stack",)}[kind]
    slices = {name: Slice(LENT[name], put["len_" + name]) for name in names}
    if kind == "run":
        lists = [*given(U64, put["fstarts"]), *given(U32, put["frows"]), *given(U32, put["columns"]), *given(U32, put["pops"])]
        arguments = [U64(put["n"]), *lists, U64(put["room"])]
    else:
        arguments = job_arguments(put["job"]) + ([*given(U8, data)] if kind == "check" else [])
    for one in slices.values():
        arguments += one.arguments()
    place, count = U64(), U64()
    door = {"key": "ls_write_key", "analyse": "ls_analyse", "plan": "ls_write_plan", "check": "ls_check_plan", "run": "ls_run"}[kind]
    number = getattr(library, door)(*arguments, ctypes.byref(place), ctypes.byref(count))
    return [number, place.value, count.value], slices


def compare(library, case):
    """Whether the door does what the case says."""
    answer, slices = call(library, case)
    out = case["out"]
    if case["kind"] == "solver":
        return answer == out["answer"]
    if answer != [out["number"], out["place"], out["count"]]:
        return False
    if out["slices"] == "untouched":
        return all(one.kept() for one in slices.values())
    return all(one.now() == out["slices"][name] for name, one in slices.items())


# ---------------------------------------------------------------- The wrapper

class Answer(ctypes.Structure):
    _fields_ = [("number", U64), ("place", U64), ("count", U64)]


class Job(ctypes.Structure):
    _fields_ = [("n", U64), ("starts", ctypes.POINTER(U64)), ("starts_len", ctypes.c_size_t), ("rows", ctypes.POINTER(U32)), ("rows_len", ctypes.c_size_t),
                ("mark", U64), ("limit", U64)]


class Plan(ctypes.Structure):
    _fields_ = [("n", U64), ("peak", U64), ("parents", ctypes.POINTER(U32)), ("order", ctypes.POINTER(U32)), ("pops", ctypes.POINTER(U32)),
                ("fstarts", ctypes.POINTER(U64)), ("frows", ctypes.POINTER(U32)), ("fstarts_len", ctypes.c_size_t), ("frows_len", ctypes.c_size_t),
                ("bytes", ctypes.POINTER(U8)), ("key", ctypes.POINTER(U8)), ("bytes_len", ctypes.c_size_t), ("key_len", ctypes.c_size_t),
                ("work", ctypes.POINTER(U64)), ("stack", ctypes.POINTER(U32)), ("columns_room", ctypes.c_size_t), ("rows_room", ctypes.c_size_t),
                ("bytes_room", ctypes.c_size_t), ("key_room", ctypes.c_size_t)]


def compare_wrapped(library, case, plan):
    """The wrapper lends enough: it answers what the door answers unless that is 7, 8 or 10, and then holds the door's results."""
    out, put = case["out"], case["in"]
    n, starts, rows, mark, limit = put["job"][:5]
    own_starts, own_rows = given(U64, starts), given(U32, rows)
    job = Job(n, ctypes.cast(own_starts[0], ctypes.POINTER(U64)), own_starts[1], ctypes.cast(own_rows[0], ctypes.POINTER(U32)), own_rows[1], mark, limit)
    if case["kind"] == "check":
        answer = library.ls_plan_check(ctypes.byref(plan), ctypes.byref(job), *given(U8, list(bytes.fromhex(put["data"]))))
    else:
        name = {"key": "ls_plan_key", "analyse": "ls_plan_analyse", "plan": "ls_plan_write"}[case["kind"]]
        answer = getattr(library, name)(ctypes.byref(plan), ctypes.byref(job))
    if answer.number in (7, 8, 10, 100):
        return False
    if out["number"] in (7, 8, 10):
        return True
    if (answer.number, answer.place, answer.count) != (out["number"], out["place"], out["count"]):
        return False
    if case["kind"] == "key":
        length = 0 if answer.number else answer.count
        return plan.key_len == length and (length == 0 or plan.key[:length] == out["slices"]["bytes"][:length])
    if answer.number:
        return plan.n == plan.peak == plan.fstarts_len == plan.frows_len == 0
    right = out["slices"]
    same = all(getattr(plan, name)[:n] == right[name][:n] for name in ("parents", "order", "pops")) and plan.fstarts[:n + 1] == right["fstarts"][:n + 1]
    same = same and plan.n == n and plan.frows_len == plan.fstarts[n] and plan.frows[:plan.frows_len] == right["frows"][:plan.frows_len]
    if case["kind"] == "plan":
        same = same and plan.bytes_len == answer.count and plan.bytes[:plan.bytes_len] == right["bytes"][:plan.bytes_len]
    else:
        same = same and plan.peak == answer.count
    ran = library.ls_plan_run(ctypes.byref(plan), U64(plan.peak))
    return same and (ran.number, ran.count) == (0, plan.peak)


def compare_vectors(library, path):
    faults, cases, plan = [], 0, Plan()
    for at, line in enumerate(Path(path).read_text().splitlines(), 1):
        case = json.loads(line)
        cases += 1
        if not compare(library, case):
            faults.append(f"{path}:{at}: the door answers otherwise")
        if "job" in case["in"] and not compare_wrapped(library, case, plan):
            faults.append(f"{path}:{at}: the wrapper answers otherwise")
    library.ls_plan_free(ctypes.byref(plan))
    return faults, f"{Path(path).name}: {cases} cases"


def main(words):
    library = ctypes.CDLL(words[0])
    for name in ("check", "ls_check", "ls_write_key", "ls_analyse", "ls_write_plan", "ls_check_plan", "ls_run"):
        getattr(library, name).restype = U64
    for name in ("ls_plan_key", "ls_plan_analyse", "ls_plan_write", "ls_plan_check", "ls_plan_run"):
        getattr(library, name).restype = Answer
    for faults, said in [compare_vectors(library, path) for path in words[1:]] or [compare_words(library)]:
        if faults:
            sys.exit("\n".join(faults[:10]))
        print(f"test: {said}")


if __name__ == "__main__":
    main(sys.argv[1:])
