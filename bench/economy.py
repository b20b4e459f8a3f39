#!/usr/bin/env python3
"""Lines of code, definitions and proof of each crate, the edits that must be refused, and how long its check took in a run of the gate from nothing.
usage: RT_JOBS=1 rt ci --anew 2>&1 | tee LOG | bench/economy.py | bench/refresh.py
The gate prints no times, so they are taken here, as its lines come: a check took as long as it is since the check before it ended. So the gate must do one
crate after another, as RT_JOBS=1 has it."""
import pathlib
import re
import sys
import time

root = pathlib.Path(__file__).resolve().parent.parent


def lines(folder, *ends):
    """Lines that are neither empty nor a comment, in the files below a folder."""
    total = 0
    for file in sorted(folder.rglob("*")):
        if file.suffix in ends:
            for line in file.read_text().splitlines():
                text = line.strip()
                total += bool(text) and not text.startswith(("//", "--"))
    return total


def crates():
    for line in (root / "crates.txt").read_text().splitlines():
        if line.strip() and not line.startswith("#"):
            yield line.split(":")[0].split()[0]


seconds, before = {}, time.monotonic()
for line in sys.stdin:
    match = re.match(r"rt: (\w+)( proved| NOT PROVED|: its tests are )", line)
    if match:
        if match[2] == " proved":
            seconds[match[1]] = round(time.monotonic() - before)
        before = time.monotonic()

print("<!-- figures: economy -->\n")
print("| crate | code | definitions | proof | edits | check, seconds |")
print("|---|---:|---:|---:|---:|---:|")
sums = [0] * 5
for name in crates():
    folder = root / "crates" / name
    row = [
        lines(folder / "src", ".rt"),
        lines(folder / "specs", ".antt"),
        lines(folder / "proofs", ".antt"),
        len(list(folder.glob("must-fail/*.edit"))),
        seconds.get(name, 0),
    ]
    sums = [a + b for a, b in zip(sums, row)]
    print("| " + " | ".join([name] + [f"{x:,}" for x in row]) + " |")
print("| " + " | ".join(["together"] + [f"{x:,}" for x in sums]) + " |")
