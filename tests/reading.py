#!/usr/bin/env python3
"""Holds the pictures of docs/READING.md against crates.txt.

    python3 tests/reading.py

Each crate must be drawn once, and in its picture it must use only crates with lower numbers. Prints one line for each fault, and ends with
status 1 if there is one.
"""
import pathlib
import re
import sys

ROOT = pathlib.Path(__file__).resolve().parent.parent
HEADINGS = ("Definitions and laws, without code:", "Code:", "Trials, which use the entry points they try:")


def crates():
    """What each crate uses. Before the colon a static library says that it is one."""
    lines = (line.split("#")[0].strip() for line in (ROOT / "crates.txt").read_text().splitlines())
    return {words.split()[0]: uses.split() for words, uses in (line.split(":") for line in lines if ":" in line)}


def pictures(text):
    """The indented lines behind each heading."""
    for heading in HEADINGS:
        lines = text.split("\n" + heading + "\n", 1)
        if len(lines) < 2:
            sys.exit(f"docs/READING.md has no heading '{heading}'")
        picture = []
        for line in lines[1].lstrip("\n").splitlines():
            if line and not line.startswith("    "):
                break
            picture.append(line)
        yield picture


def drawn(picture, names, first_word):
    """The crates of a picture, each with the number of its level."""
    level, found = 0, []
    for line in picture:
        number = re.match(r" +(\d+)  ", line)
        if number:
            level = int(number[1])
        words = re.findall(r"[a-z_0-9]+", line[number.end() if number else 0:])
        found += [(word, level) for word in (words[:1] if first_word else words) if word in names and level]
    return found


def faults():
    uses = crates()
    seen = []
    for number, picture in enumerate(pictures((ROOT / "docs/READING.md").read_text())):
        levels = dict(drawn(picture, uses, first_word=number == 0))
        seen += [name for name, _ in drawn(picture, uses, first_word=number == 0)]
        for name, level in levels.items():
            for other in uses[name]:
                if levels.get(other, 0) >= level:
                    yield f"{name} is drawn at {level} and uses {other}, which is drawn at {levels[other]}"
    for name in uses:
        if seen.count(name) != 1:
            yield f"{name} is drawn {seen.count(name)} times"


def main():
    found = list(faults())
    for fault in found:
        print("docs/READING.md:", fault)
    if not found:
        print("docs/READING.md draws every crate of crates.txt once, above what it uses")
    return 1 if found else 0


if __name__ == "__main__":
    sys.exit(main())
