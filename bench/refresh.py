"""Puts tables into README.md: each table read from standard input takes the place of the one under the same comment.
usage: bench/run.sh | python3 bench/refresh.py      the same with peers.sh and spoil.sh
"""
import pathlib
import sys


def tables(lines):
    """Where the table under each comment `<!-- figures: NAME -->` begins and ends."""
    found, k = {}, 0
    while k < len(lines):
        name, k = lines[k], k + 1
        if name.startswith("<!-- figures: "):
            while k < len(lines) and not lines[k].strip():
                k += 1
            begin = k
            while k < len(lines) and lines[k].startswith("|"):
                k += 1
            found[name] = begin, k
    return found


def main():
    path = pathlib.Path(__file__).with_name("README.md")
    printed, old = sys.stdin.read().splitlines(), path.read_text().splitlines()
    fresh, stale = tables(printed), tables(old)
    for name in sorted(set(fresh) & set(stale), key=lambda n: -stale[n][0]):   # from the end, so that the places before it stay
        begin, end = stale[name]
        old[begin:end] = printed[fresh[name][0]:fresh[name][1]]
    path.write_text("\n".join(old) + "\n")
    print(f"{len(set(fresh) & set(stale))} tables of {len(fresh)} put into {path.name}")


main()
