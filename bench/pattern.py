"""The pattern of a stored matrix or of a finite element deck, as a job text on standard output.
usage: pattern.py FILE [DOF]      FILE, or FILE.gz: *.rsa *.psa *.rua *.pua (Harwell-Boeing), *.mtx (Matrix Market), *.inp (a CalculiX deck)

A matrix that is not symmetric gives the pattern of itself and its transpose together. A deck gives one block of DOF unknowns (default 3) for each
node that an element uses, numbered as the nodes are; two unknowns are coupled if some element has both nodes. Supports, ties and equations are not
looked at.
"""
import gzip
import os
import re
import sys


def lines_of(path):
    with (gzip.open(path, "rt", errors="replace") if path.endswith(".gz") else open(path, errors="replace")) as f:
        return f.read().splitlines()


def harwell_boeing(lines):
    """Pairs of 0-based row and column, and n."""
    cards = [int(lines[1][14 * k:14 * k + 14] or 0) for k in range(1, 3)]
    rows, columns = int(lines[2][14:28]), int(lines[2][28:42])
    if rows != columns:
        sys.exit("not square")
    first = 5 if int(lines[1][56:70].strip() or 0) else 4

    def numbers(at, count, form):       # a form like (16I5) or (1P,10I8): as many to the line, each as wide
        per, width = form.strip().strip("()").split(",")[-1].upper().split("I")
        per, width = int(per or 1), int(width)
        fields = (l[width * k:width * k + width].strip() for l in lines[at:at + count] for k in range(per))
        return [int(x) for x in fields if x]

    starts = numbers(first, cards[0], lines[3][:16])
    index = numbers(first + cards[0], cards[1], lines[3][16:32])
    return columns, [(index[p] - 1, c) for c in range(columns) for p in range(starts[c] - 1, starts[c + 1] - 1)]


def matrix_market(lines):
    body = [l.split() for l in lines if not l.startswith("%") and l.strip()]
    if body[0][0] != body[0][1]:
        sys.exit("not square")
    return int(body[0][0]), [(int(e[0]) - 1, int(e[1]) - 1) for e in body[1:]]


def node_count(kind):
    """Nodes of an element of this type: solids, plane and axially symmetric ones, shells, beams; 0 for the others, which are left out."""
    beam = re.match(r"B3([12])", kind)
    other = re.match(r"(?:C3D|CAX|CPE|CPS|S|M3D)(\d+)", kind)
    return int(beam[1]) + 1 if beam else int(other[1]) if other else 0


def deck(lines, folder, dof):
    elements, want, size, held = [], False, 0, []

    def read(lines):
        nonlocal want, size, held
        for line in lines:
            line = line.strip()
            if not line or line.startswith("**"):
                continue
            if line.startswith("*"):
                words = [w.strip().upper() for w in line.split(",")]
                want, held = words[0] == "*ELEMENT", []
                if want:
                    size = node_count(next(w.split("=")[1].strip() for w in words if w.replace(" ", "").startswith("TYPE=")))
                if words[0] == "*INCLUDE":
                    read(lines_of(os.path.join(folder, line.split("=")[1].strip())))
            elif want:
                held += [int(w) for w in line.split(",") if w.strip()]
                if size and len(held) > size:
                    elements.append(held[1:size + 1])
                    held = []
    read(lines)
    place = {node: k for k, node in enumerate(sorted({node for e in elements for node in e}))}
    pairs = {(place[a], place[b]) for e in elements for a in e for b in e if a >= b}
    return dof * len(place), [(dof * a + x, dof * b + y) for a, b in pairs for x in range(dof) for y in range(dof)]


def main():
    path, dof = sys.argv[1], int(sys.argv[2]) if len(sys.argv) > 2 else 3
    kind = path.removesuffix(".gz").rsplit(".", 1)[-1].lower()
    lines = lines_of(path)
    if kind == "inp":
        n, pairs = deck(lines, os.path.dirname(path), dof)
    elif kind == "mtx":
        n, pairs = matrix_market(lines)
    else:
        n, pairs = harwell_boeing(lines)
    columns = [set() for _ in range(n)]
    for a, b in pairs:
        if a != b:
            columns[min(a, b)].add(max(a, b) + 1)
    print(n, 2 ** 40)
    for rows in columns:
        print(len(rows), *sorted(rows))


main()
