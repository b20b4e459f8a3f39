"""A job text as a Matrix Market file, which farm reads. usage: bench/matrix.py FILE.job >FILE.mtx"""
import sys


def columns_of(path):
    """The rows of each column of a job text."""
    with open(path) as f:
        lines = f.read().splitlines()
    return [[int(x) for x in l.split()[1:]] for l in lines[1:int(lines[0].split()[0]) + 1]]


def write_matrix(f, columns):
    n = len(columns)
    f.write(f"%%MatrixMarket matrix coordinate pattern symmetric\n{n} {n} {sum(map(len, columns))}\n")
    f.writelines(f"{i} {j}\n" for j, rows in enumerate(columns, 1) for i in rows)


if __name__ == "__main__":
    write_matrix(sys.stdout, columns_of(sys.argv[1]))
