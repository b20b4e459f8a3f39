# A star of chains whose children come in the wrong order for marks 1 and 2: n columns, the last the centre; child c has a list that grows with c.
# usage: keys.py N
import sys
n = int(sys.argv[1])
m = n // 2                       # children 1 .. m, then m columns that make a dense tail
print(n, 2 ** 40)
for j in range(1, n + 1):
    if j <= m:
        rows = [m + 1] + list(range(n - (j % 60), n + 1))
    else:
        rows = [j + 1] if j < n else []
    rows = sorted(set(r for r in rows if j < r <= n))
    print(len(rows), *rows)
