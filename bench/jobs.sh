#!/usr/bin/env bash
# Makes the patterns that the tables are about, as job texts in OUT/jobs, and what makes them. usage: bench/jobs.sh OUT
# Numberings by nested dissection and by minimum degree need libmetis-dev and libsuitesparse-dev; without them those patterns are left out.
set -euo pipefail
out=$1
mkdir -p "$out/jobs"
cd "$(dirname "${BASH_SOURCE[0]}")"
gcc -O2 -o "$out/gen" gen.c
gcc -O2 -I/usr/include/suitesparse -o "$out/reorder" reorder.c -lamd -lmetis 2>/dev/null || {
    rm -f "$out/reorder"
    echo "jobs: no libmetis-dev or libsuitesparse-dev: no renumbered patterns" >&2
}
# Written beside and then moved, so that a job text that is there is whole.
make_job() { [ -s "$out/jobs/$1.job" ] || { "${@:2}" >"$out/jobs/$1.part" && mv "$out/jobs/$1.part" "$out/jobs/$1.job"; }; }
made() { make_job "$1" "$out/gen" "${@:2}"; }
dissected() { [ ! -x "$out/reorder" ] || make_job "$1" sh -c '"$0/gen" "$@" | "$0/reorder" nd' "$out" "${@:2}"; }
made grid2-64 grid2 64 64 1
made grid3-10-dof3 grid3 10 10 10 3
dissected grid2-64-nd grid2 64 64 1
dissected grid3-11-dof3-nd grid3 11 11 11 3
made dense-4096 dense 4096
made random-4096 random 4096 8192 7
for k in chain star caterpillar binary; do made $k-4096 $k 4096; done
made broom2-4001 broom2 3000 1000
for n in 1024 2048 4096; do made broom2-$n broom2 $((n * 3 / 4)) $((n / 4 - 1)); made grid2-$n grid2 $((n / 32)) 32 1; done
for n in 512 1024 2048 4096; do make_job keys-$n python3 keys.py $n; done
