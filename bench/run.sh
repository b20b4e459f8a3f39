#!/usr/bin/env bash
# Measures the entry points on this machine and prints the tables of README.md. usage: bench/run.sh [OUT]
# Proves c_api, takes this machine's own code from the very module that the kit compiled, and links it with the C reference.
# Needs gcc and python3; on a machine other than x86-64 also gcc-x86-64-linux-gnu and libc6-dev-amd64-cross. Renumbered patterns need libmetis-dev and
# libsuitesparse-dev, the larger real ones the network the first time; without them those lines are left out.
. "$(dirname "${BASH_SOURCE[0]}")/ready.sh"
gcc -O2 -Wall -Wextra -o "$out/measure" measure.c ref_analyse.c "$out/c_api.o" -lpthread
j=$out/jobs
there() { for a in "$@"; do [ ! -s "${a#*=}" ] || args+=("$a"); done; }
table() { printf '\n## %s\n\n<!-- figures: %s -->\n\n' "$1" "${2#--}"; "$out/measure" "$2" "${args[@]}"; args=(); }
args=()
meshes=("bricks 11³, 3 unknowns, nested dissection=$j/grid3-11-dof3-nd.job" "plane mesh 64², nested dissection=$j/grid2-64-nd.job" "plane mesh 64²=$j/grid2-64.job"
    "bricks 10³, 3 unknowns=$j/grid3-10-dof3.job" "dense=$j/dense-4096.job" "random=$j/random-4096.job")
larger=()
for k in bcsstk24 ccx_multistage ccx_ball ccx_segment ccx_bolt ex14; do larger+=("$k, minimum degree=$j/$k-amd.job" "$k, nested dissection=$j/$k-nd.job"); done
trees=("chain=$j/chain-4096.job" "star=$j/star-4096.job" "caterpillar=$j/caterpillar-4096.job" "binary=$j/binary-4096.job")
echo "# $(uname -m), $(nproc) processors, $(date -u +%F)"
there "${meshes[@]}" "${larger[@]}" real/*.job "${trees[@]}" "broom2, 3,000 leaves on a front of 1,000=$j/broom2-4001.job"
table "Analysis, nanoseconds a factor row" --analysis
for n in 512 1024 2048 4096; do there "$j/keys-$n.job"; done
there "plane mesh 64²=$j/grid2-64.job" "bricks 10³, 3 unknowns=$j/grid3-10-dof3.job" "${larger[@]}" real/*.job
table "Sibling marks, microseconds of an analysis" --marks
there "${trees[@]}"
table "Stack, bytes of an analysis" --stack
there "${meshes[@]}" "${larger[@]}"
for n in 1024 2048 4096; do there "broom2, n ${n:0:1},${n:1}=$j/broom2-$n.job" "plane mesh, n ${n:0:1},${n:1}=$j/grid2-$n.job"; done
there real/*.job "${trees[@]}"
table "Plans, nanoseconds a factor row" --plans
table "Run where lists hardly meet, nanoseconds a row" --gallop
