#!/usr/bin/env bash
# Measures the entry points beside the C reference and other solvers' symbolic analysis, and prints the table in Markdown. usage: bench/peers.sh [OUT]
# Needs gcc, python3, libsuitesparse-dev, libmetis-dev; on a machine other than x86-64 also gcc-x86-64-linux-gnu and libc6-dev-amd64-cross. SPOOLES and the
# larger real patterns are taken out of Debian packages that are downloaded into OUT and not installed: libspooles-dev pulls in an MPI that conflicts elsewhere.
. "$(dirname "${BASH_SOURCE[0]}")/ready.sh"
spooles=$out/deb/libspooles-dev
[ -d "$spooles" ] || (cd "$out/deb" && apt-get -qq download libspooles-dev >&2 && dpkg -x libspooles-dev_*.deb "$spooles" && find "$spooles" -type l -delete)
gcc -O2 -Wall -Wextra -I/usr/include/suitesparse -I"$spooles/usr/include" -I"$spooles/usr/include/spooles" -o "$out/peers" \
    peers.c ref_analyse.c "$out/c_api.o" "$(find "$spooles" -name libspooles.a)" -lcholmod -lcxsparse -lm -lpthread
list=$out/peers.list
: >"$list"
job() { [ ! -s "$3" ] || printf '%s\t%s\t%s\n' "$1" "$2" "$3" >>"$list"; } # kind title file
j=$out/jobs
job grid 'bricks 11³, 3 unknowns, nested dissection' "$j/grid3-11-dof3-nd.job"
job grid 'bricks 10³, 3 unknowns' "$j/grid3-10-dof3.job"
job grid 'plane mesh 64², nested dissection' "$j/grid2-64-nd.job"
job grid 'plane mesh 64²' "$j/grid2-64.job"
for k in bcsstk24 ccx_multistage ccx_ball ccx_segment ccx_bolt; do
    job stiffness "$k" "$j/$k.job"
    job stiffness "$k, minimum degree" "$j/$k-amd.job"
    job stiffness "$k, nested dissection" "$j/$k-nd.job"
done
for k in bcsstk01 nos1 LFAT5 ccx_axrad ccx_c3d6; do job stiffness $k real/$k.job; done
job other 'ex14' "$j/ex14.job"
job other 'ex14, minimum degree' "$j/ex14-amd.job"
job other 'ex14, nested dissection' "$j/ex14-nd.job"
for k in bcspwr01 bcspwr03 can_24; do job other $k real/$k.job; done
for k in dense random chain star; do job other $k "$j/$k-4096.job"; done
job other 'broom2, 3,000 leaves on a front of 1,000' "$j/broom2-4001.job"
echo "Nanoseconds a factor row; $(uname -m), $(nproc) processors, $(date -u +%F)."
printf '\n<!-- figures: peers -->\n\n'
"$out/peers" <"$list"
