#!/bin/sh
# Proves the entry points for C programs and leaves their x86-64 code in ../target/staticlib, seen from this folder. usage: archive.sh c_api|solver
# libc_api.a is what the kit makes of the crate c_api, and libsolver.a what it makes of solver_c, which gives the solver's call its name in C.
set -eu
cd "$(dirname "$0")/.."
archive=${1:-}
case $archive in
c_api) crate=c_api ;;
solver) crate=solver_c ;;
*) echo "usage: $0 c_api|solver" >&2; exit 2 ;;
esac
(cd "crates/$crate" && rt lib)
mkdir -p target/staticlib
cp "crates/$crate/out/lib$crate.a" "target/staticlib/lib$archive.part"
mv "target/staticlib/lib$archive.part" "target/staticlib/lib$archive.a"
