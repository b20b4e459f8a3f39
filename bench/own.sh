#!/usr/bin/env bash
# Leaves OUT/NAME.o, this machine's own code of what the archive libNAME.a has (../c/archive.sh), made anew if a source of any crate has changed.
# usage: bench/own.sh OUT c_api|solver
set -euo pipefail
mkdir -p "$1"
out=$(cd "$1" && pwd -P) name=$2 crate=$2
[ "$name" != solver ] || crate=solver_c
cd "$(dirname "${BASH_SOURCE[0]}")/.."
sum=$(find crates/*/src -type f | LC_ALL=C sort | xargs sha256sum | sha256sum)
[ -s "$out/$name.o" ] && [ "$(cat "$out/$name.sum" 2>/dev/null)" = "$sum" ] && exit
bench/harness.sh build . "$crate" "$out/build-$name" >"$out/$name.log" 2>&1 || { tail -20 "$out/$name.log" >&2; exit 1; }
cp "$out/build-$name/$crate.o" "$out/$name.o"
echo "$sum" >"$out/$name.sum"
