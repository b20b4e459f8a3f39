#!/usr/bin/env bash
# Gets the larger real patterns out of Debian packages, as job texts in OUT/jobs. usage: bench/fetch_real.sh OUT
# Each is made in its own numbering and, where bench/jobs.sh could build OUT/reorder, by minimum degree (-amd) and by nested dissection (-nd).
# Needs apt-get, dpkg and the network the first time; nothing is installed. real/README.md says what the patterns are.
set -euo pipefail
mkdir -p "$1/jobs" "$1/deb"
out=$(cd "$1" && pwd -P)
cd "$(dirname "${BASH_SOURCE[0]}")"
unpacked() { # PACKAGE: its files under OUT/deb/PACKAGE, without links, since the gate refuses a checkout with links in it
    [ -d "$out/deb/$1" ] && return
    (cd "$out/deb" && apt-get -qq download "$1" >&2 && dpkg -x "$1"_*.deb "$1.part" && find "$1.part" -type l -delete && mv "$1.part" "$1") || { echo "fetch_real: no package $1" >&2; return 1; }
}
pattern() { # NAME FILE DOF
    [ -s "$out/jobs/$1.job" ] || { python3 pattern.py "$2" "$3" >"$out/jobs/$1.part" && mv "$out/jobs/$1.part" "$out/jobs/$1.job"; }
    [ -x "$out/reorder" ] || return 0
    for o in amd nd; do [ -s "$out/jobs/$1-$o.job" ] || { "$out/reorder" $o <"$out/jobs/$1.job" >"$out/jobs/$1-$o.part" && mv "$out/jobs/$1-$o.part" "$out/jobs/$1-$o.job"; }; done
}
unpacked scilab-doc
demos=$out/deb/scilab-doc/usr/share/scilab/modules/umfpack/demos
pattern bcsstk24 "$demos/bcsstk24.rsa" 1
pattern ex14 "$demos/ex14.rua" 1
unpacked calculix-ccx-test
decks=$out/deb/calculix-ccx-test/usr/share/doc/calculix-ccx-test/examples/test
pattern ccx_bolt "$decks/bolt.inp.gz" 2
for d in segment multistage ball; do pattern ccx_$d "$decks/$d.inp.gz" 3; done
