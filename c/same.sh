#!/bin/sh
# Whether this machine's own code of the proved crates answers as the kit's x86-64 archives do: same.c is linked with each, and both programs must print
# the same, byte for byte. Where this machine is not an x86-64 one, the second runs under Debian's qemu-user. usage: same.sh LIBRARY ARCHIVE...
# The paths are seen from this folder. SAME has the seed and the number of jobs.
set -eu
cd "$(dirname "$0")"
: "${CC:=gcc}" "${SAME:=1 1000}"
own=$1
shift
machine=$(uname -m) cross=$CC static='' emulator=''
fail() { echo "same: $*" >&2; exit 1; }
skip() { echo "same: skipped, $*"; exit 0; }

if [ "$machine" != x86_64 ]; then
    cross=x86_64-linux-gnu-gcc static=-static emulator=qemu-x86_64
    command -v "$cross" >/dev/null || skip "$cross is missing"
    command -v "$emulator" >/dev/null || skip "the emulator $emulator is missing"
    for word in $(env | sed -n 's/^\(QEMU_[A-Za-z0-9_]*\)=.*/\1/p'); do unset "$word"; done
fi
work=$(mktemp -d)
trap 'rm -rf "$work"' EXIT
strict="-std=c11 -Wall -Wextra -Wpedantic -Werror -O2 -I../include"
# shellcheck disable=SC2086
$CC $strict -o "$work/own" same.c "$own"
# shellcheck disable=SC2086
$cross $strict $static -o "$work/x86" same.c "$@"
# shellcheck disable=SC2086
"$work/own" $SAME >"$work/own.out" || echo "stops with $?" >>"$work/own.out"
# shellcheck disable=SC2086
${emulator:+"$emulator"} "$work/x86" $SAME >"$work/x86.out" || echo "stops with $?" >>"$work/x86.out"
if ! cmp "$work/own.out" "$work/x86.out" >"$work/cmp" 2>&1; then
    line=$(sed -n 's/.* line \([0-9]*\).*/\1/p' "$work/cmp")
    fail "this machine's own code differs from the kit's archives at call ${line:-?}:
  own    $(sed -n "${line:-1}p" "$work/own.out")
  x86-64 $(sed -n "${line:-1}p" "$work/x86.out")"
fi
said=$(tail -n 1 "$work/own.out")
case $said in *" calls; "*) echo "same: this machine's own code ($machine) prints what the kit's archives print: $said" ;; *) fail "both: $said" ;; esac
