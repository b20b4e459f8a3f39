#!/bin/sh
# What `make test` runs, after the build: installs in a temporary folder, and tries what is there as a farm would.
set -eu
cd "$(dirname "$0")"
: "${CC:=gcc}" "${MAKE:=make}" "${VECTORS:=}"
stage=$(mktemp -d)
trap 'rm -rf "$stage"' EXIT
fail() { echo "test: $*" >&2; exit 1; }

$MAKE -s --no-print-directory install DESTDIR="$stage" PREFIX=/opt/loomsaffron
export PKG_CONFIG_LIBDIR="$stage/opt/loomsaffron/lib/pkgconfig" PKG_CONFIG_SYSROOT_DIR="$stage"
flags=$(pkg-config --cflags --libs loomsaffron)
lib=$stage/opt/loomsaffron/lib/libloomsaffron.a
strict="-std=c11 -Wall -Wextra -Wpedantic -Werror -O1 -g"
echo "test: installed loomsaffron $(pkg-config --modversion loomsaffron)"

# The archive defines the doors and the wrapper, and nothing else.
doors="check ls_analyse ls_check ls_check_plan ls_plan_analyse ls_plan_check ls_plan_free ls_plan_key ls_plan_run ls_plan_write"
doors="$doors ls_run ls_words ls_write_key ls_write_plan"
found=$(nm -g --defined-only "$lib" | awk 'NF == 3 { print $3 }' | LC_ALL=C sort | tr '\n' ' ')
[ "$found" = "$doors " ] || fail "the archive defines $found, not $doors"

# The installed tool plans a file, checks the plan and draws it.
printf '%%%%MatrixMarket matrix coordinate pattern symmetric\n3 3 2\n2 1\n3 1\n' >"$stage/three.mtx"
(cd "$stage" && farm=opt/loomsaffron/bin/farm && $farm plan three.mtx >said && $farm show three.mtx >>said && $farm check three.key three.plan >>said) ||
    fail "the installed farm goes wrong"
[ "$(tail -n 1 "$stage/said")" = "done, peak 6" ] || fail "the installed farm says: $(cat "$stage/said")"
for picture in tree room fill; do [ -s "$stage/three-$picture.svg" ] || fail "the installed farm draws no $picture"; done
echo "test: the installed farm"

# A program of 20 lines, and a program with a function `check` of its own.
cat >"$stage/own.c" <<'END'
#include <stddef.h>
#include <stdint.h>
uint64_t ls_check(const uint8_t *key, size_t key_len, const uint8_t *plan, size_t plan_len);
int check(void);
int check(void) { return 7; }
int main(void) { return !(check() == 7 && ls_check(NULL, 0, NULL, 0) == (uint64_t)27 << 32); }
END
for sanitize in "" "-fsanitize=address,undefined -fno-sanitize-recover=all"; do
    # shellcheck disable=SC2086
    $CC $strict $sanitize -o "$stage/example" example.c $flags
    said=$(cd "$stage" && ./example) || fail "the example is refused"
    [ "$said" = "9 columns, 17 factor rows, peak 15, 69 bytes stored" ] || fail "the example says: $said"
    # shellcheck disable=SC2086
    $CC $strict $sanitize -o "$stage/own" "$stage/own.c" $flags
    "$stage/own" || fail "a program with a check of its own goes wrong"
    # shellcheck disable=SC2086
    $CC $strict $sanitize -I../include -I. -Wl,--wrap=calloc -o "$stage/wrapper" test.c ls_plan.c ls_words.c "$lib"
    "$stage/wrapper" || fail "the wrapper goes wrong"
    echo "test: the example and the wrapper${sanitize:+, with sanitizers}"
done

# The whole archive as one shared library, for Python.
$CC -shared -o "$stage/all.so" -Wl,--whole-archive "$lib" -Wl,--no-whole-archive
python3 test.py "$stage/all.so"
if [ -z "$VECTORS" ]; then
    echo "test: vectors skipped (VECTORS names no folder)"
else
    for kind in key analyse plan check run solver; do
        [ -r "$VECTORS/$kind.jsonl" ] || fail "cannot read $VECTORS/$kind.jsonl"
        python3 test.py "$stage/all.so" "$VECTORS/$kind.jsonl"
    done
fi
python3 ../tests/reading.py || fail "docs/READING.md and crates.txt differ"
echo "test: passed"
