#!/usr/bin/env bash
# Tries ./plan: what it says where, and with which status. usage: tests/plan.sh
# A line for each test; the status is 1 if one fails. Most tests run in a copy of the script with a kit that is a fake: an `rt` that only says it proved
# and a program that only prints what the test wants. They need no kit and prove nothing. The last ones run the true program, if it is built already.
set -uo pipefail
root=$(cd "$(dirname "${BASH_SOURCE[0]}")/.." && pwd -P)
work=$(mktemp -d) || exit 2
trap 'chmod -R u+w "$work"; rm -rf "$work"' EXIT
chmod 755 "$work"
passed=0 failed=0

# ---- The fake kit

checkout=$work/checkout kit=$work/kit
mkdir -p "$checkout/docs" "$kit/bin" "$work/tmp"
cp "$root/plan" "$root/crates.txt" "$checkout"
cp "$root/docs/REFUSALS.md" "$checkout/docs"
chmod 777 "$work/tmp"
cat >"$kit/bin/rt" <<'RT'
#!/usr/bin/env bash
# rt run, in crates/plan: says on standard error the lines of the file `said` beside the kit; `sleep N` waits, `build` leaves the program, and `status N`
# ends. What a true run prints of the program goes to standard output.
kit=$(cd "$(dirname "$0")/.." && pwd -P)
[ "$*" = run ] && [ -f ../../crates.txt ] && [ "$(basename "$PWD")" = plan ] || exit 2
while IFS= read -r line; do
    case $line in
    'sleep '*) sleep "${line#sleep }" ;;
    'status '*) exit "${line#status }" ;;
    'build') cp "$kit/program" out/plan ;;
    'rt: running '*) printf '%s\n' "$line" >&2 && echo 'refused 25 1 0' ;;
    *) printf '%s\n' "$line" >&2 ;;
    esac
done <"$kit/said"
RT
# The program: it prints what the file `answer` has, and keeps the input.
cat >"$kit/program" <<PROGRAM
#!/usr/bin/env bash
kit='$kit'
PROGRAM
cat >>"$kit/program" <<'PROGRAM'
cat >"$kit/input"
cat "$kit/answer"
exit "$(cat "$kit/ends")"
PROGRAM
chmod 755 "$kit/bin/rt" "$kit/program"
: >"$kit/input"
chmod 666 "$kit/input"
echo 0 >"$kit/ends"
runs='rt: running out/plan; to give it other input, run that file yourself'
quiet="rt: nothing has changed since the last proved build, by out/plan.stamp, so nothing is checked now
$runs"

# What rt says of a crate that it proved: its name and how many functions it has.
proved() {
    printf 'rt: chose --jobs 2 for %s\nfn %s::f: proved\nlogic antt-project.json: libraries=16 files=2756 sum=0\n' "$1" "$1"
    printf 'statements std: modules loaded=5 checked=0\ncrate %s: modules loaded=0 checked=40\nlogic=proved functions=%s sum=0\n' "$1" "$2"
}

with_kit=$kit/bin:$PATH
without=$(printf %s "$PATH" | tr : '\n' | while IFS= read -r folder; do [ -x "$folder/rt" ] || printf %s: "$folder"; done)
without=${without%:}
export PATH=$with_kit TMPDIR=$work/tmp
plan=$checkout/plan
crates=$(awk '{ sub(/#.*/, "") } /:/ { i = index($0, ":"); split(substr($0, 1, i - 1), w, " "); uses[w[1]] = substr($0, i + 1) }
    END { want = " plan "; do { was = want; m = split(want, a, " ")
        for (k = 1; k <= m; k++) { c = split(uses[a[k]], b, " ")
            for (j = 1; j <= c; j++) if (b[j] in uses && !index(want, " " b[j] " ")) want = want b[j] " " } } while (want != was)
    print split(want, a, " ") }' "$root/crates.txt")

# ---- Running and judging

# Runs a command with what it is given as standard input; leaves out, err and status.
run() {
    timeout 60 "$@" >"$work/out" 2>"$work/err"
    status=$?
}

# The program will print this, and every crate was proved before.
answers() {
    printf '%s' "$1" >"$kit/answer"
    printf '%s\n' "$quiet" >"$kit/said"
    cp "$kit/program" "$checkout/crates/plan/out/plan"
}

# NAME STATUS OUT ERR: ERR is a pattern for the whole of standard error.
expect() {
    local why='' out err
    out=$(cat "$work/out"; echo .)
    err=$(cat "$work/err"; echo .)
    [ "$status" -eq "$2" ] || why+=" status $status, not $2;"
    [ "$out" = "$3." ] || why+=" standard output is ${out@Q};"
    # shellcheck disable=SC2053 # a pattern
    [[ $err = $4. ]] || why+=" standard error is ${err@Q};"
    [ -z "$(ls -A "$work/tmp")" ] || why+=' a temporary file is left;'
    rm -rf "$work/tmp"/*
    verdict "$1" "$why"
}

verdict() {
    if [ -z "$2" ]; then
        passed=$((passed + 1))
        echo "ok: $1"
    else
        failed=$((failed + 1))
        echo "FAILED: $1:${2%;}"
    fi
}

nl=$'\n'
mkdir -p "$checkout/crates/plan/out"
nine=$root/examples/nine.job
listing=$(cat "$root/crates/plan/stdout")$nl

# ---- Where the text comes from

answers "$listing"
run "$plan" <"$nine"
expect 'standard input; a later run says nothing' 0 "$listing" ''
verdict 'the program reads the text as it is' "$(cmp "$nine" "$kit/input" 2>&1)"
run "$plan" "$nine" </dev/null
expect 'a FILE' 0 "$listing" ''
verdict 'the program reads the FILE as it is' "$(cmp "$nine" "$kit/input" 2>&1)"
run "$plan" - <"$nine"
expect 'FILE - is standard input' 0 "$listing" ''
run "$plan" <(cat "$nine") </dev/null
expect 'FILE is a pipe' 0 "$listing" ''
cp "$nine" "$work/-odd name"
cd "$work" || exit 2
run "$plan" -- '-odd name' </dev/null
expect 'a FILE that begins with a hyphen' 0 "$listing" ''
ln -s "$plan" "$work/link"
ln -s link "$work/link2"
run ./link2 "./-odd name" </dev/null
expect 'through a link to a link, from another folder' 0 "$listing" ''
cd "$checkout/docs" || exit 2
run ../plan <"$nine"
expect 'from a folder below' 0 "$listing" ''
cd / || exit 2
PATH=$work:$PATH run link "$nine"
expect 'by its name on the PATH, from /' 0 "$listing" ''
mkdir "$work/a b"
cp -R "$checkout" "$work/a b/"
run "$work/a b/checkout/plan" "$nine"
expect 'a checkout whose path has a space' 0 "$listing" ''
head -c 9000 /dev/zero | tr '\0' 1 >"$work/long"
run "$plan" "$work/long"
verdict 'of a long text the program sees that it goes on' "$([ "$(wc -c <"$kit/input")" -eq 8193 ] || echo ' it saw something else')"

# ---- Help and calls that are wrong

run "$plan" --help </dev/null
verdict '--help' "$([ "$status" -eq 0 ] && [ ! -s "$work/err" ] && grep -q '^usage: ./plan \[FILE\]$' "$work/out" || echo ' no help')"
PATH=$without run "$plan" -h </dev/null
verdict '-h without the kit' "$([ "$status" -eq 0 ] && [ ! -s "$work/err" ] && grep -q '^usage: ./plan \[FILE\]$' "$work/out" || echo ' no help')"
run "$plan" --fast "$nine"
expect 'an option that there is not' 2 '' 'plan: there is no option --fast; *'"$nl"
run "$plan" "$nine" "$nine"
expect 'two FILEs' 2 '' 'plan: more than one FILE; *'"$nl"
run "$plan" "$work/none"
expect 'no such FILE' 2 '' "plan: there is no file $work/none$nl"
run "$plan" ''
expect 'a FILE without a name' 2 '' "plan: there is no file ''$nl"
run "$plan" "$work"
expect 'a folder as FILE' 2 '' "plan: $work is a folder, not a job text$nl"
run "$plan" <"$work"
expect 'a folder as standard input' 2 '' "plan: standard input is a folder, not a job text$nl"
run "$plan" <&-
expect 'standard input is closed' 2 '' "plan: standard input is closed$nl"
if type -P script >/dev/null; then
    script -qec "'$plan' >'$work/out' 2>'$work/err'" /dev/null </dev/null >/dev/null 2>&1
    status=$?
    expect 'standard input is a terminal' 2 '' 'plan: no job text: standard input is a terminal. *'"$nl"
else
    echo 'not tried, for there is no command script: standard input is a terminal'
fi

# The words before a command that somebody who is not root must run.
nobody=()
[ "$(id -u)" -ne 0 ] || nobody=(setpriv --reuid=65534 --regid=65534 --clear-groups)

cp "$nine" "$work/secret"
chmod 000 "$work/secret"
chmod -R go+rwX "$checkout"
run "${nobody[@]}" "$plan" "$work/secret"
expect 'a FILE that may not be read' 2 '' "plan: $work/secret cannot be read$nl"

# ---- The kit and the checkout

PATH=$without run "$plan" "$nine"
expect 'no kit' 2 '' 'plan: the kit is not here: there is no command rt on the PATH*'"$nl"
chmod -R a-w "$checkout"
run "${nobody[@]}" "$plan" "$nine"
expect 'a checkout that cannot be written, built' 2 '' "plan: $checkout/crates/*/out cannot be written, *$nl"
chmod -R u+w "$checkout"
rm -rf "$checkout/crates"
chmod a-w "$checkout"
run "${nobody[@]}" "$plan" "$nine"
expect 'a checkout that cannot be written, fresh' 2 '' "plan: $checkout/crates/*/out cannot be written, *$nl"
chmod u+w "$checkout"
mkdir -p "$checkout/crates/plan"
: >"$checkout/crates/plan/out"
run "$plan" "$nine"
expect 'out is a file' 2 '' "plan: $checkout/crates/plan/out cannot be written, *$nl"
rm "$checkout/crates/plan/out"
TMPDIR=$work/none run "$plan" "$nine"
expect 'no temporary folder' 2 '' "plan: no temporary folder can be made in $work/none$nl"

# ---- The first run

# What order_laws uses was built before, but for papers and list_laws: rt says nothing of it.
{
    printf 'statements std: modules loaded=0 checked=0\nonly=0 proved=0\n'
    proved papers 0
    echo 'sleep 1.2'
    proved list_laws 0
    proved order_laws 0
    echo 'sleep 1.2'
    proved plan 3
    echo 'linked target=x86_64-unknown-linux-gnu loader=/lib64/ld-linux-x86-64.so.2 files=out/plan.o'
    echo 'build'
    echo "$runs"
} >"$kit/said"
printf %s "$listing" >"$kit/answer"
cp "$kit/said" "$work/first"
rm -rf "$checkout/crates"
run "$plan" "$nine"
p='plan: proving the listing program:' q="of $crates crates proved after [0-9] s (the first run takes about * minutes)$nl"
expect 'the first run says how far it is, line by line' 0 "$listing" "$p 0 $q$p 1 $q*$p 4 $q*$p $crates $q"
verdict 'no control character if standard error is no terminal' "$(tr -d '\n' <"$work/err" | grep -q '[[:cntrl:]]' && echo ' there is one')"
if type -P script >/dev/null; then
    rm -rf "$checkout/crates"
    TERM=xterm script -qec "'$plan' '$nine' >'$work/out'" /dev/null </dev/null >"$work/screen" 2>&1
    status=$?
    : >"$work/err"
    expect 'the first run on a terminal' 0 "$listing" ''
    lines=$(wc -l <"$work/screen") refreshed=$(tr '\r' '\n' <"$work/screen" | grep -c "^plan: proving the listing program: [0-9]* of $crates crates")
    verdict 'on a terminal it is one line, written over' "$([ "$lines" -eq 1 ] && [ "$refreshed" -gt 4 ] || echo " $lines lines, written $refreshed times")"
else
    echo 'not tried, for there is no command script: the first run on a terminal'
fi
answers "$listing"
{
    proved plan 3
    echo "$runs"
} >"$kit/said"
run "$plan" "$nine"
expect 'a run after an edit says it too' 0 "$listing" "$p $crates $q"
{
    proved papers 0
    echo 'rt: chose --jobs 2 for list_laws'
    echo 'crates/list_laws/src/lib.rt:1:1: error'
    echo 'fn list_laws::f: not proved'
    echo 'fn list_laws::g: proved'
    printf 'statements std: modules loaded=5 checked=0\ncrate list_laws: modules loaded=0 checked=40\nlogic=not-proved\n'
    echo 'rattle build: nothing was built, since only a proved crate is built'
    echo 'rt: the library list_laws did not build, so nothing above it was checked'
    echo 'status 1'
} >"$kit/said"
run "$plan" "$nine"
faults="crates/list_laws/src/lib.rt:1:1: error${nl}fn list_laws::f: not proved${nl}rattle build: *${nl}rt: the library list_laws did not build, *$nl"
expect 'a crate that is not proved' 2 '' "$p 1 $q${faults}plan: the program is not run: *status 1)$nl"
printf 'rt: no toolchain for this machine\nstatus 2\n' >"$kit/said"
run "$plan" "$nine"
expect 'a kit that fails' 2 '' "rt: no toolchain for this machine${nl}plan: the program is not run: *status 2)$nl"
printf '%s\nstatus 3\n' "$quiet" >"$kit/said"
run "$plan" "$nine"
expect 'the program is proved and built, however it ends on no text' 0 "$listing" ''
answers ''
run "$plan" "$nine"
expect 'a program without an answer' 2 '' "plan: the program ended with status 0, and without an answer to rely on$nl"
answers "$listing"
echo 139 >"$kit/ends"
run "$plan" "$nine"
expect 'a program that breaks' 2 '' "plan: the program ended with status 139, and without an answer to rely on$nl"
echo 0 >"$kit/ends"

# ---- Standard output that cannot be written

answers "$listing"
if [ -c /dev/full ]; then
    timeout 60 "$plan" "$nine" >/dev/full 2>"$work/err"
    status=$?
    : >"$work/out"
    expect 'a full disk' 1 '' "plan: standard output cannot be written to the end$nl"
    timeout 60 "$plan" --help >/dev/full 2>"$work/err"
    status=$?
    expect 'a full disk, --help' 1 '' "plan: standard output cannot be written to the end$nl"
fi
mkfifo "$work/fifo"
exec 8<>"$work/fifo"
exec 9>"$work/fifo" 8<&-
timeout 60 "$plan" "$nine" >&9 2>"$work/err"
status=$?
exec 9>&-
: >"$work/out"
expect 'a closed pipe' 1 '' "plan: standard output cannot be written to the end$nl"
timeout 60 "$plan" "$nine" >&- 2>"$work/err"
status=$?
expect 'standard output is closed' 1 '' "plan: standard output is closed$nl"

# ---- Refusals in words

# NAME TEXT ANSWER WORDS: TEXT with escapes as printf has them.
refusal() {
    answers "$3$nl"
    # shellcheck disable=SC2059 # the escapes
    printf "$2" >"$work/text"
    run "$plan" "$work/text"
    expect "$1" 1 "$3$nl" "plan: refused $4$nl"
}

refusal 'words for 2' '1 5 3\n0\n' 'refused 2 0 0' '2: the sibling mark is not 0, 1 or 2; choose a mark'
refusal 'words for 3' '1 9999999999999\n0\n' 'refused 3 0 0' '3: the room limit is above 2^40; lower it: *'
refusal 'words for 5' '2 5\n1 1\n0\n' 'refused 5 1 0' '5 (column 1, line 2): a row is at or above the diagonal *; hand over only rows *'
refusal 'words for 6' '3 100\n2 3 2\n0\n0\n' 'refused 6 1 0' '6 (column 1, line 2): a row is not greater than the row before it in its column; sort *'
refusal 'words for 8' '1 5\n0\n' 'refused 8 0 4200' '8 (needs 4200 rows): more than 4,096 factor rows; use the library instead of the program'
refusal 'words for 9' '4 1\n1 4\n1 4\n1 4\n0\n' 'refused 9 0 13' "9 (needs 13): the peak is above the job's limit; raise the limit, or try another mark"
refusal 'words for 25' '1 5\nx\n' 'refused 25 2 0' '25 (line 2): a line is missing, has no newline, or is not decimals *; mend the line'
refusal 'CR LF' '1 5\r\n0\r\n' 'refused 25 1 0' '25 (line 1): line 1 ends in CR LF; write LF alone'
refusal 'CR LF further down' '1 5\n0\r\n' 'refused 25 2 0' '25 (line 2): line 2 ends in CR LF; write LF alone'
refusal 'no newline at the end' '1 5\n0' 'refused 25 2 0' '25 (line 2): line 2 has no newline at its end; add one'
refusal 'no newline at the end of line 1' '0 5' 'refused 25 1 0' '25 (line 1): line 1 has no newline at its end; add one'
refusal 'an empty text' '' 'refused 25 1 0' '25 (line 1): the text is empty'
refusal 'a line is missing' '2 5\n0\n' 'refused 25 3 0' '25 (line 3): line 3 is missing: the text ends after line 2'
refusal 'a line too many' '1 5\n0\n0\n' 'refused 25 3 0' '25 (line 3): line 3 is one too many: the first line and one for each of 1 columns make 2'
refusal 'a line too many, without a newline' '1 5\n0\n0' 'refused 25 3 0' '25 (line 3): line 3 is one too many: *'
refusal 'a byte order mark' '\xef\xbb\xbf1 5\n0\n' 'refused 25 1 0' '25 (line 1): line 1 begins with a byte order mark; leave it out'
refusal 'an empty line' '1 5\n\n' 'refused 25 2 0' '25 (line 2): line 2 is empty'
refusal 'a tab' '1\t5\n0\n' 'refused 25 1 0' '25 (line 1): line 1 has a tab; *'
refusal 'a space too many' '1 5 \n0\n' 'refused 25 1 0' '25 (line 1): line 1 has a space too many; *'
refusal 'a line that miscounts' '3 5\n1 2 3\n0\n0\n' 'refused 25 2 0' '25 (line 2): line 2 says 1 rows and lists 2'
refusal 'a first line of one number' '3\n' 'refused 25 1 0' '25 (line 1): line 1 has 1 numbers; *'
refusal 'a zero byte' '1 5\n0\0\n' 'refused 25 2 0' '25 (line 2): a line is missing, *'
refusal 'a zero byte at the end' '1 5\n0\n\0' 'refused 25 3 0' '25 (line 3): line 3 is one too many: *'
refusal 'more than 8,192 bytes' "$(printf '%8200s' '')" 'refused 26 0 0' '26: more than 8,192 bytes of text; use the library instead of the program'
refusal 'more than 256 columns' '257 5\n' 'refused 26 1 0' '26 (line 1): more than 256 columns; use the library instead of the program'
refusal 'more than 2,048 pattern rows' '256 5\n' 'refused 26 20 0' '26 (line 20): more than 2,048 pattern rows up to this line; use the library instead of the program'
refusal 'a number without words' '1 5\n0\n' 'refused 99 3 4' '99: place 3, count 4; docs/REFUSALS.md *'
mv "$checkout/docs/REFUSALS.md" "$work"
refusal 'no table of words' '1 5\n0\r\n' 'refused 25 2 0' '25*: line 2 ends in CR LF; write LF alone'
mv "$work/REFUSALS.md" "$checkout/docs"
answers "refused 9 0 13$nl"
if [ -c /dev/full ]; then
    timeout 60 "$plan" "$nine" >/dev/full 2>"$work/err"
    status=$?
    : >"$work/out"
    expect 'a refusal that cannot be written' 1 '' "plan: standard output cannot be written to the end$nl"
fi

# ---- The true program

export PATH=${PATH#"$kit/bin:"}
if type -P rt >/dev/null && [ -e "$root/crates/plan/out/plan" ] && [ -w "$root/crates/plan/out" ]; then
    plan=$root/plan
    answers() { :; }
    run "$plan" "$nine"
    expect 'the program: nine columns' 0 "$listing" ''
    run "$plan" <"$root/examples/empty.job"
    expect 'the program: no column' 0 "plan 0 0 0$nl" ''
    refusal 'the program: 2' '1 5 3\n0\n' 'refused 2 0 0' '2: *'
    refusal 'the program: 3' '1 9999999999999\n0\n' 'refused 3 0 0' '3: *'
    refusal 'the program: 5' '2 5\n1 1\n0\n' 'refused 5 1 0' '5 (column 1, line 2): *'
    refusal 'the program: 6' '3 100\n2 3 2\n0\n0\n' 'refused 6 1 0' '6 (column 1, line 2): *'
    arrow=$(echo '120 1000000'; echo 119 $(seq 2 120); for ((j = 2; j <= 120; j++)); do echo 0; done)
    refusal 'the program: 8' "$arrow$nl" 'refused 8 0 7140' '8 (needs 7140 rows): *'
    refusal 'the program: 9' '4 1\n1 4\n1 4\n1 4\n0\n' 'refused 9 0 5' '9 (needs 5): *'
    refusal 'the program: CR LF' '1 5\r\n0\r\n' 'refused 25 1 0' '25 (line 1): line 1 ends in CR LF; write LF alone'
    refusal 'the program: no newline at the end' '1 5\n0' 'refused 25 2 0' '25 (line 2): line 2 has no newline at its end; add one'
    refusal 'the program: a line is missing' '2 5\n0\n' 'refused 25 3 0' '25 (line 3): line 3 is missing: *'
    refusal 'the program: a line too many' '1 5\n0\n0\n' 'refused 25 3 0' '25 (line 3): line 3 is one too many: *'
    refusal 'the program: a zero byte' '1 5\n0\0\n' 'refused 25 2 0' '25 (line 2): *'
    refusal 'the program: an empty text' '' 'refused 25 1 0' '25 (line 1): the text is empty'
    refusal 'the program: a line that miscounts' '3 5\n1 2 3\n0\n0\n' 'refused 25 2 0' '25 (line 2): line 2 says 1 rows and lists 2'
    refusal 'the program: more than 8,192 bytes' "$(printf '%8200s' '')" 'refused 26 0 0' '26: more than 8,192 bytes *'
    refusal 'the program: more than 256 columns' '257 5\n' 'refused 26 1 0' '26 (line 1): more than 256 columns; *'
else
    echo 'not tried, for it is not built here (./plan examples/nine.job builds it): the true program'
fi

echo "$passed passed, $failed failed"
[ "$failed" -eq 0 ]
