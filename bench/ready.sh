# Sourced by run.sh, peers.sh and spoil.sh with their own words: goes to this folder and leaves in `out`, the first word or else target/bench, the patterns and
# this machine's own code of c_api. Without the network the larger real patterns are left out.
set -euo pipefail
out=${1:-$(dirname "${BASH_SOURCE[0]}")/../target/bench}
mkdir -p "$out"
out=$(cd "$out" && pwd -P)
cd "$(dirname "${BASH_SOURCE[0]}")"
./jobs.sh "$out"
./fetch_real.sh "$out" || echo "$0: without the larger real patterns" >&2
./own.sh "$out" c_api
