#!/usr/bin/env bash
# Makes the program `desks`, which does what `bureau replay` does over lists, and prints where it is: bench/desks.sh [OPTIONS OF rt run]
#
#   desks whole|FRAMES CALLERS FILE..
#
# It judges by `Whole` or from a cache with room for so many frames. load.py, refusals.py and fuzz.py take it by `--lists`, since
# the bureau's own program keeps no store in lists. The program bench/desks/main.rt.txt is proved and built over copies of the
# crates, under bench/out; what was proved of them before is copied too.
set -euo pipefail
top=$(cd "$(dirname "$0")/.." && pwd)
. "$top/bench/below.bash"
work=$top/bench/out/desks
lay_out "$work" desks faults transfer chains chain_cache bureau_http
cp "$top/bench/desks/main.rt.txt" "$work/crates/desks/src/main.rt"
cd "$work/crates/desks"
# It is run without words, so it ends with 2: whether it was built is seen by its file.
rm -f out/desks
rt run "$@" > "$work/built" 2>&1 || [ -x out/desks ] || { cat "$work/built"; exit 1; }
echo "$work/crates/desks/out/desks"
