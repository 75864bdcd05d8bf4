#!/usr/bin/env bash
# Times heads that come a byte a read: bench/bytewise.sh [OPTIONS OF rt run]
#
# The program bench/bytewise/main.rt.txt is proved and built over copies of the crates, under bench/out; what was proved of
# them before is copied too. It prints, as columns: the bytes of a head, how many of them stand one after the other in a
# connection, and the nanoseconds for each byte that reading them takes where each read gives one byte,
# and where each gives as many as were asked for; each the least of several rounds.
set -euo pipefail
top=$(cd "$(dirname "$0")/.." && pwd)
. "$top/bench/below.bash"
work=$top/bench/out/bytewise
lay_out "$work" bytewise_bench anyhow transfer requests
cp "$top/bench/bytewise/main.rt.txt" "$work/crates/bytewise_bench/src/main.rt"
cd "$work/crates/bytewise_bench"
rt run "$@" 2>&1 | grep '^[0-9]*,'
