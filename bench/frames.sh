#!/usr/bin/env bash
# Times frames and the cache of them: bench/frames.sh
#
# The program bench/frames/main.rt.txt is proved and built over copies of the crates, under bench/out; what was proved of
# them before is copied too. It prints three tables, each with its heads: chains, reports, and publications over a full
# cache; nanoseconds, the least of several rounds.
set -euo pipefail
top=$(cd "$(dirname "$0")/.." && pwd)
. "$top/bench/below.bash"
work=$top/bench/out/frames
lay_out "$work" frame_bench anyhow mcs_reader zone_lists catalogue supersede chains chain_cache
cp "$top/bench/frames/main.rt.txt" "$work/crates/frame_bench/src/main.rt"
cd "$work/crates/frame_bench"
rt run > "$work/built" 2>&1 || { cat "$work/built"; exit 1; }
out/frame_bench
