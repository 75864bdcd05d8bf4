#!/usr/bin/env bash
# Times verdicts over the whole catalogue: bench/verdicts.sh
#
# The program bench/verdicts/main.rt.txt is proved and built over copies of the crates, under bench/out; what was proved of
# them before is copied too. It prints, as columns: the shape, how many SYSMODs, the verdict, microseconds to read the
# record, the superseders and the holds of each once, microseconds for one verdict; each the least of several rounds.
set -euo pipefail
top=$(cd "$(dirname "$0")/.." && pwd)
. "$top/bench/below.bash"
work=$top/bench/out/verdicts
lay_out "$work" verdict_bench anyhow mcs_reader zone_lists catalogue supersede chains
cp "$top/bench/verdicts/main.rt.txt" "$work/crates/verdict_bench/src/main.rt"
cd "$work/crates/verdict_bench"
rt run 2>&1 | grep ','
