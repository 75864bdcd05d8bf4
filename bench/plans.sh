#!/usr/bin/env bash
# Times the plan for the exception SYSMOD report: bench/plans.sh
# Columns: installed SYSMODs, those with a hold, members of the plan, bytes of its text, microseconds for rows and text of the
# report, for the plan, and for its members, text and JSON; the least of five.
set -euo pipefail
top=$(cd "$(dirname "$0")/.." && pwd)
. "$top/bench/below.bash"
work=$(mktemp -d)
trap 'rm -rf "$work"' EXIT
lay_out "$work" plan_bench anyhow questions mcs_reader holddata zone_lists catalogue supersede chains chain_cache reports zone_plans plan_reports
cp "$top/bench/plans/main.rt.txt" "$work/crates/plan_bench/src/main.rt"
cd "$work/crates/plan_bench"
rt run 2>&1 | grep '^[0-9]*,'
