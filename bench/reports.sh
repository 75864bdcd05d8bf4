#!/usr/bin/env bash
# Times the exception SYSMOD report: bench/reports.sh
# Columns: installed SYSMODs with a hold each, bytes of the report, microseconds for one verdict, microseconds for rows and text;
# the least of seven.
set -euo pipefail
top=$(cd "$(dirname "$0")/.." && pwd)
. "$top/bench/below.bash"
work=$(mktemp -d)
trap 'rm -rf "$work"' EXIT
lay_out "$work" report_bench anyhow mcs_reader holddata zone_lists catalogue supersede chains reports
cp "$top/bench/reports/main.rt.txt" "$work/crates/report_bench/src/main.rt"
cd "$work/crates/report_bench"
rt run 2>&1 | grep '^[0-9]*,'
