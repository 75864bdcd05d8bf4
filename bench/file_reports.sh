#!/usr/bin/env bash
# Makes the program `file_reports`, which prints a report from files, and prints where it is: bench/file_reports.sh [OPTIONS OF rt run]
#
#   file_reports err|missing|chain ZONE.csv RECEIVED.csv CATEGORIES.csv NAME SYSMOD FILE..
#
# The program bench/file_reports/main.rt.txt is proved and built over copies of the crates, under bench/out; what was proved of
# them before is copied too.
set -euo pipefail
top=$(cd "$(dirname "$0")/.." && pwd)
. "$top/bench/below.bash"
work=$top/bench/out/file_reports
lay_out "$work" from_files anyhow file_reports mcs_reader
cp "$top/bench/file_reports/main.rt.txt" "$work/crates/from_files/src/main.rt"
cd "$work/crates/from_files"
# It is run without words, so it ends with an error: whether it was built is seen by its file.
rm -f out/from_files
rt run "$@" > "$work/built" 2>&1 || [ -x out/from_files ] || { cat "$work/built"; exit 1; }
echo "$work/crates/from_files/out/from_files"
