#!/usr/bin/env bash
# Runs the tests of `connections` and of `socket_desk` in tests/connections: tests/connections.sh
#
# They are built over copies of the crates and run; nothing is proved of them. To prove them would take a quarter of an hour of one core.
# The last line counts them.
set -euo pipefail
top=$(cd "$(dirname "$0")/.." && pwd)
. "$top/bench/below.bash"
work=$(mktemp -d)
trap 'rm -rf "$work"' EXIT
lay_out "$work" connection_tests testing connections socket_desk requests bureau bureau_store failing_store chains faults
mkdir -p "$work/crates/connection_tests/src/tests"
for file in lib tests tests/clients tests/listed tests/side_by_side; do
    cp "$top/tests/connections/$file.rt.txt" "$work/crates/connection_tests/src/$file.rt"
done
cd "$work/crates/connection_tests"
status=0
rt try --test >"$work/said" 2>&1 || status=$?
cat "$work/said"
sed -nE 's/^test result: [^.]*\. ([0-9]+) passed; ([0-9]+) failed;.*/\1 passed, \2 failed/p' "$work/said"
exit "$status"
