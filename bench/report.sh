#!/bin/sh
# bench/report.sh: the program `report` on 25, 50, 100 and 200 jobs of 62 assets, of 250 names in all, from its start to its end. A line 'report JOBS BYTES LEAST-ms MEDIAN-ms' for
# each, of 21 runs, and one for no job at all, which is what it takes to start. x86-64 alone, as the kit is. Needs rt and python3.
set -eu
root=$(cd "$(dirname "$0")/.." && pwd -P)
[ "$(uname -m)" = x86_64 ] || { echo "bench/report.sh: no x86-64 here, so the report is not timed" >&2; exit 0; }
"$root/bin/report" </dev/null >/dev/null
exec python3 "$root/bench/report.py" "$root/crates/report/out/report"
