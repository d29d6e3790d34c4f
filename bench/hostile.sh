#!/bin/sh
# Runs the built program over mutated scripts, tables and friends of examples/ and cases/:
#     bench/hostile.sh [COUNT] [SEED] [JOBS]
# COUNT is 10000, SEED 1, JOBS (runs side by side) as many as there are processors. The program is
# RDF_PROGRAM, or crates/rdf/out/rdf. It reports each run with a status outside 0 to 9, with output
# that doesn't go with its status, or of more than 10 s, and ends with 1 where there is one.
set -u
top=$(cd "$(dirname "$0")/.." && pwd -P) || exit 1
exec python3 -B "$top/bench/hostile.py" "$@"
