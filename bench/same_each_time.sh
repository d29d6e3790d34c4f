#!/bin/sh
# Runs one script many times with many slots and asks that its output is the same each time, from any folder:
#     bench/same_each_time.sh [RUNS] [SLOTS] [CLUSTER] [ENTRIES]
# They are 1000, 16, 1000 and 100000. The table is made here, so that no two clusters are alike. Each output is compared
# with that of one slot, its partial lines left out, which may name other clusters at each run; their number is compared.
# A second script faults in most clusters: its status and fault line are the same each time too. It prints how many runs
# differ and in how many ways the partial lines came, and ends with 1 where a run differs.
# The program is RDF_PROGRAM, or the one that ./rdf runs.
set -u
top=$(cd "$(dirname "$0")/.." && pwd -P) || exit 1
RDF_PROGRAM=${RDF_PROGRAM:-$("$top/rdf" --program)} || exit 1
export RDF_PROGRAM
exec python3 -B "$top/bench/same_each_time.py" "$@"
