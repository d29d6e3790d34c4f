#!/bin/sh
# Counts the instructions that a loop takes for an entry, from any folder:
#     bench/loop_instructions.sh [ENTRIES] [CLUSTER..]
# ENTRIES is 100000; CLUSTERs are sizes of clusters, 10000 and 1. It runs the generator's analysis (bench/generated.txt), bench/loops.txt
# and a script that books nothing under callgrind (Debian: apt-get install valgrind) with one slot, takes what the last one takes from
# the others, and prints instructions for each entry beside the goals. Counts are the same in each run, whatever else the machine does.
# The program is RDF_PROGRAM, or the one that ./rdf runs; RDF_BEFORE, where it is given, is counted beside it.
set -u
top=$(cd "$(dirname "$0")/.." && pwd -P) || exit 1
command -v valgrind >/dev/null || {
    echo "loop_instructions.sh: it needs valgrind" >&2
    exit 1
}
RDF_PROGRAM=${RDF_PROGRAM:-$("$top/rdf" --program)} || exit 1
export RDF_PROGRAM
exec python3 -B "$top/bench/loop_instructions.py" "$@"
