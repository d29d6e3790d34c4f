#!/bin/sh
# Times the loop of a script of 20 results by itself, from any folder:
#     bench/loops.sh [ENTRIES] [SLOTS..]
# ENTRIES is 1000000, SLOTS are 1 and 4. It runs bench/loops.txt and a script that books nothing over the generator's
# table, five times each with so many slots, and takes the best time of the second, which is the reading, from the best
# of the first. It prints both, the loops, and the ratio to the first number of slots; it ends with 1 where outputs
# differ. The program is RDF_PROGRAM, or the one that ./rdf runs.
set -u
top=$(cd "$(dirname "$0")/.." && pwd -P) || exit 1
RDF_PROGRAM=${RDF_PROGRAM:-$("$top/rdf" --program)} || exit 1
export RDF_PROGRAM
exec python3 -B "$top/bench/loops.py" "$@"
