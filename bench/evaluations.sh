#!/bin/sh
# Counts evaluations from outside, through the functions that the program hands in, from any folder:
#     bench/evaluations.sh [ENTRIES] [CLUSTER..]
# ENTRIES is 2500; CLUSTERs are sizes of clusters, 10000, 1024, 1000 and 1. Scripts whose columns call `square` once run under callgrind
# (Debian: apt-get install valgrind) with one slot, which tells how often it was called. Each pair of a column and a variation is due at
# each entry that demands it, and may be evaluated twice; behind a fault up to the end of its block. Ends with 1 where a count is another.
# The program is RDF_PROGRAM, or crates/rdf/out/rdf; it needs its symbols, which a released one has no more.
set -u
top=$(cd "$(dirname "$0")/.." && pwd -P) || exit 1
command -v valgrind >/dev/null || {
    echo "evaluations.sh: it needs valgrind" >&2
    exit 1
}
exec python3 -B "$top/bench/evaluations.py" "$@"
