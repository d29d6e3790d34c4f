#!/bin/sh
# Times a skim from any folder:
#     bench/skim.sh [ENTRIES] [SLOTS..]
# ENTRIES is 1000000, SLOTS are 1 and 4. Of the generator's table it keeps half of the entries and three columns, one of
# them of vectors: by rdf_snapshot with so many slots, beside a Count under the same filter by rdf, and the same skim by
# mawk and by Miller where they are installed, five times each. It prints the best time, the processor time of that run
# and the highest peak of memory, then ratios beside the goals. The skims are compared byte by byte, and rdf counts in
# each what it counted before. Where one differs it ends with 1; a missed goal is only told. The programs are RDF_PROGRAM
# and RDF_SNAPSHOT_PROGRAM, or those that ./rdf and ./rdf snapshot run.
set -u
top=$(cd "$(dirname "$0")/.." && pwd -P) || exit 1
RDF_PROGRAM=${RDF_PROGRAM:-$("$top/rdf" --program)} || exit 1
RDF_SNAPSHOT_PROGRAM=${RDF_SNAPSHOT_PROGRAM:-$("$top/rdf" snapshot --program)} || exit 1
export RDF_PROGRAM RDF_SNAPSHOT_PROGRAM
exec python3 -B "$top/bench/skim.py" "$@"
