#!/bin/sh
# Times the merging of 64 files of together about 110 MB, from any folder:
#     bench/shards.sh
# The files hold eight Takes of numbers of 12 digits and more, and are named in no order. It prints the best time of
# five, its processor time and the highest peak of memory, beside the goals, and ends with 1 where the output is wrong.
# The program is RDF_SHARD_PROGRAM, or crates/rdf_shard/out/rdf_shard.
set -u
top=$(cd "$(dirname "$0")/.." && pwd -P) || exit 1
RDF_SHARD_PROGRAM=${RDF_SHARD_PROGRAM:-$top/crates/rdf_shard/out/rdf_shard}
export RDF_SHARD_PROGRAM
exec python3 -B "$top/bench/shards.py" "$@"
