#!/bin/sh
# Races rdf against a program that is written by hand for the generator's analysis, from any folder:
#     bench/by_hand.sh [ENTRIES] [SLOTS..]
# ENTRIES is 1000000, SLOTS are 1 and 4. It builds bench/by_hand with cargo (Debian: apt-get install librust-csv-dev),
# makes the generator's table, and runs over the same files, five times each: by_hand with so many threads, rdf with so
# many slots, and the same analysis by mawk and by Miller where they are installed. It prints the best time, the
# processor time of that run and the highest peak of memory, then ratios beside the goals. Where an output differs it
# ends with 1; a missed goal is only told. The program is RDF_PROGRAM, or the one that ./rdf runs.
set -u
top=$(cd "$(dirname "$0")/.." && pwd -P) || exit 1
# cargo looks for its settings in the folder where it is called
(cd "$top/bench/by_hand" && CARGO_TARGET_DIR=target cargo build --quiet --release --offline) || {
    echo "by_hand.sh: bench/by_hand can't be built; it needs cargo and Debian's librust-csv-dev" >&2
    exit 1
}
RDF_PROGRAM=${RDF_PROGRAM:-$("$top/rdf" --program)} || exit 1
export RDF_PROGRAM
exec python3 -B "$top/bench/by_hand.py" "$@"
