#!/bin/sh
# Times a script over a chain of tables, from any folder:
#     bench/chains.sh [ENTRIES] [TABLES]
# ENTRIES of each table are 1000000, TABLES 20. It runs bench/generated.txt by `rdf` over the first table and by
# `rdf_chain run` over all of them, with four slots each; by tools/farm/dask_chain.py with 1, 2 and 4 workers, whose
# scheduler is there before; and by the three recipes with four steps at once, as a user calls them; three times each.
# It prints the best times and the highest peaks beside the goals, and ends with 1 where outputs differ. Engines that
# aren't there (Debian packages python3-distributed, parallel and snakemake) are left out. The programs are RDF_PROGRAM
# and RDF_CHAIN, or those that ./rdf runs. The tables take about 22 bytes an entry in TMPDIR.
set -u
top=$(cd "$(dirname "$0")/.." && pwd -P) || exit 1
RDF_PROGRAM=${RDF_PROGRAM:-$("$top/rdf" --program)} || exit 1
RDF_CHAIN=${RDF_CHAIN:-$("$top/rdf" chain --program)} || exit 1
export RDF_PROGRAM RDF_CHAIN
exec python3 -B "$top/bench/chains.py" "$@"
