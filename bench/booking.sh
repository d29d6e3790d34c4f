#!/bin/sh
# The whole time of a script of 256 statements, over a table of 64 columns, 128 variations and no entries:
#     bench/booking.sh [TURNS] [ENTRIES]
# TURNS is 20. It prints the best and the middle time. No loop has anything to do, so this is reading, checking and
# booking, and the start of the program. With ENTRIES the table has so many random ones: then it is the loop that is
# timed, by one slot, and what four slots print is compared. The program is RDF_PROGRAM, or crates/rdf/out/rdf.
set -u
top=$(cd "$(dirname "$0")/.." && pwd -P) || exit 1
exec python3 -B "$top/bench/booking.py" "$@"
