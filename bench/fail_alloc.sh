#!/bin/sh
# Refuses each request for memory of a run in turn, a thread's start too, and then each one from there on:
#     bench/fail_alloc.sh [TEXT..]
# It runs the three analyses of examples/, or each case of cases/ and examples/ whose title holds one of the texts
# (':' names all), with one slot and with several where the case has such a run. Each run must end with status 1 and no
# output, or with the status and the output that are due to the case. It ends with 1 where one doesn't.
# The program is RDF_PROGRAM, or crates/rdf/out/rdf. It needs a C compiler, cc or CC, and the C library of GNU.
set -u
top=$(cd "$(dirname "$0")/.." && pwd -P) || exit 1
folder=$(mktemp -d) || exit 1
trap 'rm -rf "$folder"' EXIT
"${CC:-cc}" -O2 -Wall -shared -fPIC -o "$folder/fail_alloc.so" "$top/bench/fail_alloc.c" -ldl || exit 1
python3 -B "$top/bench/fail_alloc.py" "$folder/fail_alloc.so" "$@"
