#!/bin/sh
# Count and two Sums over the generator's table of 1,000,000 entries, by rdf and by mawk, five times each.
# It needs mawk and GNU time (Debian: apt-get install mawk time), and takes about half a minute.
# The program is RDF_PROGRAM, or the one that ./rdf runs.
set -eu

bench=$(cd "$(dirname "$0")" && pwd -P)
program=${RDF_PROGRAM:-$("$bench/../rdf" --program)}
case $program in /*) ;; *) program=$PWD/$program ;; esac
work=$(mktemp -d)
trap 'rm -rf "$work"' EXIT

awk -v n=1000000 -v seed=7 -f "$bench/make_table.awk" >"$work/table.csv"
cp "$bench/count_and_sums.txt" "$work/script.txt"
cd "$work"
"$program" script.txt table.csv >rdf.out
mawk -f "$bench/count_and_sums.awk" table.csv >mawk.out
cmp rdf.out mawk.out
ls -l table.csv | awk '{ print "table: " $5 " bytes" }'
for turn in 1 2 3 4 5; do
    /usr/bin/time -f "rdf  %e s, of which %U s user and %S s system, %M KB at its peak" "$program" script.txt table.csv >/dev/null
    /usr/bin/time -f "mawk %e s, of which %U s user and %S s system, %M KB at its peak" mawk -f "$bench/count_and_sums.awk" table.csv >/dev/null
done
