#!/bin/sh
# Runs a script over a chain of tables under Snakemake (Debian package snakemake), and prints what `rdf chain run` prints,
# with its status:
#     tools/farm/snakemake.sh [OPTIONS] SCRIPT TABLE..
# What is run stands in tools/farm/Snakefile, and docs/FARM.md tells more. A step that ends otherwise than with 0 is tried
# again, and after its last try no other step begins: then the recipe ends with the step's status, and standard error
# names the step and has the program's line.
set -u
farm=$(cd "$(dirname "$0")" && pwd -P) || exit 70
. "$farm/words.sh"
read_words "$@"
command -v snakemake >/dev/null || { say "there is no snakemake (Debian package snakemake)"; exit 70; }
! grep -q '[{}]' "$run/tables" || { say "Snakemake takes no table with { or } in its name"; exit 2; }

RDF_FARM_FAILED=$run/failed
export RDF_FARM_FAILED
# Parts are named after what they are of, and are there as wholes: they need no lock, and no look at their age.
run_engine snakemake --snakefile "$farm/Snakefile" --directory "$work" --cores "${jobs:-$(nproc)}" \
    --retries $((tries - 1)) --nolock --rerun-incomplete --rerun-triggers mtime \
    --config "script=$script" "tables=$run/tables" "group=$group" "slots=$slots" >&2 || {
    [ -f "$run/failed" ] || echo 70 >"$run/failed"
    exit "$(cat "$run/failed")"
}
cat "$work/output.txt"
exit "$(cat "$work/status")"
