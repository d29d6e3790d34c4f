#!/bin/sh
# Runs a script over a chain of tables under GNU parallel (Debian package parallel), and prints what `rdf chain run`
# prints, with its status:
#     tools/farm/parallel.sh [OPTIONS] SCRIPT TABLE..
# Each table is a step of its own. Parts are joined in groups, and groups of groups, until one is left. docs/FARM.md
# tells more. A step that ends otherwise than with 0 is tried again, and after its last try no other step begins: then
# the recipe ends with the step's status, and standard error names the step and has the program's line.
set -u
farm=$(cd "$(dirname "$0")" && pwd -P) || exit 70
. "$farm/words.sh"

hosts=
more_usage() { echo "  --hosts FILE    machines as for parallel's --sshloginfile; the folders are the same on each" >&2; }
more_option() { # NAME WORD
    [ "$1" = --hosts ] && [ -f "$2" ] && hosts=$2
}
read_words "$@"
command -v parallel >/dev/null || { say "there is no parallel (Debian package parallel)"; exit 70; }
# Without a SHELL, as in a batch job, parallel takes what other machines were to run as done.
PARALLEL_SHELL=/bin/sh
export PARALLEL_SHELL
# Of other machines parallel knows the processors, or FILE tells their number.
[ -n "$jobs" ] || [ -z "$hosts" ] || jobs=100%

# A part is named after its table as it is now, so that a changed one has another part.
name_of_part() { # NUMBER TABLE
    state=$(stat -L -c '%d %i %s %.9Y' -- "$2") || exit 5
    key=$(echo "$script_sum $state" | sha256sum | cut -c 1-16)
    printf '%s\n' "$work/map-$1-${2##*/}-$key.part"
}

# Runs a step for each line of FILE: its columns are the part, its number, its table or list, and the script.
do_steps() { # FILE WORDS..
    steps=$1
    shift
    set -- --colsep "$tab" -a "$steps" -q "$farm/step.sh" "$@"
    [ -z "$hosts" ] || set -- --sshloginfile "$hosts" --env RDF_CHAIN "$@"
    [ ! -t 2 ] || set -- --bar "$@"
    run_engine parallel --jobs "${jobs:-$(nproc)}" --retries "$tries" --halt soon,fail=1 --keep-order "$@" || exit $?
}

map_all() {
    script_sum=$(sha256sum <"$script" | cut -d ' ' -f 1)
    number=0
    while IFS= read -r table; do
        part=$(name_of_part $number "$table") || exit $?
        printf '%s\n' "$part" >>"$run/parts"
        printf '%s\t%s\t%s\t%s\n' "$part" $number "$table" "$script" >>"$run/maps"
        number=$((number + 1))
    done <"$run/tables"
    do_steps "$run/maps" {1} map {4} {2} {3} --slots "$slots"
}

# Joins each group of the parts in `$run/parts`, which hold so many files each, and leaves the joined ones there. The last
# may be alone, and is left as it is.
join_groups() { # FILES
    rm -f "$run"/list-*
    split -l "$group" -d -a 6 "$run/parts" "$run/list-" || exit 4
    : >"$run/joins"
    : >"$run/parts"
    first=0
    for list in "$run"/list-*; do
        last=$((first + group * $1 < count ? first + group * $1 : count))
        part=$work/join-$first-$((last - 1))-$(sha256sum <"$list" | cut -c 1-16).part
        if [ "$(wc -l <"$list")" -eq 1 ]; then
            part=$(cat "$list")
        else
            printf '%s\t%s\t%s\t%s\n' "$part" - "$list" "$script" >>"$run/joins"
        fi
        printf '%s\n' "$part" >>"$run/parts"
        first=$last
    done
    do_steps "$run/joins" {1} join {4} @{3}
}

map_all
files=1
while [ "$(wc -l <"$run/parts")" -gt 1 ]; do
    join_groups $files
    files=$((files * group))
done
"$farm/chain.sh" print "$script" "$count" "$(cat "$run/parts")"
exit $?
