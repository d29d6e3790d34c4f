#!/bin/sh
# Keeps in release/ each program that ./rdf runs, rdf and those of tools/launcher/commands.txt, so that a fresh clone runs without the Rattle kit.
#
#     tools/release.sh           after a green rt ci: releases the programs that it built
#     tools/release.sh --check   whether the released programs are those of these sources
#
# release/NAME is the program without its symbols, and release/NAME.txt its record: the kit that built it,
# one number over the sources and specs of its crates, and the sum of the program. The check wants these
# sources; with the kit of the record the program that is built here, byte for byte; and with another
# kit, whose code may differ, that the released program gives what every case wants.
set -u

top=$(cd "$(dirname "$0")/.." && pwd -P) || exit 1
. "$top/tools/launcher/program.sh"

# rdf, and the programs that are commands of ./rdf and have a crate here.
programs() {
    sed -n 's/^[a-z]* program //p' "$top/tools/launcher/commands.txt" | while read -r program; do
        [ ! -d "$top/crates/$program" ] || echo "$program"
    done | awk 'BEGIN { print "rdf"; seen["rdf"] = 1 } !seen[$0]++'
}

fail() { echo "release: $*"; exit 1; }

strip_built() { # PROGRAM TARGET
    built=$top/crates/$1/out/$1
    is_built "$1" || fail "$1 isn't built, or is older than its sources: rt ci builds it"
    "$top/tools/strip_program.py" "$built" "$2" || fail "$built can't be stripped"
}

renew() { # PROGRAM
    mkdir -p "$top/release"
    strip_built "$1" "$top/release/$1.new"
    chmod 755 "$top/release/$1.new"
    mv "$top/release/$1.new" "$top/release/$1"
    {
        echo "kit $(rt version)"
        echo "sources $(sources_hash "$1")"
        echo "program $(sum_of "$top/release/$1")"
    } >"$top/release/$1.txt"
    echo "release: $1 is renewed, $(wc -c <"$top/release/$1") bytes"
}

# The cases that show what a program does.
run_cases() { "$top/tools/cases/run.py" --of "$1" "$top/release/$1"; } # PROGRAM

check() { # PROGRAM
    is_released "$1" || fail "$1: $why; after a green rt ci tools/release.sh renews it"
    kit=$(rt version) || fail "rt can't tell the kit"
    if [ "$kit" = "$(recorded "$1" kit)" ]; then
        scratch=$(mktemp) || exit 1
        trap 'rm -f "$scratch"' EXIT
        strip_built "$1" "$scratch"
        cmp "$scratch" "$top/release/$1" || fail "the released $1 isn't the one that is built here by the same kit"
        echo "release: $1 is the program that is built here, byte for byte"
    else
        echo "release: $1 was built by $(recorded "$1" kit), and here is $kit; its cases decide"
        run_cases "$1" || fail "the released $1 doesn't give what the cases want"
    fi
}

for program in $(programs); do
    case ${1-} in
        --check) check "$program" ;;
        '') renew "$program" ;;
        *) fail "the one word that it takes is --check" ;;
    esac
done
