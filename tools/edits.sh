#!/bin/sh
# Tries the must-fail edits of edits/NAME: the prover must refuse each. They aren't tried at the gate; run this by hand
# where the crate's contracts have changed.
#   tools/edits.sh NAME..    these crates' edits
#   tools/edits.sh --all     each crate's that has any
# The crates below are proved first where they aren't yet, and kept, as by rt check. Ends with 1 where an edit isn't refused.
set -u

top=$(cd "$(dirname "$0")/.." && pwd -P) || exit 2
usage() {
    echo "usage: tools/edits.sh NAME.. | --all" >&2
    exit 2
}
[ $# -gt 0 ] || usage
if [ "$1" = --all ]; then
    [ $# -eq 1 ] || usage
    set -- $(ls "$top/edits")
fi
. "$top/tools/launcher/program.sh"

folder=$(mktemp -d) || exit 2
trap 'rm -rf "$folder"' EXIT
trap 'exit 130' INT TERM HUP

# A copy of the crate and of those below it, with its edits alone. What is proved is linked where the file system can; the
# sources are copied, so that they may be written on meanwhile.
copy() { # NAME
    rm -rf "$folder/repo"
    mkdir -p "$folder/repo/crates"
    cp "$top/HANDLES" "$folder/repo"
    below=$(crates_below "$1")
    awk -v names="$below" 'BEGIN { split(names, name, "\n"); for (i in name) wanted[name[i]] }
        { head = $1; sub(/:.*/, "", head) } head in wanted' "$top/crates.txt" >"$folder/repo/crates.txt"
    for crate in $below; do
        mkdir "$folder/repo/crates/$crate" || exit 2
        for part in "$top/crates/$crate"/*; do
            case $part in
                */out) cp -al "$part" "$folder/repo/crates/$crate" 2>/dev/null || cp -a "$part" "$folder/repo/crates/$crate" ;;
                */must-fail) ;;
                *) cp -a "$part" "$folder/repo/crates/$crate" ;;
            esac || exit 2
        done
    done
    cp -R "$top/edits/$1" "$folder/repo/crates/$1/must-fail"
}

failed=0
for name in "$@"; do
    if [ ! -d "$top/crates/$name" ] || [ ! -d "$top/edits/$name" ]; then
        echo "tools/edits.sh: there is no crate $name with edits" >&2
        exit 2
    fi
    for crate in $(crates_below "$name"); do
        [ "$crate" = "$name" ] || [ -f "$top/crates/$crate/out/rlib/stamp" ] || (cd "$top/crates/$crate" && rt lib) || exit 1
    done
    copy "$name"
    (cd "$folder/repo" && rt must-fail "$name") || failed=1
done
exit $failed
