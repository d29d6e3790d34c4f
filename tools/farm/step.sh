#!/bin/sh
# One step of a chain: what `rdf chain WORDS..` writes is kept as the file OUT, whole or not at all.
#     tools/farm/step.sh OUT WORDS..
# A file that is there is left as it is. Another name is written first and renamed, so a step that was killed may be
# begun again at any time, and by several at once. Where the program's status isn't 0, a line on standard error says
# which step it was and what the program answered, and the step ends with that status. A word @FILE stands for the
# lines of FILE. The program is RDF_CHAIN, or `rdf chain` of this repository.
set -u

[ $# -gt 2 ] || { echo "usage: step.sh OUT WORDS.." >&2; exit 2; }
out=$1
shift
[ ! -f "$out" ] || exit 0

case $1 in
    map) label="map ${3:-} of ${4:-}" ;;
    *) label="$1 to $out" ;;
esac

# The words with the lines of each @FILE in its place.
left=$#
while [ "$left" -gt 0 ]; do
    case $1 in
        @*) while IFS= read -r line; do set -- "$@" "$line"; done <"${1#@}" || exit 70 ;;
        *) set -- "$@" "$1" ;;
    esac
    shift
    left=$((left - 1))
done

new=$(dirname "$out")/.$(basename "$out").$(uname -n).$$
running=
stopped() { # SIGNAL
    [ -z "$running" ] || kill "$running" 2>/dev/null
    rm -f "$new"
    trap - "$1"
    kill -s "$1" $$
}
for signal in INT TERM HUP; do
    trap "stopped $signal" "$signal"
done

"$(dirname "$0")/chain.sh" "$@" >"$new" </dev/null &
running=$!
wait "$running"
status=$?
if [ $status -eq 0 ] && mv -f "$new" "$out"; then
    exit 0
fi
line=$(head -n 1 "$new" | cut -c 1-1000)
# Before anything is said: who would hear it may be gone, and the step then ends there.
rm -f "$new"
printf 'farm: %s\n' "$label: status $status${line:+: $line}" >&2
[ $status -ne 0 ] || status=4
exit $status
