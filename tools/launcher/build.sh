# Proves the crates that a program stands on, side by side, and builds it: RDF_JOBS of them at a time, or
# as many as there are processors and memory. ./rdf reads this; it sets `top`, `why` and `say`.

# Minutes that all proofs of rdf take from nothing, one at a time, and the longest chain of crates that
# stand on each other; none where that isn't measured, as for the other programs.
all_minutes=80
chain_minutes=50

# As many as there are processors, with 4 GB of free memory for each.
usual_jobs() {
    processors=$(nproc 2>/dev/null || getconf _NPROCESSORS_ONLN 2>/dev/null || echo 1)
    awk -v most="$processors" '$1 == "MemAvailable:" { room = int($2 / 4000000) + 1; if (room < most) most = room }
        END { print most }' /proc/meminfo 2>/dev/null || echo "$processors"
}

minutes() { # PROGRAM
    if [ "$1" = rdf ] && [ -n "$all_minutes" ] && [ -n "$chain_minutes" ]; then
        awk -v all="$all_minutes" -v chain="$chain_minutes" -v jobs="$jobs" \
            'BEGIN { m = all / jobs; if (m < chain) m = chain; print "about " int(m + 0.5) " minutes" }'
    else
        echo "an hour or more"
    fi
}

minutes_gone() { echo $((($(date +%s) - begun) / 60)); }

# Tells of each crate that rt printed since the last call, and every five minutes how far it is.
tell() {
    awk -v before="$told" '$1 == "==" && $2 != "summary" && NF == 2 && ++n > before { print $2 }' "$log" >"$log.new"
    while IFS= read -r crate; do
        told=$((told + 1))
        silent=0
        say "crate $told of $crates is done: $crate, at minute $(minutes_gone)"
    done <"$log.new"
    rm -f "$log.new"
    silent=$((silent + 1))
    [ $((silent % 300)) -ne 0 ] || say "$told of $crates crates are done at minute $(minutes_gone), and the next ones go on"
}

stopped() {
    kill "$proving" 2>/dev/null
    wait "$proving" 2>/dev/null
    rm -f "$log" "$log.new"
    say "stopped; what is proved is kept, and the next call goes on from there"
    exit "$1"
}

fail() {
    tail -n 20 "$log" >&2
    say "the build failed; all of its output is in $log"
    exit 70
}

# Starts rt on the program's crate, with what it prints in the log.
start() { (cd "$top/crates/$crate_built" && exec rt "$@") >>"$log" 2>&1 </dev/null & proving=$!; }

build() { # PROGRAM
    command -v rt >/dev/null || {
        say "$1 isn't built, or is older than its sources, and $why; no rt is on the PATH: it comes with the Rattle kit"
        exit 70
    }
    log=$(mktemp) || exit 70
    crate_built=$1
    jobs=${RDF_JOBS:-$(usual_jobs)}
    crates=$(crates_below "$1" | wc -l)
    crates=$((crates))
    begun=$(date +%s) told=0 silent=0
    say "$why: the $crates crates of $1 are proved first, $jobs at a time"
    say "from nothing this takes $(minutes "$1") here; it can be stopped at any time, and the next call goes on from there"
    start all check --jobs "$jobs"
    trap 'stopped 130' INT
    trap 'stopped 143' TERM
    trap 'stopped 129' HUP
    while kill -0 "$proving" 2>/dev/null; do
        sleep 1
        tell
    done
    wait "$proving" || fail
    start run
    wait "$proving"
    { [ -x "$top/crates/$1/out/$1" ] && grep -q "running out/$1" "$log"; } || fail
    trap - INT TERM HUP
    touch "$top/crates/$1/out/$1"
    rm -f "$log"
    say "built at minute $(minutes_gone)"
}
