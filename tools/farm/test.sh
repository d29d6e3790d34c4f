#!/bin/sh
# The recipes of this folder over nine tables, beside what `rdf chain run` prints and its status. A step or a worker is
# killed in the midst, a machine is lost, a recipe is told to end, a middle file has a fault, is refused or has other
# columns, and what was made before isn't made again. Where an engine isn't there, its tests are left out, with a line
# that says so.
#     tools/farm/test.sh [step.sh | parallel.sh | snakemake.sh | dask_chain.py]
# Without a word all are tried, side by side. The program is RDF_CHAIN, or crates/rdf_chain/out/rdf_chain, or where that
# isn't built the reference in tools/reference. It ends with 1 where a test fails.
set -u

farm=$(cd "$(dirname "$0")" && pwd -P) || exit 1
top=$(cd "$farm/../.." && pwd -P) || exit 1
program=${RDF_CHAIN:-$top/crates/rdf_chain/out/rdf_chain}
[ -n "${RDF_CHAIN:-}" ] || [ -x "$program" ] || program=$top/tools/reference/rdf_chain_reference.py
case $program in /*) ;; *) program=$PWD/$program ;; esac
[ -x "$program" ] || { echo "farm: no program at $program"; exit 1; }

folder=$(mktemp -d) || exit 1
started= running=
finish() {
    for each in $started $running; do kill "$each" 2>/dev/null; done
    wait
    rm -rf "$folder"
}
trap finish EXIT
trap 'exit 129' HUP
trap 'exit 130' INT
trap 'exit 141' PIPE
trap 'exit 143' TERM

if [ $# -eq 0 ]; then
    for each in step.sh parallel.sh snakemake.sh dask_chain.py; do
        "$0" $each >"$folder/$each" 2>&1 &
        started="$started $!"
    done
    wrong=0
    for each in $started; do wait "$each" || wrong=1; done
    started=
    cat "$folder"/*
    exit $wrong
fi
recipe=$1
cd "$folder" || exit 1
# What engines keep for themselves stays in this folder.
mkdir home
HOME=$folder/home XDG_CACHE_HOME=$folder/home PARALLEL_HOME=$folder/home TMPDIR=$folder
export HOME XDG_CACHE_HOME PARALLEL_HOME TMPDIR
# A batch job may have none.
unset SHELL
tests=0 failed=0

# Compares the status in `status` and the bytes in `out` with what is wanted, and looks for a text in `err`.
judge() { # NAME STATUS WANTED [TEXT]
    tests=$((tests + 1))
    if [ "$(cat status)" = "$2" ] && cmp -s "$3" out && { [ -z "${4:-}" ] || grep -qF -- "$4" err; }; then
        return
    fi
    failed=$((failed + 1))
    echo "FAILED $1: status $(cat status), wanted $2"
    diff "$3" out | head -n 10
    [ -z "${4:-}" ] || echo "wanted on standard error: $4"
    tail -n 20 err
}

judge_calls() { # NAME CALLS..
    name=$1
    shift
    tests=$((tests + 1))
    printf '%s\n' "$@" >wanted
    LC_ALL=C sort calls | cmp -s - wanted && return
    failed=$((failed + 1))
    echo "FAILED $name: other calls of the program"
    LC_ALL=C sort calls | diff wanted -
}

# Whether the process that was killed last is gone, and its command is as wanted.
judge_killed() { # NAME PATTERN
    tests=$((tests + 1))
    for tenth in $(seq 100); do
        grep -q 'is gone$' killed && break
        sleep 0.1
    done
    grep -qE "($2).* is gone$" killed && return
    failed=$((failed + 1))
    echo "FAILED $1: no $2 was killed"
    cat killed
}

# Whether a recipe that ended in the midst began no more steps.
judge_ended() { # NAME STATUS
    judge "$1" "$2" nothing
    tests=$((tests + 1))
    [ "$(wc -l <calls)" -lt 9 ] && ! grep -q -e join -e print calls && return
    failed=$((failed + 1))
    echo "FAILED $1: other steps began"
    cat calls
}

# Whether machines that a recipe was called with took steps, and one of parallel's was lost, as they are to be.
judge_far() { # NAME
    tests=$((tests + 1))
    [ -z "$later" ] || [ -f was_far ] && { [ $recipe != parallel.sh ] || [ ! -f lose ]; } && return
    failed=$((failed + 1))
    echo "FAILED $1: they take no step, or none is lost"
}

# Whether each part of s.txt and the tables has the name by which any recipe finds it.
judge_names() { # NAME TABLES..
    name=$1
    shift
    tests=$((tests + 1))
    python3 -B - "$farm" "$folder/my work" "$folder" "$@" >missing 2>&1 <<'TEXT'
import os
import sys
sys.path.insert(0, sys.argv[1])
from plan import plan
work, folder, tables = sys.argv[2], sys.argv[3], sys.argv[4:]
steps = plan("s.txt", [os.path.join(folder, table) for table in tables], work, 4)
print("\n".join(step.part for step in steps if not os.path.isfile(step.part)), end="")
TEXT
    [ ! -s missing ] && return
    failed=$((failed + 1))
    echo "FAILED $name: parts have other names"
    cat missing
}

# How many hidden files of steps and recipes are left beside the parts: a step that was killed can't remove its own.
judge_left() { # NAME COUNT
    tests=$((tests + 1))
    ls -A "my work" | grep '^[.]' | grep -vxF .snakemake >left
    [ "$(wc -l <left)" -eq "$2" ] && return
    failed=$((failed + 1))
    echo "FAILED $1: wanted are $2 hidden files"
    cat left
}

# The program, with each call noted in `calls`. The first call that is like the pattern in `kill_at` does what `kill`
# tells: it fails; or it first kills the step's shell, or the worker that began the step, which `killed` then has; or it
# tells the process of the number in `running` to end, and goes on a while later.
cat >chain <<TEXT
#!/bin/sh
kill_process() { # NUMBER
    tr '\\0' ' ' <"/proc/\$1/cmdline" >"$folder/killed"
    kill -9 "\$1"
    for tenth in \$(seq 100); do
        [ -d "/proc/\$1" ] || break
        sleep 0.1
    done
    [ -d "/proc/\$1" ] || echo "is gone" >>"$folder/killed"
    exit 137
}
case \${1:-} in
    '') exec "$program" ;;
    map) call="map \$3" ;;
    *) call=\$1 ;;
esac
echo "\$call" >>"$folder/calls"
case \$call in
    \$(cat "$folder/kill_at" 2>/dev/null))
        rm "$folder/kill_at"
        case \$(cat "$folder/kill") in
            step) kill_process \$PPID ;;
            worker) kill_process \$(awk '{ print \$4 }' /proc/\$PPID/stat) ;;
            all) kill \$(cat "$folder/running"); sleep 2; : >"$folder/went_on" ;;
            *) exit 137 ;;
        esac
        ;;
esac
[ ! -f "$folder/slow" ] || sleep 0.5
[ -z "\${IS_FAR:-}" ] || : >"$folder/was_far"
exec "$program" "\$@"
TEXT
# Another machine, as parallel calls it: with a folder and an environment of its own. Where \`lose\` is, it gets lost.
cat >ssh <<TEXT
#!/bin/sh
if [ -f "$folder/lose" ]; then
    rm "$folder/lose"
    exit 255
fi
shift
[ "\$1" != -- ] || shift
unset RDF_CHAIN
cd / && IS_FAR=yes exec sh -c "\$*"
TEXT
chmod +x chain ssh
# Not a whole name: steps run in other folders too.
RDF_CHAIN=./chain
export RDF_CHAIN

# ---- nine tables, and what is due to them

mkdir "my tables"
set --
for i in 0 1 2 3 4 5 6 7 8; do
    table="my tables/t$i.csv"
    [ $i -ne 8 ] || table="my tables/8's \\1\$.csv"
    set -- "$@" "$table"
    awk -v i=$i 'BEGIN { print "pt:int,v:vec"; for (e = 0; e < 20 + i; e++) print (e * 7 + i * 13) % 40 "," e ";" i }' \
        >"$table"
done
cat >s.txt <<'TEXT'
hard = df.Filter("pt > 10", "hard")
t = hard.Take("pt")
n = hard.Count()
Print(n)
h = hard.Histo1D([0, 10, 20, 40], "v", "pt")
r = df.Report()
Print(h)
Print(t)
Print(r)
TEXT
# File 4 has a fault at entry 3 alone, and file 7 at each entry.
cat >fault.txt <<'TEXT'
n = df.Count()
Print(n)
z = df.Define("z", "1 / (((v[1] - 4) * 100 + v[0] - 3) * (v[1] - 7))")
s = z.Sum("z")
Print(s)
TEXT
printf 'n = df.Count()\nPrint(n)\n' >count.txt
printf 'n = df.Count(\n' >bad.txt
printf 'pt:int,v:vec\n1,2\n05,2\n' >bad.csv
printf 'v:vec,pt:int\n2,1\n' >other.csv
: >nothing
"$program" run s.txt "$@" >due || { echo "farm: run ends with status $?"; exit 1; }
"$program" run fault.txt "$@" >due_fault
[ $? -eq 8 ] && grep -q '^fault in file 4 at entry 3 in s: ' due_fault || { echo "farm: run finds no fault"; exit 1; }
printf '%s\n' "$@" >names

# ---- a step by itself

step() { "$farm/step.sh" "$@" >out 2>err; echo $? >status; }

try_step() { # TABLES..
    "$program" map s.txt 4 "$5" >part
    step one map s.txt 4 "$5"
    mv one out
    judge "a step's part" 0 part
    echo old >one
    cp one wanted
    step one map s.txt 5 "$6"
    mv one out
    judge "a part that is there is left as it is" 0 wanted
    step two map s.txt 1 bad.csv
    judge "a step that is refused" 7 nothing \
        "farm: map 1 of bad.csv: status 7: table bad.csv refused at entry 1 field 0: B3 BadInt"
    ls -A | grep two >out
    judge "a step that is refused leaves nothing" 7 nothing
    step two map bad.txt 1 "$5"
    judge "a refused script" 6 nothing "status 6: script refused at line 1 place 13: S1 Syntax"
    "$program" map s.txt 5 "$6" >"a part"
    printf '%s\n' "a part" part >list
    "$program" join s.txt part "a part" >wanted
    step three join s.txt @list
    mv three out
    judge "names from a list" 0 wanted
    echo step >kill
    echo "map 4" >kill_at
    step four map s.txt 4 "$5"
    [ -f four ] && echo "a part of a killed step" >out
    judge "a step that is killed" 137 nothing
    judge_killed "a step that is killed" step.sh
    step four map s.txt 4 "$5"
    mv four out
    judge "a step that was killed, again" 0 part
    echo all >kill
    echo "map 4" >kill_at
    "$farm/step.sh" five map s.txt 4 "$5" >out 2>err &
    echo $! >running
    wait $! 2>>err
    echo $? >status
    sleep 3
    ls -A | grep -e five -e went_on >>out
    judge "a step that is told to end leaves nothing" 143 nothing
}

# ---- a recipe

# Runs the recipe in its work folder, with what it is called with beside.
call() { # WORDS..
    : >calls
    timeout --foreground 300 "$farm/$recipe" --work "my work" --group 4 $beside "$@" >out 2>err </dev/null &
    running=$!
    echo $running >running
    wait "$running"
    echo $? >status
    running=
}

try_recipe() { # TABLES..
    echo "$victim" >kill
    echo "map 4" >kill_at
    call s.txt "$@"
    judge "$recipe: a $victim is killed" 0 due "$progress"
    judge_killed "$recipe: a $victim is killed" "$command"
    # Nine parts come to two groups of four and one that is alone, and these three to one.
    judge_calls "$recipe: a $victim is killed" join join join \
        "map 0" "map 1" "map 2" "map 3" "map 4" "map 4" "map 5" "map 6" "map 7" "map 8" print
    touch "$5"
    echo "map 4" >kill_at
    call --tries 1 s.txt "$@"
    judge "$recipe: a $victim is killed at the last try" $killed_status nothing
    judge_calls "$recipe: a $victim is killed at the last try" "map 4"
    echo all >kill
    echo "map *" >kill_at
    call $one fault.txt "$@"
    judge_ended "$recipe: told to end" 143

    beside=$later
    call s.txt "$@"
    judge "$recipe: again" 0 due
    judge_calls "$recipe: again" join join "map 4" print
    echo program >kill
    echo "map *" >kill_at
    : >slow
    call --tries 1 count.txt "$@"
    judge_ended "$recipe: a step fails at the last try" 137
    rm slow
    : >lose
    call --tables names fault.txt
    judge "$recipe: a fault in a middle file" 8 due_fault "$progress"
    judge_far "$recipe: other machines"

    cp "$6" kept
    cp bad.csv "$6"
    call --tries 2 s.txt "$@"
    judge "$recipe: a refused table" 7 nothing \
        "farm: map 5 of $folder/$6: status 7: table $folder/$6 refused at entry 1 field 0: B3 BadInt"
    judge_calls "$recipe: a refused table" "map 5" "map 5"
    cp other.csv "$6"
    call --tries 1 s.txt "$@"
    judge "$recipe: other columns" 22 nothing "status 22: file ${parts}map-5-t5.csv-"
    # The table is written anew, and so are its part and the two above it; a step that fails once is tried again.
    cp kept "$6"
    echo program >kill
    echo "map 5" >kill_at
    call s.txt "$@"
    judge "$recipe: the table is as it was" 0 due
    judge_calls "$recipe: the table is as it was" join join "map 5" "map 5" print

    call s.txt "$1" none.csv
    judge "$recipe: a missing table" 5 nothing "no file $folder/none.csv"
    call s.txt
    judge "$recipe: no table" 2 nothing usage
    judge_names "$recipe" "$@"
    RDF_CHAIN=./nothing call s.txt "$@"
    judge "$recipe: no program" 70 nothing "farm: there is no program that runs"
    judge_left "$recipe" $left
}

# As docs/FARM.md has it for a batch system, but for the profile. The second output replaces that of another script.
try_snakefile() { # TABLES..
    for each in "$@"; do printf '%s\n' "$PWD/$each"; done >tables.txt
    for script in fault.txt s.txt; do
        RDF_CHAIN=$folder/chain snakemake --snakefile "$farm/Snakefile" --cores 2 --directory "$PWD/my work" \
            --nolock --rerun-incomplete --rerun-triggers mtime \
            --config script="$PWD/$script" tables="$PWD/tables.txt" group=4 >out 2>err </dev/null
        cp "my work/output.txt" "out-$script"
        cp "my work/status" "status-$script"
    done
    cp out-fault.txt out && cp status-fault.txt status
    judge "$recipe: Snakemake by itself, a fault" 8 due_fault
    cp out-s.txt out && cp status-s.txt status
    judge "$recipe: Snakemake by itself" 0 due
}

skip() { echo "skipped: $recipe: there is no $1 (Debian package $2)"; exit 0; }

# Starts a scheduler and two workers, which aren't in this folder, and leaves its address in `address`.
start_scheduler() {
    "$python" -m distributed.cli.dask_scheduler --host 127.0.0.1 --port 0 --dashboard-address 127.0.0.1:0 \
        --scheduler-file scheduler.json >scheduler.log 2>&1 &
    started="$started $!"
    for each in 1 2; do
        (cd / && IS_FAR=yes exec "$python" -m distributed.cli.dask_worker --scheduler-file "$folder/scheduler.json" \
            --host 127.0.0.1 --nthreads 1 --dashboard-address 127.0.0.1:0 --local-directory "$folder") \
            >worker$each.log 2>&1 &
        started="$started $!"
    done
    seconds=0
    until [ -s scheduler.json ]; do
        [ $seconds -lt 120 ] || { echo "FAILED $recipe: no scheduler begins within 120 seconds"; exit 1; }
        sleep 1
        seconds=$((seconds + 1))
    done
    address=$(sed -n 's/.*"address": "\(tcp:[^"]*\)".*/\1/p' scheduler.json | head -n 1)
}

victim=step command=step.sh killed_status=137 left=2
one="--jobs 1" beside= later= parts="$folder/my work/" progress=
case $recipe in
    step.sh) try_step "$@" ;;
    parallel.sh)
        command -v parallel >/dev/null || skip parallel parallel
        printf '1/%s\n' : "$folder/ssh far" >hosts
        later="--hosts hosts"
        try_recipe "$@"
        ;;
    snakemake.sh)
        command -v snakemake >/dev/null || skip snakemake snakemake
        parts=
        try_recipe "$@"
        try_snakefile "$@"
        ;;
    dask_chain.py)
        python=python3
        "$python" -c 'import distributed' 2>/dev/null || python=/usr/bin/python3
        "$python" -c 'import distributed' 2>/dev/null || skip distributed python3-distributed
        start_scheduler
        victim=worker command="spawn_main|dask worker" killed_status=70 one="--workers 1" left=0
        beside="--workers 2" later="--scheduler $address" progress="farm: 9 of 9 maps, 3 of 3 joins"
        try_recipe "$@"
        ;;
    *) echo "farm: there is no $recipe"; exit 1 ;;
esac
echo "farm: $recipe: $tests tests, $failed failed, with $program"
[ $failed -eq 0 ]
