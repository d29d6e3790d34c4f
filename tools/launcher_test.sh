#!/bin/sh
# The launcher ./rdf and tools/release.sh on a copy of them, with an rt that proves nothing and notes its
# words, and small programs in place of rdf and the others. Ends with 1 where a test fails.
set -u

top=$(cd "$(dirname "$0")/.." && pwd -P) || exit 1
folder=$(mktemp -d) || exit 1
trap 'rm -rf "$folder"' EXIT
tests=0 failed=0
repo=$folder/repo

mkdir -p "$repo/crates/rdf/src" "$repo/crates/low/src" "$repo/crates/low/specs" "$repo/crates/low/proofs" \
    "$repo/crates/aside/src" "$repo/tools/cases" "$repo/release" "$folder/bin" "$folder/elsewhere"
cp "$top/rdf" "$repo/rdf"
cp -R "$top/tools/launcher" "$top/tools/release.sh" "$top/tools/strip_program.py" "$repo/tools"
cat >"$repo/crates.txt" <<'END'
# the program stands on three crates, one of them named twice, and on one of the kit
rdf: top low
aside: low
low: kit_crate
top: middle low
middle: low
END
for source in rdf/src/main.rt low/src/lib.rt low/specs/Lib.antt low/proofs/Lib.antt aside/src/lib.rt; do
    echo "of $source" >"$repo/crates/$source"
done
cat >"$folder/bin/rt" <<'END'
#!/bin/sh
echo "$(basename "$PWD"): $*" >>"$NOTES"
case $1 in
    version) echo "${KIT:-kit-1 logic 2}" ;;
    all)
        echo "rt: some note"
        for crate in low middle top rdf; do
            echo "== $crate"
            echo "fn $crate::f: proved"
            [ "${HOLD_AT:-}" != "$crate" ] || { echo $$ >"$NOTES.held"; exec sleep 60; }
            [ "${FAIL_AT:-}" != "$crate" ] || { echo "$crate: not proved"; exit 1; }
        done
        printf '== summary\n4 of 4 crates ok\n' ;;
    run)
        mkdir -p out
        crate=$(basename "$PWD")
        printf '#!/bin/sh\necho "in $(basename "$PWD"): $*"\nexit 7\n' >"out/$crate"
        chmod +x "out/$crate"
        echo "rt: running out/$crate; to give it other input, run that file yourself" ;;
esac
END
chmod +x "$folder/bin/rt"
export NOTES="$folder/notes" PATH="$folder/bin:$PATH" RDF_JOBS=3
unset RDF_HINTS
ln -s ../repo/rdf "$folder/elsewhere/link"
cd "$folder/elsewhere" || exit 1

# The same tools without rt.
mkdir "$folder/no_kit"
for tool in sh dirname readlink find head mktemp awk date sleep grep sed sort tr cut wc xargs sha256sum uname cat; do
    ln -s "$(command -v "$tool")" "$folder/no_kit/$tool"
done

wrong() { failed=$((failed + 1)); echo "FAILED $*"; }

judge() { # NAME STATUS OUTPUT NOTES
    tests=$((tests + 1))
    if [ "$status" != "$2" ] || [ "$(cat out)" != "$3" ] || [ "$(cat "$NOTES")" != "$4" ]; then
        wrong "$1: status $status, wanted $2"
        cat out err "$NOTES"
    fi
}

says() { # NAME TEXT: a line of standard error
    tests=$((tests + 1))
    grep -q -e "$2" err || { wrong "$1: no line '$2' in"; cat err; }
}

prints() { # NAME TEXT: a line of standard output
    tests=$((tests + 1))
    grep -q -e "$2" out || { wrong "$1: no line '$2' in"; cat out; }
}

silent() { # NAME
    tests=$((tests + 1))
    [ ! -s err ] || { wrong "$1: it says"; cat err; }
}

run() { : >"$NOTES"; ./link "$@" >out 2>err </dev/null; status=$?; }
run_without_kit() { : >"$NOTES"; PATH=$folder/no_kit ./link "$@" >out 2>err </dev/null; status=$?; }

built="rdf: all check --jobs 3
rdf: run"

# ---- built here

run a "b c"
judge "it builds and then runs, by a link, in the caller's folder" 7 "in elsewhere: a b c" "$built"
says "the number of crates" "the 4 crates of rdf are proved first, 3 at a time"
says "why it builds" "none is released"
says "how long it may take" "from nothing this takes .* minutes\|from nothing this takes an hour"
says "each crate" "crate 2 of 4 is done: middle"
says "the last crate" "crate 4 of 4 is done: rdf"
run again
judge "a built program is run" 7 "in elsewhere: again" ""
silent "a built program says nothing"
touch -d '+1 hour' "$repo/crates/low/src/lib.rt"
run x
judge "a newer source builds again" 7 "in elsewhere: x" "$built"
touch -d '-1 hour' "$repo/crates/low/src/lib.rt"
touch "$repo/crates/rdf/out/rdf"
run x
judge "then it is built" 7 "in elsewhere: x" ""
touch -d '+1 hour' "$repo/crates/aside/src/lib.rt"
run x
judge "a newer source of a crate that isn't below it" 7 "in elsewhere: x" ""
run --build
judge "a build that is asked for" 0 "" "$built"

rm -r "$repo/crates/rdf/out"
FAIL_AT=top
export FAIL_AT
run x
judge "a crate that isn't proved" 70 "" "rdf: all check --jobs 3"
says "what failed" "top: not proved"
says "where its output is" "all of its output is in"
rm -f "$(sed -n 's/.*all of its output is in //p' err)"
unset FAIL_AT

# A background process of a shell without job control ignores SIGINT, so Python starts this one: it sends
# the signal once a file is there, and tells its end as a shell does.
interrupted() { # SIGNAL FILE WORDS
    : >"$NOTES"
    rm -f "$2"
    python3 -c '
import os, signal, subprocess, sys, time
signal.signal(signal.SIGINT, signal.default_int_handler)
child = subprocess.Popen(["./link"] + sys.argv[3:], stdin=subprocess.DEVNULL, stdout=open("out", "w"), stderr=open("err", "w"))
for _ in range(100):
    time.sleep(0.1)
    if os.path.exists(sys.argv[2]):
        break
time.sleep(1.5)
child.send_signal(getattr(signal, sys.argv[1]))
status = child.wait(20)
sys.exit(status if status >= 0 else 128 - status)' "$@"
    status=$?
    tests=$((tests + 1))
    if kill -0 "$(cat "$2")" 2>/dev/null; then
        wrong "$1: what it started still runs"
        kill "$(cat "$2")"
    fi
}
HOLD_AT=middle
export HOLD_AT
interrupted SIGINT "$NOTES.held" x
judge "Ctrl-C" 130 "" "rdf: all check --jobs 3"
says "that it goes on" "the next call goes on from there"
says "what was done before" "crate 1 of 4 is done: low"
interrupted SIGTERM "$NOTES.held" x
judge "an end asked for" 143 "" "rdf: all check --jobs 3"
unset HOLD_AT
run x
judge "the next call" 7 "in elsewhere: x" "$built"
rm -r "$repo/crates/rdf/out"

run_without_kit x
judge "no rt" 70 "" ""
says "no rt" "no rt is on the PATH"
says "why it would build" "none is released"

# ---- released

# A stand-in is released, with the sum and the sources that are there.
release() { # STATUS-WITHOUT-WORDS [PROGRAM]
    released=${2:-rdf}
    printf '#!/bin/sh\n[ $# -gt 0 ] || exit %s\necho "released: $*"\nexit 9\n' "$1" >"$repo/release/$released"
    chmod +x "$repo/release/$released"
    (
        top=$repo
        . "$top/tools/launcher/program.sh"
        echo "kit kit-1 logic 2"
        echo "sources $(sources_hash "$released")"
        echo "program $(sum_of "$top/release/$released")"
    ) >"$repo/release/$released.txt"
}
release 2
run_without_kit a "b c"
judge "the released program, without a kit" 9 "released: a b c" ""
silent "the released program says nothing"
run a
judge "the released program, with a kit" 9 "released: a" ""
touch -d '+1 hour' "$repo/crates/low/src/lib.rt"
run a
judge "times don't count for the released program" 9 "released: a" ""
echo more >>"$repo/crates/low/proofs/Lib.antt"
echo more >>"$repo/crates/aside/src/lib.rt"
sed -i 's/^aside: low/aside: top low/; s/^top: middle low/top:  middle   low # so/' "$repo/crates.txt"
run a
judge "proofs, crates that aren't below it, and blanks of crates.txt don't count" 9 "released: a" ""

stale() { # NAME
    run_without_kit a
    judge "$1" 70 "" ""
    says "$1" "the released one is of other sources"
}
echo more >>"$repo/crates/low/src/lib.rt"
stale "another source"
run a
judge "another source builds" 7 "in elsewhere: a" "$built"
says "why it builds" "the released one is of other sources"
rm -r "$repo/crates/rdf/out"
release 2
echo more >>"$repo/crates/low/specs/Lib.antt"
stale "another spec"
release 2
echo more >"$repo/crates/low/src/more.rt"
stale "one source more"
release 2
mv "$repo/crates/low/src/more.rt" "$repo/crates/low/src/less.rt"
stale "another name of a source"
release 2
sed -i 's/^middle: low/middle: low kit_other/' "$repo/crates.txt"
stale "another line of crates.txt"

release 2
echo "# more" >>"$repo/release/rdf"
run_without_kit a
judge "a released file of another sum" 70 "" ""
says "a released file of another sum" "release/rdf isn't the file of which release/rdf.txt tells"
release 127
run_without_kit a
judge "a released program that doesn't run" 70 "" ""
says "a released program that doesn't run" "doesn't run on this machine"
release 2
for machine in "Linux aarch64" "Darwin x86_64"; do
    rm -f "$folder/no_kit/uname"
    printf '#!/bin/sh\ncase $1 in -s) echo "%s" ;; -m) echo "%s" ;; esac\n' "${machine% *}" "${machine#* }" >"$folder/no_kit/uname"
    chmod +x "$folder/no_kit/uname"
    run_without_kit a
    judge "another machine: $machine" 70 "" ""
    says "another machine: $machine" "for x86-64 Linux"
done
rm -f "$folder/no_kit/uname"
ln -s "$(command -v uname)" "$folder/no_kit/uname"
run --build
judge "a build that is asked for, beside a released program" 0 "" "$built"
run a
judge "what is built here comes before the released one" 7 "in elsewhere: a" ""
rm "$repo/release"/*

# ---- how the program is run

stand_in() { # LINES [PROGRAM]
    at=$repo/crates/${2:-rdf}/out
    mkdir -p "$at"
    printf '#!/bin/sh\n%s\n' "$1" >"$at/${2:-rdf}"
    chmod +x "$at/${2:-rdf}"
    touch -d '+2 hours' "$at/${2:-rdf}"
}
stand_in 'cat; cat "$1"'
: >"$NOTES"
echo in | ./link "$repo/crates/low/specs/Lib.antt" >out 2>err
status=$?
judge "standard input is the program's" 0 "in
$(cat "$repo/crates/low/specs/Lib.antt")" ""
echo in | ./link /dev/fd/9 9<"$repo/crates/rdf/src/main.rt" >out 2>err
status=$?
judge "the caller's number 9 is the program's" 0 "in
of rdf/src/main.rt" ""
stand_in '{ true 8<&0; } 2>/dev/null && echo open; exit 3'
./link x <&- >out 2>err
status=$?
judge "a closed standard input stays closed" 3 "" ""
for ending in 0 1 3 4 5 6 7 8 139; do
    stand_in "echo some; exit $ending"
    run x
    judge "status $ending" $ending some ""
done
stand_in 'echo $$ >"$NOTES.runs"; exec sleep 60'
interrupted SIGINT "$NOTES.runs" x
judge "Ctrl-C ends the program" 130 "" ""
interrupted SIGTERM "$NOTES.runs" x
judge "an end asked for ends the program" 143 "" ""

# ---- help, the version, commands

for word in --help -h; do
    run $word
    judge "$word" 0 "$(cat out)" ""
    prints "$word" "^usage: rdf SCRIPT TABLE"
    prints "$word" "--slots N .*1 to 16 .*1$"
    prints "$word" "docs/ERRORS.md"
    silent "$word"
done
stand_in 'echo "ran: $*"'
run s.txt a.csv --help
prints "help behind names" "^usage: rdf"
run -- --help a.csv
judge "behind -- it is a name" 0 "ran: -- --help a.csv" ""
run --version
prints "the version" "^rdf [0-9]"
prints "which program runs" "the program that was built here"
run --program
judge "the program's path" 0 "$repo/crates/rdf/out/rdf" ""
rm -r "$repo/crates/rdf/out"
release 2
run --program
judge "the released program's path" 0 "$repo/release/rdf" ""
run --version
prints "the released program" "kit kit-1 logic 2, sources [0-9a-f]\{64\}, program [0-9a-f]\{64\}"
prints "that it runs" "runs: the released program"
run describe a.csv
judge "a command whose tool isn't there is a name" 9 "released: describe a.csv" ""
printf '#!/bin/sh\necho "described: $*"; exit 3\n' >"$repo/tools/rdf_describe"
chmod +x "$repo/tools/rdf_describe"
run describe "a b" c
judge "a command" 3 "described: a b c" ""
run --help
prints "a command in the help" "rdf describe TABLE"
run ./describe a.csv
judge "a name with a folder is no command" 9 "released: ./describe a.csv" ""
run a.csv describe
judge "a command is the first word" 9 "released: a.csv describe" ""
printf 'again program rdf\n' >>"$repo/tools/launcher/commands.txt"
run again x
judge "a command that is a program" 9 "released: x" ""

# ---- words that aren't taken

stand_in 'echo "usage: some"; exit 2'
words_hint() { # TEXT WORDS
    text=$1
    shift
    run $command "$@"
    judge "words: $*" 2 "usage: some" ""
    says "words: $*" "^rdf: $text; ./rdf $command${command:+ }--help tells more$"
}
command=
words_hint "two names are wanted, SCRIPT and TABLE, and there is none"
words_hint "two names are wanted, SCRIPT and TABLE, and there is only 's.txt'" s.txt
words_hint "'c': a third name, and two are wanted" a b c
words_hint "'3': a third name, and two are wanted" 1 2 3 --make
words_hint "'--make': a third name, and two are wanted; behind -- each word is one" a -- b --make
words_hint "--slots: 17 is not from 1 to 16" a b --slots 17
words_hint "--slots: 0 is not from 1 to 16" --slots=0 a b
words_hint "--slots: two is no whole number in plain digits" a b --slots two
words_hint "--slots: 02 begins with 0" a --slots 02 b
words_hint "--slots: a number from 1 to 16 is missing" a b --slots
words_hint "--slots: a number is missing before --make" a b --slots --make
words_hint "--slots stands twice" a b --slots 2 --slots=2
words_hint "--cluster: 1000001 is not from 1 to 1000000" a b --cluster 1000001
words_hint "--cluster: -5 is not from 1 to 1000000" a b --cluster=-5
words_hint "--watch: 99999999999999999999 is not from 1 to 1000000" a b --watch 99999999999999999999
words_hint "--watch: 1.5 is no whole number in plain digits" a b --watch 1.5
words_hint "--slot: there is no such option, --slots may be meant" a b --slot 3
words_hint "-s: there is no such option, --slots may be meant" a b -s 3
words_hint "--threads: there is no such option, --slots may be meant" a b --threads 3
words_hint "-x.txt: there is no such option, a name that begins with - stands behind --" a -x.txt
words_hint "--make takes two numbers, ENTRIES and SEED, and there is only '5'" --make 5
words_hint "ENTRIES: 0 is not from 1 to 1000000" 0 5 --make
words_hint "SEED: 4294967296 is not from 0 to 4294967295" --make 5 4294967296
words_hint "a word isn't UTF-8 text" a "$(printf 'b\377')"
RDF_HINTS=0
export RDF_HINTS
run a
judge "no hints" 2 "usage: some" ""
silent "no hints"
unset RDF_HINTS
rm -r "$repo/crates/rdf/out"

# ---- the other programs

for command in shard snapshot chain; do
    name=rdf_$command
    stand_in 'echo "rdf: $*"'
    run $command x
    judge "$command: without its crate it is a name" 0 "rdf: $command x" ""
    run --help
    tests=$((tests + 1))
    ! grep -q "rdf $command" out || wrong "$command: help has it without its crate"

    mkdir -p "$repo/crates/$name/src"
    echo "main of $name" >"$repo/crates/$name/src/main.rt"
    echo "$name: low" >>"$repo/crates.txt"
    run $command "a b"
    judge "$command: it is built and then run" 7 "in elsewhere: a b" "$name: all check --jobs 3
$name: run"
    says "$command: what is built" "the 2 crates of $name are proved first"
    says "$command: how long it may take" "from nothing this takes an hour or more"
    rm -r "$repo/crates/$name/out"
    release 2 "$name"
    run_without_kit $command "a b"
    judge "$command: the released program" 9 "released: a b" ""
    run $command --program
    judge "$command: the released program's path" 0 "$repo/release/$name" ""
    echo more >>"$repo/crates/$name/src/main.rt"
    run_without_kit $command a
    judge "$command: another source" 70 "" ""
    says "$command: another source" "$name isn't built, .*the released one is of other sources"
    run $command --version
    prints "$command: the version" "^$name [0-9]"
    prints "$command: how it is built" "./rdf $command --build builds it"
    run $command --build
    judge "$command: a build that is asked for" 0 "" "$name: all check --jobs 3
$name: run"
    run --program
    judge "$command: rdf is another program" 0 "$repo/crates/rdf/out/rdf" ""
    run --help
    prints "$command: in the help" "rdf $command \.\."
    for word in --help -h; do
        run $command x $word
        judge "$command $word" 0 "$(cat out)" ""
        prints "$command $word" "^usage: rdf $command "
        silent "$command $word"
    done
    stand_in 'echo "ran: $*"; exit 23' "$name"
    run $command -- --help
    judge "$command: behind -- it is a name" 23 "ran: -- --help" ""
    run ./$command x
    judge "$command: a name with a folder is no command" 0 "rdf: ./$command x" ""
    stand_in 'echo "usage: some"; exit 2' "$name"
done

command=shard
words_hint "run or merge is wanted"
words_hint "'marge': run or merge is wanted" marge s p0
words_hint "run takes five words, SCRIPT TABLE SIZE LO HI, and here are 4" run s a 2 0
words_hint "SIZE: 0 is not from 1 to 1000000" run s a 0 0 1
words_hint "LO: -1 is not from 0 to 1000000" run s a 1 -1 1
words_hint "HI: 01 begins with 0" run s a 1 0 01
words_hint "merge takes SCRIPT and one file or more, and here are 1 words" merge s
words_hint "merge takes at most 64 files, and here are 65" merge s $(seq 65)
words_hint "a word isn't UTF-8 text" merge s "$(printf 'b\377')"
command=snapshot
five="five words are wanted, SCRIPT TABLE NODE COLUMNS UNDER"
words_hint "$five, and here are 0"
words_hint "$five, and here are 3" s a df
words_hint "'x': a word more, and $five" s a df pt nominal x
words_hint "NODE: 1 is no node's name" s a 1 pt nominal
words_hint "COLUMNS: a column's name is missing" s a df pt, nominal
words_hint "COLUMNS: p t is no column's name" s a df "p t" nominal
words_hint "COLUMNS: there are more than 64" s a df "$(seq -s , -f 'c%g' 65)" nominal
words_hint "UNDER: 'up' is neither nominal nor a variation, as scale:up" s a df pt up
words_hint "UNDER: a:b:c has two colons" s a df pt a:b:c
words_hint "UNDER: a tag's name is missing" s a df pt a:
words_hint "--slots: 17 is not from 1 to 16" s a df pt nominal --slots 17
words_hint "--slots stands twice" s a df pt nominal --slots 2 --slots=2
words_hint "--watch: it is an option of ./rdf SCRIPT TABLE alone" s a df pt nominal --watch 1
words_hint "-x: there is no such option, a name that begins with - stands behind --" s -x df pt nominal
words_hint "--threads: there is no such option, --slots may be meant" s a df pt nominal --threads 2
command=chain
words_hint "run, map, join or print is wanted"
words_hint "'s.txt': run, map, join or print is wanted" s.txt a.csv
words_hint "run takes SCRIPT and 1 to 16384 tables, and here are 1" run s
words_hint "map takes SCRIPT NUMBER TABLE, and here are 2" map s 0
words_hint "NUMBER: 16777216 is not from 0 to 16777215" map s 16777216 a
words_hint "NUMBER: a.csv is no whole number in plain digits" map s a.csv 0
words_hint "'b': a word more, and map takes SCRIPT NUMBER TABLE" map s 0 a b
words_hint "join takes SCRIPT and 1 to 4096 parts, and here are 1" join s
words_hint "COUNT: 0 is not from 1 to 16777216" print s 0 p
words_hint "--cluster: a number from 1 to 1000000 is missing" run s a --cluster
words_hint "--friend: it is an option of ./rdf SCRIPT TABLE alone" run s a --friend f
words_hint "--slots: there is no such option, a name that begins with - stands behind --" join s p --slots 2
rm -rf "$repo"/crates/rdf*/out "$repo"/crates/rdf_* "$repo"/release/*
sed -i '/^rdf_/d' "$repo/crates.txt"

# ---- tools/release.sh

released() { : >"$NOTES"; "$repo/tools/release.sh" "$@" >out 2>&1; status=$?; }
cat >"$repo/tools/cases/run.py" <<'END'
#!/bin/sh
echo "cases: $*" >>"$NOTES"
[ -z "${CASES_FAIL:-}" ]
END
chmod +x "$repo/tools/cases/run.py"
version="$(basename "$PWD"): version"
released
prints "no program" "rdf isn't built, or is older than its sources"
# grep is a program that ends with 2 where it gets no words.
build_grep() {
    mkdir -p "$repo/crates/rdf/out"
    cp "$(command -v grep)" "$repo/crates/rdf/out/rdf"
    touch -d '+2 hours' "$repo/crates/rdf/out/rdf"
}
build_grep
released
judge "a release" 0 "$(cat out)" "$version"
prints "a release" "rdf is renewed"
released --check
judge "the release of the program that is built" 0 "release: rdf is the program that is built here, byte for byte" "$version"
KIT="kit-2 logic 3"
export KIT
released --check
judge "another kit" 0 "release: rdf was built by kit-1 logic 2, and here is kit-2 logic 3; its cases decide" "$version
cases: --of rdf $repo/release/rdf"
CASES_FAIL=1
export CASES_FAIL
released --check
prints "another kit, and a case that fails" "doesn't give what the cases want"
unset KIT CASES_FAIL
printf x >>"$repo/crates/rdf/out/rdf"
touch -d '+2 hours' "$repo/crates/rdf/out/rdf"
released --check
judge "what is never read doesn't count" 0 "release: rdf is the program that is built here, byte for byte" "$version"
cp "$(command -v sort)" "$repo/crates/rdf/out/rdf"
touch -d '+2 hours' "$repo/crates/rdf/out/rdf"
released --check
prints "another program of the same kit" "isn't the one that is built here by the same kit"
rm -r "$repo/crates/rdf/out"
run -c a "$repo/crates.txt"
judge "the released program runs without its symbols" 0 "$(grep -c a "$repo/crates.txt")" ""
build_grep
echo more >>"$repo/crates/low/src/lib.rt"
released --check
prints "a release of other sources" "the released one is of other sources; after a green rt ci tools/release.sh renews it"

for command in shard snapshot chain; do
    mkdir -p "$repo/crates/rdf_$command/src" "$repo/crates/rdf_$command/out"
    echo "rdf_$command: low" >>"$repo/crates.txt"
done
build_grep
released
prints "a release of four, one of which isn't built" "rdf_shard isn't built"
for command in shard snapshot chain; do
    cp "$(command -v grep)" "$repo/crates/rdf_$command/out/rdf_$command"
    touch -d '+2 hours' "$repo/crates/rdf_$command/out/rdf_$command"
done
released
tests=$((tests + 1))
[ "$(cd "$repo/release" && echo rdf*)" = "rdf rdf.txt rdf_chain rdf_chain.txt rdf_shard rdf_shard.txt rdf_snapshot rdf_snapshot.txt" ] ||
    wrong "a release of four"
released --check
judge "the check of four" 0 "$(for name in rdf rdf_shard rdf_snapshot rdf_chain; do
    echo "release: $name is the program that is built here, byte for byte"; done)" "$version
$version
$version
$version"
KIT="kit-2 logic 3"
export KIT
released --check
tests=$((tests + 1))
grep -q "^cases: --of rdf_chain $repo/release/rdf_chain$" "$NOTES" || wrong "another kit, and the cases of a chain"
unset KIT
echo x >>"$repo/release/rdf_snapshot"
released --check
prints "one of four that is damaged" "rdf_snapshot: release/rdf_snapshot isn't the file of which release/rdf_snapshot.txt tells"

echo "launcher_test: $tests tests, $failed failed"
[ $failed -eq 0 ]
