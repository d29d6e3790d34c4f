#!/bin/sh
# The built program over real files, pipes and outputs: what no contract says and no fake shows.
# The program is RDF_PROGRAM, or crates/rdf/out/rdf. Ends with 1 where a test fails. With
# OUTSIDE_SMALL=1 tables of a million entries are left out.
set -u

top=$(cd "$(dirname "$0")/.." && pwd -P) || exit 1
program=${RDF_PROGRAM:-$top/crates/rdf/out/rdf}
case $program in /*) ;; *) program=$PWD/$program ;; esac
[ -x "$program" ] || { echo "outside_test: no program at $program"; exit 1; }

old_folder=$PWD
folder=$(mktemp -d) || exit 1
trap 'rm -rf "$folder"' EXIT
cd "$folder" || exit 1
tests=0 failed=0 skipped=0

# Compares the status in `status` and the bytes in `out` and `err` with what is wanted.
judge() { # NAME STATUSES OUTPUT
    tests=$((tests + 1))
    got=$(cat status)
    wanted=$3
    good=no
    for each in $2; do [ "$got" = "$each" ] && good=yes; done
    printf '%s' "$wanted" >wanted
    [ -z "$wanted" ] || echo >>wanted
    cmp -s wanted out && [ ! -s err ] || good=no
    if [ $good = no ]; then
        failed=$((failed + 1))
        echo "FAILED $1: status $got, wanted $2"
        diff wanted out | head -n 10
        head -n 5 err
    fi
}

run() { "$program" "$@" >out 2>err </dev/null; echo $? >status; }

# With at most so many seconds of processor time; a run that wants more is killed.
run_within() { # SECONDS WORDS..
    (ulimit -t "$1" && shift && exec "$program" "$@") >out 2>err </dev/null
    echo $? >status
}

skip() { skipped=$((skipped + 1)); echo "skipped: $1"; }

# So many random cases of the program, always the same ones, beside the reference in Python.
run_random() { # WHAT COUNT
    command -v python3 >/dev/null || { skip "random $1: there is no python3"; return; }
    tests=$((tests + 1))
    if ! RDF_PROGRAM=$rdf python3 -B "$top/tools/cases/random_$1.py" "$program" "$2" gate >out 2>&1; then
        failed=$((failed + 1))
        echo "FAILED random $1"
        tail -n 100 out
    fi
}

printf 'n = df.Count()\nPrint(n)\n' >s.txt
printf 'x:int\n1\n2\n3\n' >a.csv

# ---- each status but want of memory

run s.txt a.csv
judge "status 0" 0 "n = 3"
usage="usage: rdf SCRIPT TABLE [--slots N] [--cluster N] [--watch K] [--make] [--friend FILE] [--key NAME] [--missing N]"
run
judge "status 2, no words" 2 "$usage"
run s.txt a.csv --slots 0
judge "status 2, a number" 2 "$usage"
run s.txt none.csv
judge "status 5" 5 "no file none.csv"
run none/s.txt a.csv
judge "status 5, a folder that isn't there" 5 "no file none/s.txt"
printf 'n = df.Count(\n' >bad.txt
run bad.txt a.csv
judge "status 6" 6 "script refused at line 1 place 13: S1 Syntax"
printf 'x:int\n1\n05\n' >bad.csv
run s.txt bad.csv
judge "status 7" 7 "table refused at entry 1 field 0: B3 BadInt"
printf 'n = df.Count()\nPrint(n)\nf = df.Filter("1 / (x - 2) == 0")\nm = f.Count()\nPrint(m)\n' >fault.txt
run fault.txt a.csv --slots 2 --cluster 1
judge "status 8" 8 "n = 3
fault at entry 1 in m: F2 ZeroDivisor"

# ---- files

run ./s.txt "$folder/a.csv"
judge "paths" 0 "n = 3"
cp s.txt "a script.txt"
cp a.csv "tablé.csv"
run "a script.txt" "tablé.csv"
judge "blanks and letters of other alphabets in names" 0 "n = 3"
cp s.txt " s "
cp a.csv " a "
run " s " " a "
judge "blanks at both ends of names" 0 "n = 3"
run " s.txt " a.csv
judge "a name with blanks round it is no other's" 5 "no file  s.txt "
run s.txt "$(printf 'a\377.csv')"
judge "a word that isn't UTF-8" 2 "$usage"

awk 'BEGIN { print "x:int"; for (i = 0; i < 20000; i++) print i }' >long.csv
printf 'n = df.Count()\ns = df.Sum("x")\nl = df.Max("x")\nPrint(n)\nPrint(s)\nPrint(l)\n' >sum.txt
[ "$(wc -c <long.csv)" -gt 65536 ] || { echo "the long table is short"; failed=$((failed + 1)); }
run sum.txt long.csv
judge "a table of more than 65,536 bytes" 0 "n = 20000
s = 199990000
l = 19999"
run sum.txt long.csv --slots 3 --cluster 100
judge "the same with slots" 0 "n = 20000
s = 199990000
l = 19999"
# Slots read such a table in pieces, and a cluster may stand in two of them. What is due is worked out by awk.
make_pieces() { # ENTRIES
    awk -v entries="$1" 'BEGIN { print "x:int,v:vec,k:cut"
        for (i = 0; i < entries; i++) {
            v = ""
            for (j = 0; j < i % 4; j++) v = v (j ? ";" : "") i - j * 20000
            print i * i % 70001 "," v "," (i % 9999 == 5)
        } }'
}
due_to_pieces() { # TABLE
    awk -F , 'NR > 1 {
        n = split($2, v, ";"); load = 0
        for (j = 1; j <= n; j++) load += v[j]
        s += $1; all += load
        if ($1 % 2000 == 7) { t = t " " $1; l = l " " load }
    } END { printf "t =%s\nl =%s\ns = %.0f\nall = %.0f", t, l, s, all }' "$1"
}
printf 'd = df.Define("load", "Sum(v)")\nfew = d.Filter("x %% 2000 == 7")\nt = few.Take("x")\nl = few.Take("load")
s = df.Sum("x")\nall = df.Sum("v")\nPrint(t)\nPrint(l)\nPrint(s)\nPrint(all)\n' >pieces.txt
make_pieces 30000 >pieces.csv
due=$(due_to_pieces pieces.csv)
for slots in 1 2 3 5 16; do
    run pieces.txt pieces.csv --slots $slots --cluster 1777
    judge "a table in the pieces of $slots slots" 0 "$due"
done
# A file of 1 MB and more is read in parts side by side, which are cut anywhere: in a cell, or between CR and LF.
make_pieces 250000 >parts.csv
[ "$(wc -c <parts.csv)" -gt 4194304 ] || { echo "the table in parts is short"; failed=$((failed + 1)); }
due_to_parts=$(due_to_pieces parts.csv)
awk '{ printf "%s\r\n", $0 }' parts.csv >crlf.csv
awk -F , -v OFS=, 'NR == 150000 { $1 = "\"" $1 "\"" } { print }' parts.csv >quoted.csv
awk 'NR > 1 { printf "\n" } { printf "%s", $0 }' parts.csv >open_end.csv
for table in parts crlf quoted open_end; do
    for slots in 1 2 3 5 16; do
        run pieces.txt $table.csv --slots $slots
        judge "$table.csv in parts by $slots slots" 0 "$due_to_parts"
    done
done
{ cat parts.csv; echo "x,,0"; } >bad_end.csv
run pieces.txt bad_end.csv --slots 4
judge "a bad cell at the end of the last part" 7 "table refused at entry 250000 field 0: B3 BadInt"
if [ -e /dev/stdin ]; then
    cat parts.csv | "$program" pieces.txt /dev/stdin --slots 4 >out 2>err
    echo $? >status
    judge "a table from a pipe, which has no length" 0 "$due_to_parts"
else
    skip "a table from a pipe: there is no /dev/stdin"
fi
rm -f parts.csv crlf.csv quoted.csv open_end.csv bad_end.csv
awk 'BEGIN { print "x:int"; for (i = 0; i < 20000; i++) print i; print "x" }' >long_bad.csv
run sum.txt long_bad.csv
judge "a bad cell at the end of a long table" 7 "table refused at entry 20000 field 0: B3 BadInt"

{ cat s.txt; head -c 65537 /dev/zero | tr '\0' '#'; } >comment
head -c 65536 comment >most.txt
run most.txt a.csv
judge "a script of 65,536 bytes" 0 "n = 3"
head -c 65537 comment >most.txt
run most.txt a.csv
judge "a script of 65,537 bytes" 6 "script refused: longer than 65536 bytes"
{ cat a.csv; head -c 67108864 /dev/zero; } >huge.csv
run s.txt huge.csv
judge "a table of more than 67,108,864 bytes" 7 "table refused: longer than 67108864 bytes"
{ printf 'x:int'; head -c 67108859 /dev/zero | tr '\0' '\n'; } >huge.csv
run s.txt huge.csv
judge "a table of 67,108,864 bytes, most of them empty lines" 0 "n = 0"
rm -f huge.csv

: >empty
run empty a.csv
judge "an empty script" 0 ""
run s.txt empty
judge "an empty table" 7 "table refused at header field 0: B1 Header"
if [ -c /dev/null ]; then
    run /dev/null /dev/null
    judge "a device" 7 "table refused at header field 0: B1 Header"
else
    skip "a device: /dev/null is none"
fi

mkdir dir
run dir a.csv
judge "a folder as script" 3 "read failed: dir"
run s.txt dir
judge "a folder as table" 3 "read failed: dir"
run s.txt a.csv/a.csv
judge "a file for a folder" 3 "read failed: a.csv/a.csv"
run bad.txt dir
judge "a script that is refused before the table is read" 6 "script refused at line 1 place 13: S1 Syntax"
run s.txt dir --slots 0
judge "the words before a folder" 2 "$usage"

if [ "$(id -u)" -eq 0 ]; then
    skip "files without read permission: root reads them"
else
    cp s.txt closed.txt && chmod 000 closed.txt
    run closed.txt a.csv
    judge "a script without read permission" 3 "read failed: closed.txt"
    cp a.csv closed.csv && chmod 000 closed.csv
    run s.txt closed.csv
    judge "a table without read permission" 3 "read failed: closed.csv"
fi

# ---- a million entries

large() {
    awk 'BEGIN { print "x:int"; for (i = 0; i < 1000000; i++) print i }' >million.csv
    run sum.txt million.csv --slots 4
    judge "1,000,000 entries" 0 "n = 1000000
s = 499999500000
l = 999999"
    { cat million.csv; echo x; } >more.csv
    run sum.txt more.csv
    judge "1,000,001 entries, the last with a bad cell" 7 "table refused at entry 1000000: B5 TooMany"
    { cat million.csv; echo 1,2; } >more.csv
    run sum.txt more.csv
    judge "1,000,001 entries, the last with a field too many" 7 "table refused at entry 1000000: B5 TooMany"
    # The sum of the entries' own numbers tells over which clusters a line is.
    printf 's = df.Sum("x")\nWatch(s)\nPrint(s)\n' >watch.txt
    run_within 60 watch.txt million.csv --cluster 1
    judge "1,000,000 clusters, one slot: 1,000 partial lines" 0 "$(awk 'BEGIN {
        for (j = 1; j <= 1000; j++) { n = 1000 * j; printf "partial s over 0-%d = %.0f\n", n - 1, n * (n - 1) / 2 }
        print "s = 499999500000" }')"
    run_within 120 watch.txt million.csv --cluster 1 --slots 4
    # Each line must name 1,000 clusters more than the one before, and its value be the sum over them.
    awk '$1 == "partial" {
            named = sum = 0
            parts = split($4, part, ",")
            for (i = 1; i <= parts; i++) {
                ends = split(part[i], end, "-")
                high = ends == 2 ? end[2] : end[1]
                named += high - end[1] + 1
                sum += (high - end[1] + 1) * (high + end[1]) / 2
            }
            lines++
            if (named != 1000 * lines || $6 != sum) bad++
        }
        END { print lines + 0 " lines, " bad + 0 " bad; " $0 }' out >counted && mv counted out
    judge "1,000,000 clusters, four slots: 1,000 partial lines" 0 "1000 lines, 0 bad; s = 499999500000"
    rm -f million.csv more.csv
}
if [ "${OUTSIDE_SMALL:-0}" = 1 ]; then skip "tables of a million entries"; else large; fi

# ---- friends of a million entries

# In at most 10 s of processor time: a join in quadratic time doesn't end in it.
joined() { # NAME STATUS OUTPUT SCRIPT TABLE WORDS..
    name=$1 wanted_status=$2 output=$3
    shift 3
    for slots in 1 3; do
        run_within 10 "$@" --slots $slots
        judge "$name, --slots $slots" "$wanted_status" "$output"
    done
}

friends() {
    printf 'k:int\n0\n-3\n999999\n' >three.csv
    printf 't = df.Take("run")\nPrint(t)\n' >run.txt
    awk 'BEGIN { print "k:int,run:int"; for (i = 0; i < 1000000; i++) print "0," i }' >friend.csv
    joined "one key of a friend a million times" 9 "friend refused at entry 1: J4 Duplicate" \
        run.txt three.csv --friend friend.csv --key k
    # 7,368,787 and 1,000,000 have no common divisor, so each number below 1,000,000 comes once, in no order.
    awk 'BEGIN { print "k:int,run:int"; for (i = 0; i < 1000000; i++) print i * 7368787 % 1000000 "," i }' >friend.csv
    joined "a friend of 1,000,000 entries in no order" 0 "t = 0 7 $(awk -F , '$1 == 999999 { print $2 }' friend.csv)" \
        run.txt three.csv --friend friend.csv --key k --missing 7
    { sed '$d' friend.csv; echo 0,1; } >twice.csv
    joined "the last of 1,000,000 entries has the first one's key" 9 "friend refused at entry 999999: J4 Duplicate" \
        run.txt three.csv --friend twice.csv --key k
    echo 3,1 >>friend.csv
    joined "a friend of 1,000,001 entries" 9 "friend refused at entry 1000000: B5 TooMany" \
        run.txt three.csv --friend friend.csv --key k
    # Keys that differ by 2^44, so that what a hash keeps of their lower bits is one.
    awk 'BEGIN { print "k:int,run:int"; for (i = 0; i < 1000000; i++) printf "%.0f,%d\n", (i - 500000) * 17592186044416, i }' >friend.csv
    printf 'k:int\n0\n-8796093022208000000\n8796075430021955584\n17592186044415\n' >ends.csv
    joined "1,000,000 keys that differ in their upper bits alone" 0 "t = 500000 0 999999 -1" \
        run.txt ends.csv --friend friend.csv --key k --missing=-1

    printf 'n = df.Count()\ns = df.Sum("v")\nPrint(n)\nPrint(s)\n' >elements.txt
    awk 'BEGIN { print "k:int"; for (i = 0; i < 1000000; i++) print 5 }' >same.csv
    { printf 'v:vec,k:int\n1'; awk 'BEGIN { for (i = 1; i < 33; i++) printf ";1"; print ",5" }'; } >friend.csv
    joined "one key of the table a million times, 33,000,000 elements" 0 "n = 1000000
s = 33000000" elements.txt same.csv --friend friend.csv --key k
    { printf 'v:vec,k:int\n1'; awk 'BEGIN { for (i = 1; i < 34; i++) printf ";1"; print ",5" }'; } >friend.csv
    joined "34,000,000 elements" 9 "friend refused: J5 TooLarge" elements.txt same.csv --friend friend.csv --key k
    # 63 vectors of 4,096 elements at each of a million entries: 258,048,000,000 elements, in no 32 bits.
    awk 'BEGIN {
        row = 1; for (i = 1; i < 4096; i++) row = row ";1"
        for (j = 0; j < 63; j++) { head = head "v" j ":vec,"; all = all row "," }
        print head "k:int"; print all 5 }' >friend.csv
    joined "258,048,000,000 elements" 9 "friend refused: J5 TooLarge" s.txt same.csv --friend friend.csv --key k
    rm -f friend.csv twice.csv same.csv
}
if [ "${OUTSIDE_SMALL:-0}" = 1 ]; then skip "friends of a million entries"; else friends; fi

# ---- files of a friend

printf 'k:int,run:int\n2,20\n' >"a friend.csv"
printf 'k:int\n2\n3\n' >keys.csv
printf 't = df.Take("run")\nPrint(t)\n' >run.txt
run run.txt keys.csv --friend "a friend.csv" --key k
judge "a friend with a blank in its name" 0 "t = 20 0"
run run.txt keys.csv --friend none.csv --key k
judge "no file of a friend" 5 "no file none.csv"
run run.txt keys.csv --friend dir --key k
judge "a folder as friend" 3 "read failed: dir"
run run.txt bad.csv --friend dir --key k
judge "a table that is refused before the friend is read" 7 "table refused at entry 1 field 0: B3 BadInt"
: >nothing.csv
run run.txt keys.csv --friend nothing.csv --key k
judge "an empty friend" 9 "friend refused at header field 0: B1 Header"
{ cat "a friend.csv"; head -c 67108864 /dev/zero; } >huge.csv
run run.txt keys.csv --friend huge.csv --key k
judge "a friend of more than 67,108,864 bytes" 9 "friend refused: longer than 67108864 bytes"
rm -f huge.csv
printf 'run:int\n1\n2\n' >itself.csv
run s.txt itself.csv --friend itself.csv --key run
judge "a table as its own friend" 0 "n = 2"

# ---- threads

# Leaves in `most` the most threads that were seen at one moment while the program ran. A thread that has ended and was
# waited for stays in the system's list for a moment: its flags say that it leaves (4), and it is not counted. The list is
# read before the flags, so all that are counted were at work when the list was read.
run_counted() { # WORDS..
    "$program" "$@" >out 2>err </dev/null &
    most=0
    while :; do
        seen=$(cat "/proc/$!/task/"*/stat 2>/dev/null | awk '{ sub(/^.*\) /, ""); working += int($7 / 4) % 2 == 0 } END { print working + 0 }')
        [ "$seen" -gt 0 ] || break
        [ "$seen" -gt "$most" ] && most=$seen
    done
    wait $!
    echo $? >status
}

threads() {
    # A table that takes a while to read and to pack, in many lines and many columns.
    awk 'BEGIN {
        for (j = 0; j < 64; j++) printf "c%d:int%s", j, j < 63 ? "," : "\n"
        for (i = 0; i < 100000; i++) { row = i; for (j = 1; j < 64; j++) row = row "," i * j % 99991; print row }
    }' >wide.csv
    for slots in 1 3 16; do
        run_counted s.txt wide.csv --slots $slots
        judge "a wide table with $slots slots" 0 "n = 100000"
        [ "$most" -gt 0 ] && [ "$most" -le $slots ] && [ $slots -eq 1 -o "$most" -gt 1 ] && echo "at most $slots threads" >out || echo "$most threads" >out
        judge "threads of $slots slots" 0 "at most $slots threads"
    done
    rm -f wide.csv
}
if [ "${OUTSIDE_SMALL:-0}" = 1 ]; then
    skip "threads over a large table"
elif ! grep -qs . "/proc/$$/task/$$/stat"; then
    skip "threads: no /proc"
else
    threads
fi

# ---- pipes

mkfifo script.pipe table.pipe
{ printf 'n = df.Cou'; sleep 0.1; printf 'nt()\nPrint(n)\n'; } >script.pipe &
{ printf 'x:int\n1'; sleep 0.3; printf '1\n2\n'; sleep 0.1; printf '3\n'; } >table.pipe &
run script.pipe table.pipe
judge "pipes as script and as table, in pieces" 0 "n = 3"
wait
cat long.csv >table.pipe &
run sum.txt table.pipe
judge "a long table through a pipe" 0 "n = 20000
s = 199990000
l = 19999"
wait
"$program" /dev/stdin a.csv <s.txt >out 2>err; echo $? >status
judge "standard input as script" 0 "n = 3"
cat a.csv | "$program" s.txt /dev/stdin >out 2>err; echo $? >status
judge "a pipe on standard input as table" 0 "n = 3"

# ---- outputs

if [ -c /dev/full ]; then
    "$program" s.txt a.csv >/dev/full 2>err </dev/null; echo $? >status; : >out
    judge "a full output" 4 ""
    "$program" >/dev/full 2>err </dev/null; echo $? >status
    judge "a full output for a refusal" 4 ""
else
    skip "a full output: no /dev/full"
fi
"$program" s.txt a.csv >&- 2>err </dev/null; echo $? >status; : >out
judge "a closed output" "0 4" ""
echo "a closed output: status $(cat status)"
{ sleep 0.3; "$program" sum.txt long.csv 2>err </dev/null; echo $? >status; } | true
sleep 0.6
: >out
judge "a pipe that nobody reads" 4 ""
awk 'BEGIN { for (i = 0; i < 16; i++) print "t" i " = df.Take(\"x\")"; for (i = 0; i < 16; i++) print "Print(t" i ")" }' >takes.txt
"$program" takes.txt long.csv 2>err </dev/null | wc -c >out; echo 0 >status
# 16 lines, each of 88,890 digits and 20,000 blanks or line ends, and labels of 5 or 6 bytes
judge "1.7 MB of output through a pipe" 0 1742326

rdf=$program
run_random cases 60
run_random blocks 100

# ---- shards: rdf_shard is RDF_SHARD_PROGRAM, or crates/rdf_shard/out/rdf_shard

shard=${RDF_SHARD_PROGRAM:-$top/crates/rdf_shard/out/rdf_shard}
case $shard in /*) ;; *) shard=$old_folder/$shard ;; esac

# Leaves in `p0`, `p1`.. what rdf_shard writes for spans of so many clusters.
write_shards() { # SCRIPT TABLE SIZE CLUSTERS SPAN
    low=0 files=
    while [ $low -lt $4 ]; do
        high=$((low + $5 < $4 ? low + $5 : $4))
        "$shard" run "$1" "$2" "$3" $low $high >p$low 2>err || echo "FAILED run $1 $2 $3 $low $high: status $?"
        files="p$low $files"
        low=$high
    done
}

shards() {
    program=$shard
    usage="usage: rdf_shard run SCRIPT TABLE SIZE LO HI | merge SCRIPT FILE"
    run
    judge "rdf_shard: no words" 2 "$usage"
    run run s.txt "$(printf 'a\377.csv')" 1 0 1
    judge "rdf_shard: a word that isn't UTF-8" 2 "$usage"
    run run s.txt a.csv 2 0 1
    judge "rdf_shard: a file" 0 "rdfshard 1
table 3 2
column x int
span 0 1
loop
count 2
end"
    run run dir a.csv 2 0 1
    judge "rdf_shard: a folder as script" 3 "read failed: dir"
    run run s.txt dir 2 0 1
    judge "rdf_shard: a folder as table" 3 "read failed: dir"
    write_shards s.txt a.csv 1 3 1
    run merge s.txt $files
    judge "rdf_shard: three files" 0 "n = 3"
    cp p0 "a file"
    run merge s.txt "a file" ./p1 "$folder/p2"
    judge "rdf_shard: blanks and paths in names" 0 "n = 3"
    run merge s.txt p0 dir p2
    judge "rdf_shard: a folder as file" 3 "read failed: dir"
    run merge s.txt a.csv dir
    judge "rdf_shard: a file that is refused before a folder" 21 "file a.csv refused at line 1"
    run merge bad.txt dir
    judge "rdf_shard: a script that is refused before a folder" 6 "script refused at line 1 place 13: S1 Syntax"
    cat p2 | "$shard" merge s.txt p0 /dev/stdin p1 >out 2>err; echo $? >status
    judge "rdf_shard: a pipe as file" 0 "n = 3"
    if [ -c /dev/full ]; then
        "$shard" run s.txt a.csv 2 0 1 >/dev/full 2>err </dev/null; echo $? >status; : >out
        judge "rdf_shard: a full output" 4 ""
    fi
    write_shards pieces.txt pieces.csv 1777 "$(cuts_of pieces.csv 1777)" 3
    run merge pieces.txt $files
    judge "rdf_shard: spans of a table with marks and vectors" 0 "$due"
    rm -f p[0-9]*
    run_random shards 60

    head -c 134217728 /dev/zero >huge
    run merge s.txt huge
    judge "rdf_shard: a file of 134,217,728 bytes" 21 "file huge refused at line 1"
    printf x >>huge
    run merge s.txt huge
    judge "rdf_shard: a file of 134,217,729 bytes" 24 "files longer than 134217728 bytes"
    "$shard" run s.txt a.csv 3 0 1 >p0
    head -c $((134217729 - $(wc -c <p0))) /dev/zero >huge
    run merge s.txt p0 huge
    judge "rdf_shard: files of 134,217,729 bytes together" 24 "files longer than 134217728 bytes"
    run merge s.txt huge p0
    judge "rdf_shard: a file that is refused before they are too long" 21 "file huge refused at line 1"
    rm -f huge
}

# How many clusters a table has, whose last column marks their beginnings.
cuts_of() { # TABLE SIZE
    awk -F , -v size="$2" 'NR > 1 { if (NR == 2 || held == size || $NF == 1) { cuts++; held = 0 } held++ } END { print cuts }' "$1"
}

large_shards() {
    program=$shard
    awk 'BEGIN { print "x:int"; for (i = 0; i < 1000000; i++) print i }' >million.csv
    write_shards sum.txt million.csv 10000 100 9
    run merge sum.txt $files
    judge "rdf_shard: 1,000,000 entries in 12 files" 0 "n = 1000000
s = 499999500000
l = 999999"
    rm -f p[0-9]*
    awk 'BEGIN { print "x:int"; for (i = 0; i < 1000000; i++) printf "-922337203685%07d\n", i }' >long.csv
    for takes in 6 7; do
        awk -v takes=$takes 'BEGIN { for (i = 0; i < takes; i++) print "t" i " = df.Take(\"x\")"; print "Print(t0)" }' >takes.txt
        "$shard" run takes.txt long.csv 1000000 0 1 >text 2>err; echo $? >status
        { head -n 4 text; wc -c <text; } >out
        if [ $takes = 6 ]; then
            # 54 bytes of first lines, 6 lines of 13 bytes and 21 for each value, and `end`
            judge "rdf_shard: a text of 126 MB" 0 "rdfshard 1
table 1000000 1
column x int
span 0 1
126000136"
        else
            judge "rdf_shard: a text of 147 MB" 24 "files longer than 134217728 bytes
34"
        fi
    done
    rm -f million.csv long.csv text
}

if [ -x "$shard" ]; then
    shards
    if [ "${OUTSIDE_SMALL:-0}" = 1 ]; then skip "shards of a million entries"; else large_shards; fi
elif [ -z "${RDF_SHARD_PROGRAM:-}" ] && [ ! -d "$top/crates/rdf_shard" ]; then
    skip "shards: there is no rdf_shard yet"
else
    echo "outside_test: no program at $shard"
    failed=$((failed + 1))
fi

# ---- snapshots: rdf_snapshot is RDF_SNAPSHOT_PROGRAM, or crates/rdf_snapshot/out/rdf_snapshot

snapshot=${RDF_SNAPSHOT_PROGRAM:-$top/crates/rdf_snapshot/out/rdf_snapshot}
case $snapshot in /*) ;; *) snapshot=$old_folder/$snapshot ;; esac

snapshots() {
    program=$snapshot
    usage="usage: rdf_snapshot SCRIPT TABLE NODE COLUMNS UNDER [--slots N] [--cluster N]"
    run
    judge "rdf_snapshot: no words" 2 "$usage"
    run s.txt a.csv "$(printf 'd\377f')" x nominal
    judge "rdf_snapshot: a word that isn't UTF-8" 2 "$usage"
    run s.txt a.csv df x nominal --slots 2 --cluster 1
    judge "rdf_snapshot: a table" 0 "$(cat a.csv)"
    run dir a.csv df x nominal
    judge "rdf_snapshot: a folder as script" 3 "read failed: dir"
    run s.txt dir df x nominal
    judge "rdf_snapshot: a folder as table" 3 "read failed: dir"
    if [ -c /dev/full ]; then
        "$snapshot" s.txt a.csv df x nominal >/dev/full 2>err </dev/null; echo $? >status; : >out
        judge "rdf_snapshot: a full output" 4 ""
    fi
    # What is written reads back: the same Takes and Sums as over the table itself.
    echo 'd = df.Define("load", "Sum(v)")' >load.txt
    for slots in 1 3; do
        program=$snapshot
        run load.txt pieces.csv d x,load,v nominal --slots $slots --cluster 1777
        mv out back.csv
        sed 's/"Sum(v)"/"load + 0"/; s/Define("load"/Define("again"/; s/Take("load")/Take("again")/' pieces.txt >back.txt
        program=$rdf
        run back.txt back.csv
        judge "rdf_snapshot: a table with vectors, read back, --slots $slots" 0 "$due"
    done
    rm -f back.csv
    program=$snapshot
    run_random snapshots 60
}

large_snapshots() {
    program=$snapshot
    awk 'BEGIN { print "x:int"; for (i = 0; i < 1000000; i++) printf "-922337203685%07d\n", i }' >long.csv
    printf 'a = df.Define("y", "x")\nb = a.Define("z", "y + 0")\n' >copies.txt
    "$snapshot" copies.txt long.csv b x,y,z nominal >out 2>err; echo $? >status
    { head -n 2 out; wc -c <out; } >begin && mv begin out
    # 18 bytes of header, and 63 for each entry
    judge "rdf_snapshot: a text of 63 MB" 0 "x:int,y:int,z:int
-9223372036850000000,-9223372036850000000,-9223372036850000000
63000018"
    echo 'c = b.Alias("w", "x")' >>copies.txt
    run copies.txt long.csv c x,y,z,w nominal
    judge "rdf_snapshot: a text of 84 MB" 14 "snapshot longer than 67108864 bytes"
    echo 'e = c.Define("q", "1 / (x + 9223372036850999999)")' >>copies.txt
    run copies.txt long.csv e x,y,z,w,q nominal
    judge "rdf_snapshot: a fault before a text that is too long" 8 "fault at entry 999999 in e: F2 ZeroDivisor"
    rm -f long.csv
}

if [ -x "$snapshot" ]; then
    snapshots
    if [ "${OUTSIDE_SMALL:-0}" = 1 ]; then skip "snapshots of a million entries"; else large_snapshots; fi
elif [ -z "${RDF_SNAPSHOT_PROGRAM:-}" ] && [ ! -d "$top/crates/rdf_snapshot" ]; then
    skip "snapshots: there is no rdf_snapshot yet"
else
    echo "outside_test: no program at $snapshot"
    failed=$((failed + 1))
fi
# ---- chains: rdf_chain is RDF_CHAIN_PROGRAM, or crates/rdf_chain/out/rdf_chain

chain=${RDF_CHAIN_PROGRAM:-$top/crates/rdf_chain/out/rdf_chain}
case $chain in /*) ;; *) chain=$old_folder/$chain ;; esac

chains() {
    program=$chain
    usage="usage: rdf_chain run SCRIPT TABLE.. [--slots N] [--cluster N] | map SCRIPT NUMBER TABLE [--slots N] [--cluster N] | join SCRIPT PART.. | print SCRIPT COUNT PART"
    run
    judge "rdf_chain: no words" 2 "$usage"
    run run s.txt "$(printf 'a\377.csv')"
    judge "rdf_chain: a word that isn't UTF-8" 2 "$usage"
    run run s.txt a.csv "tablé.csv" "$folder/a.csv" --slots 2 --cluster 1
    judge "rdf_chain: paths and letters of other alphabets in names" 0 "n = 9"
    for name in 0 1 2; do "$chain" map s.txt $name a.csv >p$name; done
    run map s.txt 0 a.csv
    # the hash of the script's 24 bytes
    judge "rdf_chain: a part" 0 "rdfpart 1
files 0 1
entries 3
script 10a7206c975eb50a
column x int
loop
count 3
end"
    cp p1 "a part"
    run join s.txt p2 "a part" "$folder/p0"
    mv out whole
    run print s.txt 3 whole
    judge "rdf_chain: blanks and paths in names" 0 "n = 9"
    for words in "run dir a.csv" "run s.txt dir" "run s.txt a.csv dir" "map dir 0 a.csv" "map s.txt 0 dir" "join dir p0" "join s.txt dir" \
        "join s.txt p0 dir" "print dir 1 p0" "print s.txt 1 dir"; do
        run $words
        judge "rdf_chain: a folder, $words" 3 "read failed: dir"
    done
    run run bad.txt dir
    judge "rdf_chain: a script that is refused before a folder" 6 "script refused at line 1 place 13: S1 Syntax"
    run run s.txt bad.csv dir
    judge "rdf_chain: a table that is refused before a folder" 7 "table bad.csv refused at entry 1 field 0: B3 BadInt"
    run join s.txt a.csv dir
    judge "rdf_chain: a part that is refused before a folder" 21 "file a.csv refused at line 1"
    cat a.csv | "$chain" run s.txt a.csv /dev/stdin a.csv >out 2>err; echo $? >status
    judge "rdf_chain: a pipe as table" 0 "n = 9"
    printf 'n = df.Count()\nPrint(n)\ns = df.Sum("x")\nPrint(s)\n' >two.txt
    cat a.csv | "$chain" run two.txt a.csv /dev/stdin >out 2>err; echo $? >status
    judge "rdf_chain: a pipe as table of two loops" 0 "n = 6
s = 12"
    cat p2 | "$chain" join s.txt p0 /dev/stdin p1 >out 2>err; echo $? >status
    cmp -s out whole && : >out
    judge "rdf_chain: a pipe as part" 0 ""
    if [ -c /dev/full ]; then
        "$chain" run s.txt a.csv >/dev/full 2>err </dev/null; echo $? >status; : >out
        judge "rdf_chain: a full output" 4 ""
    fi
    pieces_as_chain
    rm -f p? whole "a part"
    run_random chains 60
}

# The table with marks and vectors, cut into files of 3,000 entries, some of which lose their marks.
pieces_as_chain() {
    header=$(head -n 1 pieces.csv)
    tail -n +2 pieces.csv | split -l 3000 - piece_
    number=0 files= parts=
    for piece in piece_*; do
        { echo "$header"; cat $piece; } >$piece.csv
        [ $((number % 2)) = 0 ] || { sed 's/,[^,]*$//' $piece.csv >cut && mv cut $piece.csv; }
        "$chain" map pieces.txt $number $piece.csv --slots 3 --cluster 777 >part_$number || echo "FAILED map $number: status $?"
        files="$files $piece.csv" parts="part_$number $parts"
        number=$((number + 1))
    done
    run run pieces.txt $files --slots 2
    judge "rdf_chain: a chain of tables with marks and vectors" 0 "$due"
    run join pieces.txt $parts
    mv out whole
    run print pieces.txt $number whole
    judge "rdf_chain: its parts" 0 "$due"
    rm -f piece_* part_*
}

# A part with one Take: so many numbers of 20 characters, and one of so many digits.
part_of_numbers() { # FILES ENTRIES HASH COUNT DIGITS
    awk -v files="$1" -v entries="$2" -v hash="$3" -v count="$4" -v digits="$5" 'BEGIN {
        printf "rdfpart 1\nfiles %s\nentries %d\nscript %s\ncolumn x int\nloop\ntake %d", files, entries, hash, count + 1
        for (i = 0; i < count; i++) printf " -9223372036854775808"
        print " " substr("123456789012345678", 1, digits) "\nend"
    }'
}

large_chains() {
    program=$chain
    awk 'BEGIN { print "x:int"; for (i = 0; i < 1000000; i++) printf "-922337203685%07d\n", i }' >long.csv
    for takes in 6 7; do
        awk -v takes=$takes 'BEGIN { for (i = 0; i < takes; i++) print "t" i " = df.Take(\"x\")"; print "Print(t0)" }' >takes.txt
        "$chain" map takes.txt 0 long.csv >text 2>err; echo $? >status
        { head -n 3 text; wc -c <text; } >out
        if [ $takes = 6 ]; then
            # 82 bytes of first lines, `loop` and `end`, and 6 lines of 13 bytes and 21 for each value
            judge "rdf_chain: a part of 126 MB" 0 "rdfpart 1
files 0 1
entries 1000000
126000160"
        else
            judge "rdf_chain: a part of 147 MB" 24 "part longer than 134217728 bytes
33"
        fi
    done
    run run takes.txt long.csv long.csv
    wc -c <out >text && mv text out
    # 5 bytes, and 21 for each value
    judge "rdf_chain: a line of 42 MB" 0 42000005
    rm -f long.csv

    # The joined part has 95 bytes beside its values, and each printed line 4.
    printf 't = df.Take("x")\nPrint(t)\n' >take.txt
    printf 't = df.Take("x")\n' >takes.txt
    for i in 1 2 3 4 5 6 7 8; do echo "Print(t)" >>takes.txt; done
    { part_of_numbers "7 8" 0 a07fd2b052605404 0 1 | sed 's/^take.*/take 0/'; } >p1
    for digits in 17 18; do
        part_of_numbers "0 7" 7000000 a07fd2b052605404 6391315 $digits >p0
        "$chain" join take.txt p1 p0 >text 2>err; echo $? >status
        { head -n 2 text; wc -c <text; } >out
        [ $digits = 17 ] && judge "rdf_chain: a joined part of 134,217,728 bytes" 0 "rdfpart 1
files 0 8
134217728"
        [ $digits = 18 ] && judge "rdf_chain: a joined part of 134,217,729 bytes" 24 "part longer than 134217728 bytes
33"
        part_of_numbers "0 1" 1000000 390a3995fde6fc00 798914 $digits >p0
        "$chain" print takes.txt 1 p0 >text 2>err; echo $? >status
        { head -c 5 text; echo; wc -c <text; } >out
        [ $digits = 17 ] && judge "rdf_chain: 134,217,728 bytes to print" 0 "t = -
134217728"
        [ $digits = 18 ] && judge "rdf_chain: 134,217,736 bytes to print" 24 "part 
33"
    done
    rm -f text p0 p1

    head -c 67108864 /dev/zero >huge
    run run s.txt a.csv huge
    judge "rdf_chain: a table of 67,108,864 bytes" 7 "table huge refused at header field 0: B1 Header"
    printf x >>huge
    run run s.txt a.csv huge
    judge "rdf_chain: a table of 67,108,865 bytes" 7 "table huge refused: longer than 67108864 bytes"
    head -c 1073741824 /dev/zero >huge
    run join s.txt huge
    judge "rdf_chain: a part of 1 GiB" 21 "file huge refused at line 1"
    printf x >>huge
    run join s.txt huge
    judge "rdf_chain: a part of 1 GiB and a byte" 24 "files longer than 1073741824 bytes"
    run print s.txt 1 huge
    judge "rdf_chain: a part of 1 GiB and a byte to print" 24 "files longer than 1073741824 bytes"
    "$chain" map s.txt 0 a.csv >p0
    head -c $((1073741825 - $(wc -c <p0))) /dev/zero >huge
    run join s.txt p0 huge
    judge "rdf_chain: parts of 1 GiB and a byte together" 24 "files longer than 1073741824 bytes"
    run join s.txt huge p0
    judge "rdf_chain: a part that is refused before they are too long" 21 "file huge refused at line 1"
    rm -f huge p0
}

if [ -x "$chain" ]; then
    chains
    if [ "${OUTSIDE_SMALL:-0}" = 1 ]; then skip "long parts of chains"; else large_chains; fi
elif [ -z "${RDF_CHAIN_PROGRAM:-}" ] && [ ! -d "$top/crates/rdf_chain" ]; then
    skip "chains: there is no rdf_chain yet"
else
    echo "outside_test: no program at $chain"
    failed=$((failed + 1))
fi
program=$rdf

echo "outside_test: $tests tests, $skipped skipped, $failed failed"
[ $failed -eq 0 ]
