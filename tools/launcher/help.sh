# What ./rdf --help and ./rdf --version print. ./rdf reads this.

version=1.0

help() { # PROGRAM
    case $1 in
        rdf_shard) help_shard ;;
        rdf_snapshot) help_snapshot ;;
        rdf_chain) help_chain ;;
        *) help_rdf ;;
    esac
}

help_rdf() {
    cat <<'TEXT'
usage: rdf SCRIPT TABLE [OPTIONS]         run a script over a table and print its results
       rdf ENTRIES SEED --make [OPTIONS]  the same with a script and a table that are made:
                                          ENTRIES from 1 to 1000000, SEED from 0 to 4294967295
TEXT
    if [ -x "$top/tools/rdf_describe" ]; then
        echo "       rdf describe TABLE                 a table's columns, entries and ranges"
    fi
    if [ -x "$top/tools/rdf_show" ]; then
        echo "       rdf show TABLE [N]                 its first entries, aligned"
    fi
    if [ -d "$top/crates/rdf_snapshot" ]; then
        echo "       rdf snapshot ..                    write what passes a script's filters as a table"
    fi
    if [ -d "$top/crates/rdf_shard" ]; then
        echo "       rdf shard ..                       run over a part of a table, and merge such runs"
    fi
    if [ -d "$top/crates/rdf_chain" ]; then
        echo "       rdf chain ..                       run over many tables, at once or one by one"
    fi
    cat <<'TEXT'
       rdf --build                        prove the program's crates and build it here
       rdf --program                      the path of the program that a call runs
       rdf --help, -h                     this text
       rdf --version                      the version, and which program would run

options, before, between or behind the names:
  --slots N     threads that work side by side       1 to 16        without it 1
  --cluster N   entries that a thread takes at once  1 to 1000000   without it 10000
  --watch K     a watched result is noted after
                every K-th finished cluster          1 to 1000000   without it 1
  --friend FILE a table whose columns join this one's, entry by entry, where a key is equal
  --key NAME    the int column of both that is the key; it comes with --friend
  --missing N   what an entry without a friend
                has in an int column                 64 bits          without it 0
  --            every word behind it is a name; so is one with a folder, as ./describe

example:
  ./rdf examples/muon_pairs.txt examples/muon_pairs.csv --slots 4

The results stand on standard output, and so does the line of a refusal or a fault.
status  0  every Print was written           5  a file isn't there
        1  memory ran out                    6  the script is refused
        2  the words aren't taken            7  the table is refused
        3  a file can't be read              8  a fault at an entry ended an event loop
        4  the output can't be written       9  the friend is refused
                                            70  the program can't be built

On standard error stand hints: what is wrong, where, and what may be meant. RDF_HINTS=0 leaves them out.
RDF_JOBS=N sets how many crates are proved side by side.

docs/TUTORIAL.md  a first hour            docs/ERRORS.md   each refusal and fault, and its remedy
docs/LANGUAGE.md  scripts, expressions    docs/FORMATS.md  tables, output, statuses
TEXT
}

help_snapshot() {
    cat <<'TEXT'
usage: rdf snapshot SCRIPT TABLE NODE COLUMNS UNDER [--slots N] [--cluster N]

It writes the entries of TABLE that pass the filters of a node of SCRIPT, in their order, as a table that
rdf reads again.
NODE     df, or a node that the script books
COLUMNS  1 to 64 columns that are seen at the node, with commas between: pt,jets
UNDER    nominal, or one variation of the script: scale:up

example:
  ./rdf snapshot examples/muon_pairs.txt examples/muon_pairs.csv df event,mass nominal --slots 4 >skim.csv

status  0  the table was written            10  the script has no such node
     1 - 8 as with rdf                      11  a column isn't seen there, is a truth value, or stands twice
                                            12  the script has no such variation
                                            13  too many columns for this script
                                            14  the table would have more than 67108864 bytes

./rdf snapshot --build, --program and --version are as without a command, and so are hints.
TEXT
    more
}

help_shard() {
    cat <<'TEXT'
usage: rdf shard run SCRIPT TABLE SIZE LO HI    write a file of what the script finds in the clusters from
                                                LO to below HI, where a cluster has SIZE entries
       rdf shard merge SCRIPT FILE..            print what the script prints, from 1 to 64 such files

SIZE is from 1 to 1000000; the clusters are those of --cluster SIZE. Each cluster of the table must stand in
one of the files that are merged. Their order doesn't matter, and each run may be on another machine. Watch
says nothing here.

example, of a table of 160 entries in four clusters of 40:
  ./rdf shard run examples/muon_pairs.txt examples/muon_pairs.csv 40 0 2 >low
  ./rdf shard run examples/muon_pairs.txt examples/muon_pairs.csv 40 2 4 >high
  ./rdf shard merge examples/muon_pairs.txt low high

status  0  the file or every Print was written    20  there are no such clusters
     1 - 8 as with rdf; a fault that run meets    21  a file isn't one that run wrote
           stands in its file, and merge          22  a file is of another table or script
           ends with 8                            23  a cluster stands in no file, or in two
                                                  24  the files have more than 134217728 bytes

./rdf shard --build, --program and --version are as without a command, and so are hints.
TEXT
    more
}

help_chain() {
    cat <<'TEXT'
usage: rdf chain run SCRIPT TABLE.. [OPTIONS]           run a script over many tables, as over one
       rdf chain map SCRIPT NUMBER TABLE [OPTIONS]      write the part of one table, the NUMBERth from 0
       rdf chain join SCRIPT PART..                     write one part of many that follow each other
       rdf chain print SCRIPT COUNT PART                print what a part of COUNT tables comes to

options of run and map, before, between or behind the names:
  --slots N     threads that work side by side       1 to 16        without it 1
  --cluster N   entries that a thread takes at once  1 to 1000000   without it 10000
  --            every word behind it is a name

All tables have the same columns, and each is within the limits of one; run takes 1 to 16384 of them, and
join 1 to 4096 parts. print after join and map gives what run gives. Watch says nothing here.

example:
  ./rdf chain run script.txt run1.csv run2.csv run3.csv --slots 4

status  0  the part or every Print was written    21  a file isn't a part
     1 - 8 as with rdf; a fault that map meets    22  a table has other columns, or a part another script
           stands in its part, and print          23  a file of the chain stands in no part, or in two
           ends with 8                            24  parts have too many bytes

Lines name a table by its number, from 0 in the order of the words; a hint adds its name.
./rdf chain --build, --program and --version are as without a command, and so are hints.
TEXT
    more
}

more() {
    cat <<'TEXT'

docs/TUTORIAL.md  a first hour                  docs/ERRORS.md  each refusal and its remedy
docs/FORMATS.md   words, files, lines, statuses
TEXT
}

# The version, the kit and the sources of a released program, and which program a call runs.
tell_version() { # PROGRAM
    command=${1#rdf}
    echo "$1 $version"
    if [ -f "$top/release/$1.txt" ]; then
        echo "released: kit $(recorded "$1" kit), sources $(recorded "$1" sources), program $(recorded "$1" program)"
    else
        echo "released: none"
    fi
    if is_built "$1"; then
        echo "runs: the program that was built here"
    elif is_released "$1"; then
        echo "runs: the released program"
    else
        echo "runs: none yet, since $why; ./rdf${command:+ ${command#_}} --build builds it"
    fi
}
