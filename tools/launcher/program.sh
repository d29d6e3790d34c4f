# Which file is run for a program: the one that was built here, or the released one.
# ./rdf and tools/release.sh read this; they set `top`, the folder of the repository.

# A crate and all crates of the repository that it stands on.
crates_below() { # CRATE
    awk -v first="$1" '{ sub(/#.*/, "") }
        split($0, half, ":") == 2 { split(half[1], head, " "); below[head[1]] = half[2] }
        END {
            queue[count = 1] = first
            seen[first]
            for (i = 1; i <= count; i++) {
                print queue[i]
                parts = split(below[queue[i]], part, " ")
                for (j = 1; j <= parts; j++)
                    if (part[j] in below && !(part[j] in seen)) { seen[part[j]]; queue[++count] = part[j] }
            }
        }' "$top/crates.txt" | LC_ALL=C sort
}

# Whether a program was built here after its last source was written.
is_built() { # PROGRAM
    [ -x "$top/crates/$1/out/$1" ] || return 1
    newer=$(
        cd "$top" || exit
        find crates.txt $(crates_below "$1" | sed 's|^|crates/|') -path '*/out' -prune -o \
            \( -name '*.rt' -o -name '*.antt' -o -name crates.txt \) -newer "crates/$1/out/$1" -print 2>/dev/null | head -n 1
    )
    [ -z "$newer" ]
}

# One number over what a program is made of: the sources and specs of the crates below it, and their lines
# of crates.txt. Proofs aren't in it: they leave the program as it is.
sources_hash() { # PROGRAM
    (
        cd "$top" || exit
        crates=$(crates_below "$1" | tr '\n' ' ')
        {
            awk -v crates="$crates" '
                BEGIN { count = split(crates, name, " "); for (i = 1; i <= count; i++) below[name[i]] }
                { sub(/#.*/, ""); head = $1; sub(/:.*/, "", head); $1 = $1 }
                head in below' crates.txt | LC_ALL=C sort
            find $(for crate in $crates; do echo "crates/$crate/src" "crates/$crate/specs"; done) -type f 2>/dev/null |
                LC_ALL=C sort | xargs sha256sum
        } | sha256sum | cut -d ' ' -f 1
    )
}

sum_of() { sha256sum <"$1" | cut -d ' ' -f 1; }

# A line of a released program's record: `kit`, `sources` or `program`.
recorded() { # PROGRAM KEY
    sed -n "s/^$2 //p" "$top/release/$1.txt" 2>/dev/null
}

# Whether the released program is of these sources and runs on this machine; where it isn't, `why` tells.
is_released() { # PROGRAM
    why=
    if [ ! -f "$top/release/$1" ] || [ ! -f "$top/release/$1.txt" ]; then
        why="none is released"
    elif [ "$(uname -s) $(uname -m)" != "Linux x86_64" ]; then
        why="the released one is for x86-64 Linux"
    elif ! command -v sha256sum >/dev/null; then
        why="without sha256sum the released one can't be checked"
    elif [ "$(recorded "$1" sources)" != "$(sources_hash "$1")" ]; then
        why="the released one is of other sources"
    elif [ "$(recorded "$1" program)" != "$(sum_of "$top/release/$1")" ]; then
        why="release/$1 isn't the file of which release/$1.txt tells"
    else
        # Without words a program answers its usage line.
        "$top/release/$1" >/dev/null 2>&1 </dev/null
        [ $? -eq 2 ] || why="the released one doesn't run on this machine"
    fi
    [ -z "$why" ]
}
