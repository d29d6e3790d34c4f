# The words of parallel.sh and snakemake.sh, and how they begin an engine. They set `farm`, the folder of this file.

# Names are printed as they are: an echo may take a backslash for more.
say() { printf 'farm: %s\n' "$*" >&2; }

usage() {
    say "usage: $(basename "$0") [OPTIONS] SCRIPT TABLE.."
    cat >&2 <<'TEXT'
  --work FOLDER   where parts are kept, and found again by the next call   without it farm-work
  --jobs N        steps that run side by side                              without it as many as processors
  --slots N       slots of each step                                       without it 1
  --group N       parts that one step joins, 2 to 4096                     without it 64
  --tries N       how often a step is tried                                without it 3
  --tables FILE   names of more tables, one on a line
  --              every word behind it is a name
TEXT
    more_usage
    exit 2
}
more_usage() { :; }

# Reads no options but those above; a recipe may have more.
more_option() { return 1; } # NAME WORD

is_number() { # WORD LEAST MOST
    case $1 in '' | 0?* | *[!0-9]* | ????????*) return 1 ;; esac
    [ "$1" -ge "$2" ] && [ "$1" -le "$3" ]
}

absolute() { case $1 in /*) printf '%s\n' "$1" ;; *) printf '%s\n' "$PWD/$1" ;; esac; }

# A line for each table goes to `list`: a name with a line end or a tab would be none.
note_table() { # NAME
    case $1 in
        *"$tab"* | *"$line_end"*) say "a table's name has a tab or a line end: $1"; exit 2 ;;
        '') return ;;
    esac
    table=$(absolute "$1")
    [ -f "$table" ] || { say "no file $table"; missing=yes; }
    printf '%s\n' "$table"
}

# Runs an engine beside the shell, so that an end that is asked of the recipe reaches it at once.
run_engine() { # COMMAND WORDS..
    "$@" </dev/null &
    engine=$!
    wait "$engine"
    status=$?
    engine=
    return $status
}

finish() {
    if [ -n "$engine" ]; then
        kill "$engine" 2>/dev/null
        wait "$engine"
    fi
    rm -rf "$run"
}

# Steps run in other folders too. Without words the program answers its usage, with status 2: so one that has to be
# built first is built once, before the steps.
need_program() {
    if [ -n "${RDF_CHAIN:-}" ]; then
        RDF_CHAIN=$(absolute "$RDF_CHAIN")
        export RDF_CHAIN
    fi
    RDF_HINTS=0 "$farm/chain.sh" </dev/null >/dev/null
    [ $? -eq 2 ] || { say "there is no program that runs"; exit 70; }
}

# Sets work, jobs, slots, group, tries, script and count, and writes the tables' names to `$run/tables`. `run` is a
# folder in the work folder which is there while the recipe runs. `jobs` is empty where none are named.
read_words() { # WORDS
    work=farm-work jobs= slots=1 group=64 tries=3 more= engine=
    tab=$(printf '\t')
    line_end='
'
    while [ $# -gt 0 ]; do
        case $1 in
            --work | --jobs | --slots | --group | --tries | --tables) [ $# -gt 1 ] || usage ;;
        esac
        case $1 in
            --work) work=$2 ;;
            --jobs) is_number "$2" 1 100000 || usage; jobs=$2 ;;
            --slots) is_number "$2" 1 16 || usage; slots=$2 ;;
            --group) is_number "$2" 2 4096 || usage; group=$2 ;;
            --tries) is_number "$2" 1 1000 || usage; tries=$2 ;;
            --tables) [ -f "$2" ] || { say "no file $2"; exit 5; }; more=$2 ;;
            --) shift; break ;;
            -*) [ $# -gt 1 ] && more_option "$1" "$2" || usage ;;
            *) break ;;
        esac
        shift 2
    done
    [ $# -gt 0 ] || usage
    script=$(absolute "$1")
    shift
    [ -f "$script" ] || { say "no file $script"; exit 5; }
    mkdir -p "$work" && work=$(cd "$work" && pwd -P) && run=$(mktemp -d "$work/.run.XXXXXX") || exit 4
    trap finish EXIT
    trap 'exit 129' HUP
    trap 'exit 130' INT
    trap 'exit 143' TERM
    missing=no
    for name in "$@"; do note_table "$name"; done >"$run/tables"
    [ -z "$more" ] || while IFS= read -r name || [ -n "$name" ]; do note_table "$name"; done <"$more" >>"$run/tables"
    [ $missing = no ] || exit 5
    count=$(($(wc -l <"$run/tables")))
    [ "$count" -gt 0 ] || usage
    need_program
}
