# Runs the program and says on standard error what a refusal or a fault may mean. The program writes its
# output itself, and its status stays. ./rdf reads this; it sets `top`, `called`, `program` and `say`.

running=

# An end that is asked of the launcher is the program's too.
ended_by() { # SIGNAL
    if [ -n "$running" ]; then
        kill "$running" 2>/dev/null
        wait "$running" 2>/dev/null
    fi
    trap - "$1"
    kill -s "$1" $$
}

# Starts the program beside the shell. There it would lose the caller's standard input, which so comes
# through another number; where that one is in use, the program takes the launcher's place.
start_program() { # WORDS
    if ! { true 9<&0; } 2>/dev/null; then
        "$program" "$@" <&- &
    elif { true <&9; } 2>/dev/null; then
        exec "$program" "$@"
    else
        exec 9<&0
        "$program" "$@" <&9 9<&- &
        exec 9<&-
    fi
    running=$!
}

run_with_hints() { # WORDS
    for signal in INT TERM HUP QUIT; do
        trap "ended_by $signal" "$signal"
    done
    start_program "$@"
    wait "$running"
    status=$?
    trap - INT TERM HUP QUIT
    give_hint "$@" </dev/null
    exit $status
}

give_hint() { # WORDS
    case $status in
        0) shows_nothing "$@" && explain "$@" ;;
        2)
            . "$top/tools/launcher/words.sh"
            command=${called#rdf}
            say "$(fault_of_words "$@"); ./rdf${command:+ ${command#_}} --help tells more"
            ;;
        [1-9] | 1[0-4] | 2[0-5]) explain "$@" ;;
        137) say "the program was killed from outside, perhaps for want of memory" ;;
    esac
}

# What Python can say of it, and nothing where there is none.
explain() { # WORDS
    if [ -f "$top/tools/explain" ] && command -v python3 >/dev/null; then
        python3 -B "$top/tools/explain" "$program" "$status" "$@"
    fi
}

# Whether a program that prints what a script asks for had no Print.
shows_nothing() { # WORDS
    case $called,${1-} in
        rdf,*) no_print "$@" ;;
        rdf_chain,run) shift; no_print "$@" ;;
        *) return 1 ;;
    esac
}

# Whether the script, the first name of words that were taken, is a file that prints nothing.
no_print() { # WORDS
    while [ $# -gt 0 ]; do
        case $1 in
            --make) return 1 ;;
            --) shift; break ;;
            --*=*) ;;
            --*) shift ;;
            *) break ;;
        esac
        shift
    done
    [ $# -gt 0 ] && [ -f "$1" ] && ! grep -q '^[ 	]*Print' "$1"
}
