# The words of rdf_chain. words.sh reads this.

# A name, or the number that stands behind the script.
note_name() { # WORD
    names=$((names + 1))
    case $command,$names in
        map,2) look_at_number NUMBER "$1" 0 16777215 ;;
        print,2) look_at_number COUNT "$1" 1 16777216 ;;
        map,4 | print,4) fault="'$1': a word more, and $wanted" ;;
    esac
}

look_at_command() { # WORDS
    command=${1-}
    case $command in
        run) least=2 most=16385 takes=" --slots --cluster " wanted="run takes SCRIPT and 1 to 16384 tables" ;;
        map) least=3 most=3 takes=" --slots --cluster " wanted="map takes SCRIPT NUMBER TABLE" ;;
        join) least=2 most=4097 takes= wanted="join takes SCRIPT and 1 to 4096 parts" ;;
        print) least=3 most=3 takes= wanted="print takes SCRIPT COUNT PART" ;;
        '') fault="run, map, join or print is wanted" && return ;;
        *) fault="'$1': run, map, join or print is wanted" && return ;;
    esac
    shift
    look_at_words "$@"
    [ -n "$fault" ] || { [ $names -ge $least ] && [ $names -le $most ]; } || fault="$wanted, and here are $names"
}
