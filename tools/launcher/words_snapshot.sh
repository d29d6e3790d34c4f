# The words of rdf_snapshot. words.sh reads this.

takes=" --slots --cluster "
five="five words are wanted, SCRIPT TABLE NODE COLUMNS UNDER"

note_name() { # WORD
    names=$((names + 1))
    case $names in
        1 | 2) ;;
        3) found=$(fault_of_name "$1" "a node"); [ -z "$found" ] || fault="NODE: $found" ;;
        4) look_at_columns "$1" ;;
        5) look_at_under "$1" ;;
        *) fault="'$1': a word more, and $five" ;;
    esac
}

look_at_columns() { # WORD
    count=0 rest=$1,
    while [ -n "$rest" ] && [ -z "$fault" ]; do
        count=$((count + 1))
        found=$(fault_of_name "${rest%%,*}" "a column")
        rest=${rest#*,}
        [ -z "$found" ] || fault="COLUMNS: $found"
        [ $count -le 64 ] || fault="COLUMNS: there are more than 64"
    done
}

look_at_under() { # WORD
    case $1 in
        nominal) return ;;
        *:*:*) found="$1 has two colons" ;;
        *:*)
            found=$(fault_of_name "${1%:*}" "a variation")
            [ -n "$found" ] || found=$(fault_of_name "${1#*:}" "a tag")
            ;;
        *) found="'$1' is neither nominal nor a variation, as scale:up" ;;
    esac
    [ -z "$found" ] || fault="UNDER: $found"
}

look_at_command() { # WORDS
    look_at_words "$@"
    [ -n "$fault" ] || [ $names -eq 5 ] || fault="$five, and here are $names"
}
