# Says which word of a command line that a program doesn't take is at fault, and why. What the programs
# share stands here, and what rdf takes; the others have a file each. ./rdf reads this; it sets `top` and `called`.

# The options that the program takes.
takes=" --slots --cluster --watch --friend --key --missing --make "

# Why a word isn't a number from LEAST to MOST; nothing where it is one.
fault_of_number() { # WORD LEAST MOST
    case $1 in
        '') echo "a number from $2 to $3 is missing" ;;
        0[0-9]*) echo "$1 begins with 0" ;;
        *[!0-9]*)
            case ${1#-} in
                *[!0-9]* | '') echo "$1 is no whole number in plain digits" ;;
                *) echo "$1 is not from $2 to $3" ;;
            esac
            ;;
        ???????????*) echo "$1 is not from $2 to $3" ;;
        *) { [ "$1" -ge "$2" ] && [ "$1" -le "$3" ]; } || echo "$1 is not from $2 to $3" ;;
    esac
}

# Why a word isn't a whole number of 64 bits; nothing where it is one.
fault_of_missing() { # WORD
    digits=${1#-}
    case $1 in
        '') echo "a number is missing" && return ;;
        -0) echo "-0 is written 0" && return ;;
        -*) most=9223372036854775808 ;;
        *) most=9223372036854775807 ;;
    esac
    case $digits in
        0?*) echo "$1 begins with 0" ;;
        *[!0-9]* | '') echo "$1 is no whole number in plain digits" ;;
        ????????????????????*) echo "$1 leaves 64 bits" ;;
        ???????????????????)
            [ "$(printf '%s\n' "$digits" $most | LC_ALL=C sort | sed -n '$p')" = $most ] || echo "$1 leaves 64 bits"
            ;;
    esac
}

# Why a word isn't the name of a column, a node or a variation; nothing where it is one.
fault_of_name() { # WORD WHAT
    case $1 in
        '') echo "$2's name is missing" ;;
        [0-9]* | *[!A-Za-z0-9_]* | true | false) echo "$1 is no $(echo "$2" | sed 's/^an* //')'s name" ;;
        *) [ ${#1} -le 64 ] || echo "a name has at most 64 letters" ;;
    esac
}

fault_of_option() { # NAME WORD
    case $1 in
        --slots) found=$(fault_of_number "$2" 1 16) ;;
        --friend) found= ;;
        --key) found=$(fault_of_name "$2" "a column") ;;
        --missing) found=$(fault_of_missing "$2") ;;
        *) found=$(fault_of_number "$2" 1 1000000) ;;
    esac
    [ -z "$found" ] || fault="$1: $found"
}

takes_option() { # NAME
    case $takes in *" $1 "*) return 0 ;; esac
    return 1
}

has_option() { # NAME
    case " $options" in *" $1 "*) return 0 ;; esac
    return 1
}

note_option() { # NAME
    if has_option "$1"; then
        fault="$1 stands twice"
    else
        options="$options$1 "
    fi
}

# A word that is a name; a program that takes other names than rdf has a function of its own.
note_name() { # WORD
    names=$((names + 1))
    case $names in
        1) first=$1 ;;
        2) second=$1 ;;
        3) fault="'$1': a third name, and two are wanted" ;;
    esac
}

unknown_option() { # WORD
    case $1 in
        --[sjt]* | -[sjt]*) like=--slots ;;
        --c* | -c*) like=--cluster ;;
        --w* | -w*) like=--watch ;;
        --mi*) like=--missing ;;
        --m* | -m*) like=--make ;;
        --f* | -f*) like=--friend ;;
        --k* | -k*) like=--key ;;
        *) like=none ;;
    esac
    case $1 in
        --watch | --missing | --make | --friend | --key | --watch=* | --missing=* | --friend=* | --key=*)
            fault="${1%%=*}: it is an option of ./rdf SCRIPT TABLE alone"
            ;;
        -[0-9]*) fault="$1: there is no such option, and a number that isn't negative is wanted" ;;
        *)
            if takes_option $like; then
                fault="$1: there is no such option, $like may be meant"
            else
                fault="$1: there is no such option, a name that begins with - stands behind --"
            fi
            ;;
    esac
}

# An option with the word behind it, if there is one.
look_at_option() { # NAME NUMBER-OF-WORDS WORD
    note_option "$1"
    case $1,$3 in
        --missing,-[0-9]*) fault="--missing: a number below 0 is written --missing=$3" ;;
        --friend,-?*) fault="--friend: a file's name is missing before $3" ;;
        --key,-?*) fault="--key: a column's name is missing before $3" ;;
        --[scwm]*,-[!0-9]*) fault="$1: a number is missing before $3" ;;
        --friend,) [ "$2" -gt 0 ] || fault="--friend: a file's name is missing" ;;
        *) [ -n "$fault" ] || fault_of_option "$1" "$3" ;;
    esac
}

# Looks at the words from left to right, up to the first that is at fault.
look_at_words() { # WORDS
    while [ $# -gt 0 ] && [ -z "$fault" ]; do
        word=$1
        shift
        case $word in
            --)
                while [ $# -gt 0 ]; do note_name "$1"; shift; done
                case $fault in "'-"*) fault="$fault; behind -- each word is one" ;; esac
                ;;
            -) note_name - ;;
            --make) if takes_option --make; then note_option --make; else unknown_option --make; fi ;;
            --*=*)
                if takes_option "${word%%=*}" && [ "${word%%=*}" != --make ]; then
                    note_option "${word%%=*}"
                    [ -n "$fault" ] || fault_of_option "${word%%=*}" "${word#*=}"
                else
                    unknown_option "$word"
                fi
                ;;
            -*)
                if takes_option "$word"; then
                    look_at_option "$word" $# "${1-}"
                    [ $# -eq 0 ] || shift
                else
                    unknown_option "$word"
                fi
                ;;
            *) note_name "$word" ;;
        esac
    done
}

# A friend has a file and a key, and maybe a number; the made table has none.
fault_of_friend() {
    if has_option --friend && has_option --make; then
        fault="--friend doesn't come with --make"
    elif has_option --friend && ! has_option --key; then
        fault="--friend: the name of the key is missing; --key NAME comes with it"
    elif has_option --key && ! has_option --friend; then
        fault="--key: the friend is missing; --friend FILE comes with it"
    elif has_option --missing && ! has_option --friend; then
        fault="--missing: the friend is missing; --friend FILE and --key NAME come with it"
    fi
}

# Notes why a word that has a name isn't its number.
look_at_number() { # NAME WORD LEAST MOST
    [ -z "$fault" ] || return 0
    found=$(fault_of_number "$2" "$3" "$4")
    [ -z "$found" ] || fault="$1: $found"
}

look_at_rdf() { # WORDS
    look_at_words "$@"
    case $options in
        *--make*) two="--make takes two numbers, ENTRIES and SEED" ;;
        *) two="two names are wanted, SCRIPT and TABLE" ;;
    esac
    if [ -n "$fault" ]; then
        :
    elif [ $names -eq 0 ]; then
        fault="$two, and there is none"
    elif [ $names -eq 1 ]; then
        fault="$two, and there is only '$first'"
    else
        fault_of_friend
        if has_option --make; then
            look_at_number ENTRIES "$first" 1 1000000
            look_at_number SEED "$second" 0 4294967295
        fi
    fi
}

fault_of_words() { # WORDS
    names=0 first= second= options= fault=
    if [ "$called" = rdf ]; then
        look_at_rdf "$@"
    else
        . "$top/tools/launcher/words_${called#rdf_}.sh"
        look_at_command "$@"
    fi
    [ -n "$fault" ] || fault="a word isn't UTF-8 text"
    echo "$fault"
}
