# The words of rdf_shard, which has no options. words.sh reads this.

look_at_command() { # WORDS
    case ${1-} in
        run)
            if [ $# -eq 6 ]; then
                look_at_number SIZE "$4" 1 1000000
                look_at_number LO "$5" 0 1000000
                look_at_number HI "$6" 0 1000000
            else
                fault="run takes five words, SCRIPT TABLE SIZE LO HI, and here are $(($# - 1))"
            fi
            ;;
        merge)
            if [ $# -lt 3 ]; then
                fault="merge takes SCRIPT and one file or more, and here are $(($# - 1)) words"
            elif [ $# -gt 66 ]; then
                fault="merge takes at most 64 files, and here are $(($# - 2))"
            fi
            ;;
        '') fault="run or merge is wanted" ;;
        *) fault="'$1': run or merge is wanted" ;;
    esac
}
