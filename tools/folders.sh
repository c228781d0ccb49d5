# Folders with a zone.trk and a release.trk, for the commands desk and why, which source this: how text is put, how a folder is named, what the
# program prints in one, and what a refusal means.

# Writes text, or ends the run: nothing may follow what was lost.
put() {
    printf '%s' "$1" 2>/dev/null || die 'the text could not be written'
}

# A word as it stands; in quotes where it could be taken for other lines.
shown() {
    word=$1
    [[ $word != *[[:cntrl:]]* ]] || printf -v word %q "$word"
}

# A name as a path that no command takes for an option or a word of its own.
path_of() {
    case $1 in
        /*) path=$1 ;;
        *) path=./$1 ;;
    esac
}

# What the program prints in a folder, and then x, which keeps the last line end that $() would take off; no x where it failed.
text_in() {
    text=$(cd -- "$1" && "${program[@]}" </dev/null && printf x)
}

# What a refusal means, of the zone's or the releases' file, by its number and place.
explained() {
    [ "$explain" -eq 1 ] || return
    case $2 in
        1) [ "$1" = zone ] && printf ': more corners than a zone may have, or more points than a file may hold' || printf ': more points than a file may hold' ;;
        3) printf ': the coordinate whose number begins at byte %s is not accepted: it is too large or too small' "$3" ;;
        4) printf ': too few corners for a zone' ;;
        6) printf ': the file ends inside the number that begins at byte %s' "$3" ;;
        7) printf ': the number that begins at byte %s is not in its shortest form, or is too large' "$3" ;;
        8) printf ': bytes follow the last number, from byte %s on' "$3" ;;
        *) printf ': see ./%s --help' "$command_name" ;;
    esac
}
