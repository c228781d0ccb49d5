# An archive of folders, for the command desk, which sources this: folders in lists of some, each list worked on by a run of the command of its own.
# The text of a list stands in a file, and is put in the lists' order as soon as it is whole; so the text does not depend on how many work at a time.

FOLDERS=32

# The folders under a root that hold a zone.trk, each ended by a zero byte.
folders_under() {
    local path
    path_of "$1"
    find -H "$path" -name zone.trk -print0 || : >"$work/unseen"
}

# Sorted into lists of FOLDERS each: $work/1.list, $work/2.list, ...
list_folders() {
    local name file i=0
    for name; do
        folders_under "$name" | while IFS= read -r -d '' file; do
            file=${file%/zone.trk}
            case $name in /*) ;; *) file=${file#./} ;; esac
            printf '%s\0' "${file:-/}"
        done
    done | LC_ALL=C sort -z >"$work/all" || die 'the folders could not be listed'
    while IFS= read -r -d '' file; do
        [ $((i % FOLDERS)) -ne 0 ] || exec 3>"$work/$((i / FOLDERS + 1)).list" || die 'the folders could not be listed'
        printf '%s\0' "$file" >&3 || die 'the folders could not be listed'
        i=$((i + 1))
    done <"$work/all"
    listed=$i
    lists=$(((i + FOLDERS - 1) / FOLDERS))
}

# Reports on the folders of list $work/N.list into $work/N.text, counts them in $work/N.tally, and then says N.
work_on() {
    local name key
    {
        while IFS= read -r -d '' name; do
            report "$name"
        done <"$work/$1.list"
    } >"$work/$1.text"
    for key in "${!tally[@]}"; do
        printf '%s=%s\n' "$key" "${tally[$key]}"
    done >"$work/$1.tally" && printf '%s\n' "$1"
}

# Says the number of each list as it is done.
work_on_all() {
    local i words=("$BASH" -p "$here")
    [ "$explain" -eq 0 ] || words+=(--explain)
    if [ "$lists" -gt 1 ] && [ "$jobs" -gt 1 ] && command -v xargs >/dev/null; then
        for ((i = 1; i <= lists; i++)); do printf '%s\0' "$i"; done | xargs -0 -n 1 -P "$jobs" "${words[@]}" --work "$work"
    else
        for ((i = 1; i <= lists; i++)); do "${words[@]}" --work "$work" "$i" || return; done
    fi
}

# Puts the text of every list that is whole and whose forerunners were put, and adds its counts.
put_lists() {
    local i key number
    while [ -e "$work/$next.whole" ]; do
        cat -- "$work/$next.text" 2>/dev/null || die 'the text could not be written'
        while IFS='=' read -r key number; do
            tally[$key]=$((${tally[$key]-0} + number))
        done <"$work/$next.tally"
        rm -f -- "$work/$next".*
        next=$((next + 1))
    done
    i=$(((next - 1) * FOLDERS))
    printf 'desk: %s of %s folders%s' "$((i < listed ? i : listed))" "$listed" "$line_end" >&2
}

archive() {
    local path listed lists next=1 done line_end=$'\n' name roots=()
    [ ! -t 2 ] || line_end=$'\r'
    for name; do
        path_of "$name"
        if [ -n "$name" ] && [ -d "$path" ]; then
            roots+=("$name")
        else
            report "$name"
        fi
    done
    work=$(mktemp -d) || die 'there is no place for its files'
    trap 'rm -rf -- "$work"' EXIT
    trap 'exit 130' INT TERM HUP
    list_folders "${roots[@]}"
    while read -r done; do
        : >"$work/$done.whole"
        put_lists
    done < <(work_on_all)
    [ ! -t 2 ] || printf '\n' >&2
    [ "$next" -gt "$lists" ] || die "only $(((next - 1) * FOLDERS)) of $listed folders were worked on"
    if [ -e "$work/unseen" ]; then
        printf 'desk: not every folder could be looked into\n' >&2
        count unreadable
    fi
}
