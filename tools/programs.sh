# How the commands of this repository build its programs and start them. Sourced by them, with `root`, the repository's folder.

# Ends the command: it could not work.
die() {
    printf '%s: %s\n' "$command_name" "$*" >&2
    exit 2
}

# Puts the words that start this file into the array `program`: it is made for x86-64.
words_for() {
    local machine
    machine=$(uname -m)
    if [ "$machine" = x86_64 ]; then
        program=("$1")
    elif command -v qemu-x86_64 >/dev/null; then
        program=(qemu-x86_64 "$1")
    else
        die "the programs are made for x86-64; on $machine qemu-x86_64 is needed"
    fi
}

# Likewise for a built program, by its name.
find_program() {
    local file=$root/crates/$1/out/$1
    [ -f "$file" ] || die "$1 is not built; 'rt run' in crates/$1 builds it"
    words_for "$file"
}

# Whether a built program is older than what it is made of.
is_old() {
    [ -n "$(find "$root/crates.txt" "$root"/crates/*/{src,specs,proofs} -newer "$1" -print -quit 2>/dev/null)" ]
}

# Proves and builds a program that is missing or older than its sources. rt builds a program by a run, here of no input.
build_program() {
    local file=$root/crates/$1/out/$1
    if [ -f "$file" ] && ! is_old "$file"; then
        return
    fi
    if ! command -v rt >/dev/null; then
        [ -f "$file" ] || die "the program $1 is not built, and the Rattle toolchain that builds it is missing: there is no command rt on the path"
        printf '%s: the program %s is older than its sources, and there is no command rt to build it anew\n' "$command_name" "$1" >&2
        return
    fi
    [ -f "$file" ] || printf 'Proving and building the program %s; this takes some minutes.\n' "$1" >&2
    (cd -- "$root/crates/$1" && rt run </dev/null 2>&1 >/dev/null && echo built) | show_progress $(crates_below "$1") || die "the program $1 could not be built"
    touch -- "$file"
}

# The crates that a program is built of, itself the last, in the order of crates.txt.
crates_below() {
    local -A needs=() wanted=([$1]=1)
    local line crates=() need i
    while IFS= read -r line; do
        [[ $line =~ ^([a-z0-9_]+)[^:#]*:([^#]*) ]] || continue
        crates+=("${BASH_REMATCH[1]}")
        needs[${BASH_REMATCH[1]}]=${BASH_REMATCH[2]}
    done <"$root/crates.txt"
    for ((i = ${#crates[@]} - 1; i >= 0; i--)); do
        if [ -n "${wanted[${crates[i]}]-}" ]; then
            for need in ${needs[${crates[i]}]}; do wanted[$need]=1; done
        else
            unset "crates[i]"
        fi
    done
    printf '%s\n' "${crates[@]}"
}

# From what rt says, with the names of the crates in order: a line for each that was proved, as `3 of 12 sum`; and where the program is not
# built, all that was said since then.
show_progress() {
    local line said=() crate i
    while IFS= read -r line; do
        [ "$line" != built ] || return 0
        said+=("$line")
        if [[ $line =~ ^crate\ ([a-z0-9_]+):\  ]]; then
            crate=${BASH_REMATCH[1]}
        elif [[ $line == 'logic=proved '* ]]; then
            for ((i = 1; i <= $#; i++)); do [ "${!i}" != "$crate" ] || printf '%s of %s %s\n' "$i" "$#" "$crate" >&2; done
            said=()
        fi
    done
    printf '%s\n' "${said[@]}" >&2
    return 1
}

# The refusals in words, from the rules' own table.
print_refusals() {
    local line row='^\| \*\*Refusals ([0-9]+)\*\* \| (.*) \| (.*) \|$'
    while IFS= read -r line; do
        [[ ! $line =~ $row ]] || printf '  %2s  %s\n      place: %s\n' "${BASH_REMATCH[@]:1:3}" || return
    done <"$root/docs/RULES.md"
}
