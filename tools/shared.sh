# shellcheck shell=bash
# What the scripts ./qccd, ./qccd-try and tools/build share: which words are a command, where the program is, and
# whether it is built. They read this with `.`; `top` is the folder of the repository.

# shellcheck disable=SC2154
program=$top/crates/qccd/out/qccd

# Prints the usage, as the program's own source has it.
print_usage() {
    sed -n '/^const USAGE/,/^";/{//!p}' "$top/crates/qccd_messages/src/refusal.rt"
}

# Whether a word can name a machine: any but those that begin with @ and are no preset.
names_machine() {
    [[ $1 =~ ^@(single|L6|G2x3)(:([2-9]|[12][0-9]|3[0-2]))?$ || $1 != @* ]]
}

# Whether a word is a number from low to high, with no leading zero and no sign.
is_number() {
    local word=$1 low=$2 high=$3
    [[ $word =~ ^(0|[1-9][0-9]{0,9})$ ]] && ((word >= low && word <= high))
}

# Whether the words behind the first are options with their values, in any order: of those in the first word each once
# at most.
are_options() {
    local left=" $1 "
    shift
    while (($# > 0)); do
        [[ $left == *" $1 "* ]] || return 1
        case $1:${2-} in
            --swap:ion | --swap:gate) ;;
            --workers:*) is_number "${2-}" 1 16 || return 1 ;;
            *) return 1 ;;
        esac
        left=${left/" $1 "/ }
        shift 2
    done
}

# Whether the words are one of the six commands. Other words have no reading, whatever the program's age.
are_command() {
    case ${1-} in
        run) (($# >= 3)) && names_machine "$2" && are_options '--workers --swap' "${@:4}" ;;
        compile) (($# >= 3)) && names_machine "$2" && are_options --swap "${@:4}" ;;
        exec) (($# >= 3)) && names_machine "$2" && are_options --workers "${@:4}" ;;
        check) (($# == 4)) && names_machine "$2" ;;
        rehearse)
            (($# >= 5)) && is_number "$2" 0 2147483647 && is_number "$3" 1 256 && is_number "$4" 0 65536 &&
                names_machine "$5" && are_options --workers "${@:6}"
            ;;
        tidy) (($# == 3)) && names_machine "$2" ;;
        *) return 1 ;;
    esac
}

# The crates that the program stands on and the program itself, the lowest first, one on a line with those of this
# repository that it stands on. The lines of crates.txt come in any order.
print_crates() {
    awk '
        function visit(name, words, word, w, line) {
            if (name in seen) return
            seen[name] = 1
            line = name
            words = split(below[name], word, " ")
            for (w = 1; w <= words; w++)
                if (word[w] in below) {
                    visit(word[w])
                    line = line " " word[w]
                }
            print line
        }
        { sub(/#.*/, "") }
        /^[a-z]/ {
            split($0, part, ":")
            split(part[1], word, " ")
            below[word[1]] = part[2]
        }
        END { visit("qccd") }' "$top/crates.txt"
}

# Whether the program is there and no source of its own crates is newer.
is_built() {
    [ -x "$program" ] || return 1
    local sources=() crate part
    while read -r crate _; do
        for part in src specs proofs; do
            [ ! -d "$top/crates/$crate/$part" ] || sources+=("$top/crates/$crate/$part")
        done
    done < <(print_crates)
    [ -z "$(find "${sources[@]}" "$top/crates.txt" -type f -newer "$program" -print -quit)" ]
}
