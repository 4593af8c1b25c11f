# shellcheck shell=bash
# Completion for bash: commands, machines, files and options of qccd and qccd-try. To have it in a shell:
#
#     . tools/completion.bash
#
# Neither proved nor part of the program.

# The files and folders that begin with a word: those with this ending, or all where there are none.
_qccd_files() {
    local word=$1 ending=$2 found
    found=$(compgen -f -X "!*.$ending" -- "$word")
    [ -n "$found" ] || found=$(compgen -f -- "$word")
    printf '%s\n' "$found" "$(compgen -d -S / -- "$word")" | sed '/^$/d' | sort -u
}

# The machines that are known by name, with a capacity where a colon is there; else files of machines.
_qccd_machines() {
    local capacity
    case $1 in
        @*:*)
            for capacity in {2..32}; do
                [[ ${1%%:*}:$capacity != "$1"* ]] || echo "${1%%:*}:$capacity"
            done
            ;;
        @*) compgen -W '@single @L6 @G2x3' -- "$1" ;;
        '') printf '%s\n' @single @L6 @G2x3 && _qccd_files '' toml ;;
        *) _qccd_files "$1" toml ;;
    esac
}

# What can stand as the last of a command's options: an option that it takes and that was not given, or the value of one.
_qccd_options() {
    local last=${*: -1} before=${*: -2:1} options word
    case $1 in
        run) options=' --workers --swap ' ;;
        compile) options=' --swap ' ;;
        *) options=' --workers ' ;;
    esac
    shift
    if [ $(($# % 2)) = 0 ]; then
        case $options:$before in
            *' --workers '*:--workers) compgen -W "$(echo {1..16})" -- "$last" ;;
            *' --swap '*:--swap) compgen -W 'ion gate' -- "$last" ;;
        esac
        return
    fi
    for word in "${@:1:$#-1}"; do
        options=${options/ $word / }
    done
    compgen -W "$options" -- "$last"
}

# What can stand as the last of these words, the program's own name being the first.
_qccd_choices() {
    local last=${*: -1} fixed=()
    case ${2-} in
        run | compile | exec) fixed=("${@:5}") ;;
        rehearse) fixed=("${@:7}") ;;
    esac
    if [ ${#fixed[@]} -gt 0 ]; then
        _qccd_options "$2" "${fixed[@]}"
        return
    fi
    case $(($# - 1)):${2-} in
        1:*) compgen -W 'run compile exec check rehearse tidy' -- "$last" ;;
        2:run | 2:compile | 2:exec | 2:check | 2:tidy | 5:rehearse) _qccd_machines "$last" ;;
        3:run | 3:compile | 3:check) _qccd_files "$last" qasm ;;
        3:exec | 3:tidy | 4:check) _qccd_files "$last" qccd ;;
    esac
}

_qccd() {
    local line=${COMP_LINE:0:COMP_POINT} words last kept choice
    # bash would part a word at @ and : also, and puts in only what stands behind the last of them.
    read -ra words <<<"$line"
    [[ $line != *[[:space:]] ]] || words+=('')
    last=${words[-1]}
    kept=${last%"${last##*[@:]}"}
    COMPREPLY=()
    while IFS= read -r choice; do
        COMPREPLY+=("${choice#"$kept"}")
    done < <(_qccd_choices "${words[@]}")
    # After a folder's name the word goes on.
    [[ ${#COMPREPLY[@]} != 1 || ${COMPREPLY[0]} != */ ]] || compopt -o nospace 2>/dev/null
}

complete -F _qccd qccd qccd-try
