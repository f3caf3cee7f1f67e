# Completion for bash, of `ithreads` and of the tools beside it: commands, options and names of files. Which there are is
# read from what each prints with --help, once in a shell. A program that isn't built stays so.

declare -gA _ithreads_help_texts

# _ithreads_help WORDS..: what a command prints with --help, in $help
_ithreads_help() {
    help=${_ithreads_help_texts[$*]-}
    [ -z "$help" ] || return
    help=$(ITHREADS_NO_BUILD=1 "$@" --help 2>&1 </dev/null)
    [ $? -eq 125 ] || _ithreads_help_texts[$*]=$help
}

# _ithreads_command: the command of `ithreads` among the words before the one that is completed, in $command
_ithreads_command() {
    local k
    command=
    for ((k = 1; k < COMP_CWORD; k++)); do
        case ${COMP_WORDS[k]} in
        --workers | --fuel | --steps | --memo) k=$((k + 1)) ;;
        -* | =) ;;
        *)
            command=${COMP_WORDS[k]}
            return
            ;;
        esac
    done
}

_ithreads() {
    local word=${COMP_WORDS[COMP_CWORD]} before=${COMP_WORDS[COMP_CWORD - 1]} called=("${COMP_WORDS[0]}") command help
    COMPREPLY=()
    if [ "$word" = = ]; then
        word=
    elif [ "$before" = = ] && [ "$COMP_CWORD" -gt 1 ]; then
        before=${COMP_WORDS[COMP_CWORD - 2]}
    fi
    case $before in
    --workers | --fuel | --steps | --tries | --seed | --jobs | --columns | --output | --yield-every | --args) return ;;
    --march) mapfile -t COMPREPLY < <(compgen -W 'rv32i rv32im' -- "$word") && return ;;
    --time) mapfile -t COMPREPLY < <(compgen -W counted -- "$word") && return ;;
    esac
    if [ "${called[0]##*/}" = ithreads ]; then
        _ithreads_command
        if [ -z "$command" ]; then
            _ithreads_help "${called[@]}"
            mapfile -t COMPREPLY < <(compgen -W "$(sed -n '/^Commands:/,/^$/s/^  \([a-z]\{1,\}\) .*/\1/p' <<<"$help")" -- "$word")
            return
        fi
        [ "$command" != help ] || return
        called+=("$command")
    fi
    if [[ $word == -* ]]; then
        _ithreads_help "${called[@]}"
        mapfile -t COMPREPLY < <(compgen -W "$(sed -n 's/^  *\(-[a-zA-Z], \)\{0,1\}\(--[a-z-]*[a-z]\).*/\2/p' <<<"$help")" -- "$word")
    elif [ "$command" != gen ]; then
        mapfile -t COMPREPLY < <(compgen -f -- "$word")
    fi
}

complete -o filenames -F _ithreads ithreads $(compgen -c ithreads-)
