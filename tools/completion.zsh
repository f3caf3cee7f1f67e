#compdef ithreads -P ithreads-*
# Completion for zsh, of `ithreads` and of the tools beside it: commands, options and names of files. Which there are is
# read from what each prints with --help. A program that isn't built stays so.

local -a called about
local -x ITHREADS_NO_BUILD=1
local command k
called=($words[1])
case $words[CURRENT-1] in
    (--workers|--fuel|--steps|--tries|--seed|--jobs|--columns|--output|--yield-every) _message 'a number'; return ;;
    (--args) _message 'words'; return ;;
    (--march) compadd rv32i rv32im; return ;;
    (--time) compadd counted; return ;;
esac
if [[ $words[1]:t == ithreads ]]; then
    for ((k = 2; k < CURRENT; k++)); do
        case $words[k] in
            (--workers|--fuel|--steps|--memo) ((k++)) ;;
            (-*) ;;
            (*) command=$words[k]; break ;;
        esac
    done
    if [[ -z $command ]]; then
        about=(${(f)"$($called --help 2>&1 </dev/null | sed -n '/^Commands:/,/^$/s/^  \([a-z]\{1,\}\)  *\(.*\)/\1:\2/p')"})
        _describe command about
        return
    fi
    [[ $command != help ]] || return
    called+=($command)
fi
if [[ $words[CURRENT] == -* ]]; then
    about=(${(f)"$($called --help 2>&1 </dev/null | sed -n 's/^  *\(-[a-zA-Z], \)\{0,1\}\(--[a-z-]*[a-z]\).*/\2/p')"})
    compadd -- $about
elif [[ $command != gen ]]; then
    _files
fi
