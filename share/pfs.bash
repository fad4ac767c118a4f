#compdef pfs pfs-plan pfs-gantt pfs-experiments pfs-web
# Completion for bash and zsh of pfs and of the programs of the package for Python: the commands, the options and their
# values that a program's usage text has, and files. `=` after an option is a word of its own in bash, but not in zsh.
# shellcheck shell=bash

_pfs() {
    local cur=${COMP_WORDS[COMP_CWORD]} prev=${COMP_WORDS[COMP_CWORD - 1]} start='' command='' usage offered=''
    case $cur in
        =) cur='' ;;
        --*=*) start=${cur%%=*}= prev=${cur%%=*} cur=${cur#*=} ;;
    esac
    [ "$prev" != = ] || prev=${COMP_WORDS[COMP_CWORD - 2]}
    ((COMP_CWORD == 1)) || [[ ${COMP_WORDS[1]} == -* ]] || command=${COMP_WORDS[1]}
    usage=$("$1" ${command:+"$command"} --help 2>&1 | sed -n '/^usage: \|^pfs: usage$/,$p')
    case $1 in
        pfs | */pfs) usage=$(grep "^pfs $command" <<< "$usage") ;;
    esac
    case $prev in
        --layout | --from | --to) offered='taillard orlib' ;;
        --*[!a-z-]*) ;;
        --*) offered=$(sed -n "s/.*$prev {\([a-z,-]*\)}.*/\1/p" <<< "$usage" | tr , ' ') ;;
    esac
    if [ -n "$offered" ]; then
        :
    elif [[ $cur == -* ]]; then
        offered=$(grep -o -e '--[a-z][a-z-]*' <<< "$usage" | sort -u)
    elif ((COMP_CWORD == 1)); then
        offered=$(sed -n -e 's/^pfs \([a-z]*\).*/\1/p' -e 's/^    \([a-z]\{1,\}\).*/\1/p' <<< "$usage")
    fi
    # shellcheck disable=SC2207 # zsh has no mapfile
    COMPREPLY=($(compgen -P "$start" -W "$offered" -- "$cur"))
}

if [ -n "${ZSH_VERSION-}" ]; then
    autoload -Uz bashcompinit && bashcompinit
fi
complete -o default -F _pfs pfs pfs-plan pfs-gantt pfs-experiments pfs-web
if [ -n "${ZSH_VERSION-}" ]; then
    _bash_complete -o default -F _pfs
fi
