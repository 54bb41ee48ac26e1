# bash completion of cmph_store

_cmph_store() {
    local cur=${COMP_WORDS[COMP_CWORD]} prev=${COMP_WORDS[COMP_CWORD - 1]}
    COMPREPLY=()
    # The value of an option, perhaps after flags in the same argument, is a number, except that of -m.
    if [[ $prev =~ ^-[gz]*([bckmrs])$ && ${BASH_REMATCH[1]} != m ]]; then
        [[ ${BASH_REMATCH[1]} == b ]] && mapfile -t COMPREPLY < <(compgen -W "3 4 5 6 7 8 9 10" -- "$cur")
        return
    fi
    if [[ $cur == -* ]]; then
        mapfile -t COMPREPLY < <(compgen -W "-b -c -g -k -m -r -s -z" -- "$cur")
    else
        compopt -o filenames 2>/dev/null
        mapfile -t COMPREPLY < <(compgen -f -- "$cur")
    fi
}

complete -F _cmph_store cmph_store
