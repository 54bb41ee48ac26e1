# bash completion of cmph_shards

_cmph_shards() {
    local cur=${COMP_WORDS[COMP_CWORD]} prev=${COMP_WORDS[COMP_CWORD - 1]}
    COMPREPLY=()
    # The value of an option, perhaps after flags in the same argument, is a number, except that of -d and -m.
    if [[ $prev =~ ^-[jtz]*([dkmn])$ ]]; then
        [[ ${BASH_REMATCH[1]} == [kn] ]] && return
        compopt -o filenames 2>/dev/null
        [[ ${BASH_REMATCH[1]} == d ]] && mapfile -t COMPREPLY < <(compgen -d -- "$cur") && return
        mapfile -t COMPREPLY < <(compgen -f -- "$cur")
        return
    fi
    if [[ $cur == -* ]]; then
        mapfile -t COMPREPLY < <(compgen -W "-d -j -k -m -n -t -z" -- "$cur")
    else
        compopt -o filenames 2>/dev/null
        mapfile -t COMPREPLY < <(compgen -f -- "$cur")
    fi
}

complete -F _cmph_shards cmph_shards
