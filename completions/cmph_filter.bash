# bash completion of cmph_filter

_cmph_filter() {
    local cur=${COMP_WORDS[COMP_CWORD]} prev=${COMP_WORDS[COMP_CWORD - 1]}
    COMPREPLY=()
    # The value of an option, perhaps after flags in the same argument, is a number, except that of -m.
    [[ $prev =~ ^-[gz]*([ckmrsw])$ && ${BASH_REMATCH[1]} != m ]] && return
    if [[ $cur == -* ]]; then
        mapfile -t COMPREPLY < <(compgen -W "-c -g -k -m -r -s -w -z" -- "$cur")
    else
        compopt -o filenames 2>/dev/null
        mapfile -t COMPREPLY < <(compgen -f -- "$cur")
    fi
}

complete -F _cmph_filter cmph_filter
