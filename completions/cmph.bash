# bash completion of cmph

_cmph() {
    local cur=${COMP_WORDS[COMP_CWORD]} prev=${COMP_WORDS[COMP_CWORD - 1]} letter=
    COMPREPLY=()
    # The option whose value comes, perhaps after flags in the same argument: -a, -ga.
    if [[ $prev =~ ^-[ghuvVz]*([abcdfkmMrsT])$ ]]; then
        letter=${BASH_REMATCH[1]}
    fi
    case $letter in
        a) mapfile -t COMPREPLY < <(compgen -W "chm bdz bdz_ph brz" -- "$cur") ;;
        b) # by brz a number from 64 to 700
            [[ ${COMP_WORDS[*]} == *brz* ]] || mapfile -t COMPREPLY < <(compgen -W "3 4 5 6 7 8 9 10" -- "$cur")
            ;;
        f) mapfile -t COMPREPLY < <(compgen -W "jenkins" -- "$cur") ;;
        d)
            compopt -o filenames 2>/dev/null
            mapfile -t COMPREPLY < <(compgen -d -- "$cur")
            ;;
        c | k | M | r | s | T) ;; # a number
        *)
            if [[ -z $letter && $cur == -* ]]; then
                mapfile -t COMPREPLY < <(compgen -W "-a -b -c -d -f -g -h -k -M -m -r -s -T -u -V -v -z" -- "$cur")
            else
                compopt -o filenames 2>/dev/null
                mapfile -t COMPREPLY < <(compgen -f -- "$cur")
            fi
            ;;
    esac
}

complete -F _cmph cmph
