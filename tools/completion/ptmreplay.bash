# Completion of ptmreplay's options for bash. To use it, source this file.
#
# Offered are the options that may still be given, and the values of an option that has 128 of them at most. What the
# program refuses isn't offered: an option a second time, the second of two that exclude each other, any word behind
# a lone `--`. Behind a redirection, file names are offered.

# The options, and for each what its values are: two numbers and all between them, `2^` and two numbers for the powers
# of two, `any` where there are too many, `flag` where there are none.
_ptmreplay_options='
--mxfast any
--trim-threshold any
--top-pad any
--mmap-threshold any
--mmap-max any
--arena-test any
--arena-max any
--tcache-count 0 127
--tcache-max any
--cores 1 64
--records 1 64
--heap-max 2^ 65536 67108864
--heaps 1 64
--main-max any
--polls any
--gen any
--lines any
--trim any
--threads flag
--summary flag
'

# Prints the values of an option, a line each.
_ptmreplay_values() {
    local name kind first last value
    while read -r name kind first last; do
        [[ -n $name && $name == "$1" ]] || continue
        case $kind in
        any | flag) ;;
        2^) for ((value = first; value <= last; value *= 2)); do echo "$value"; done ;;
        *) for ((value = kind; value <= first; value += 1)); do echo "$value"; done ;;
        esac
    done <<<"$_ptmreplay_options"
}

# Prints the options that may still be given behind the words $1.., a line each.
_ptmreplay_left() {
    local name kind given=" $* "
    case $given in
    *' --threads '*) given+='--summary ' ;;
    *' --summary '*) given+='--threads ' ;;
    esac
    while read -r name kind; do
        [[ -z $name || $given == *" $name "* ]] || echo "$name"
    done <<<"$_ptmreplay_options"
}

_ptmreplay() {
    local word before='' state=option name='' place given=() offered=''
    COMPREPLY=()
    # `=` is a word of its own here, unless COMP_WORDBREAKS was changed.
    for ((place = 1; place < COMP_CWORD; place += 1)); do
        word=${COMP_WORDS[place]}
        if [[ $state == file ]]; then
            state=$before
        elif [[ $word == *[\<\>]* ]]; then
            before=$state state=file
        elif [[ $state == value && $word == '=' && ${COMP_WORDS[place - 1]} == "$name" ]]; then
            continue
        elif [[ $state == value ]]; then
            state=option
        elif [[ $word == -- ]]; then
            state=end
        elif [[ $state == option && $word == --* ]]; then
            name=${word%%=*}
            given+=("$name")
            [[ $word == *=* || $name == --threads || $name == --summary ]] || state=value
        fi
    done

    word=${COMP_WORDS[COMP_CWORD]}
    case $state in
    file)
        compopt -o default
        return
        ;;
    value)
        [[ $word == '=' ]] && word=''
        mapfile -t COMPREPLY < <(compgen -W "$(_ptmreplay_values "$name")" -- "$word")
        return
        ;;
    end) return ;;
    esac

    offered=$(_ptmreplay_left "${given[@]}")
    if [[ $word == --*=* ]]; then
        name=${word%%=*}
        [[ $'\n'$offered$'\n' == *$'\n'$name$'\n'* ]] || return 0
        mapfile -t COMPREPLY < <(compgen -P "$name=" -W "$(_ptmreplay_values "$name")" -- "${word#*=}")
    else
        mapfile -t COMPREPLY < <(compgen -W "$offered" -- "$word")
    fi
}

complete -o nosort -F _ptmreplay ptmreplay
