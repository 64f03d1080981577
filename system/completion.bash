# Completion for bash: modes, the keys of the mode that do not stand yet, and values. Names are those that the zanutero
# in PATH lists of the program in the words. What stands on the line is not run.

# The keys of each mode, each with what its value is.
declare -gA _zanutero_modes=(
{{modes}}
)

# Which names are the value of a key: those of actions, or of procedures that are optional or recommended.
declare -gA _zanutero_names=([action]=action [do]=optional [skip]=recommended)

# Offers the words that begin as the value does, with a text before each.
_zanutero_offer() { # WORDS VALUE [BEFORE]
    mapfile -t COMPREPLY < <(compgen -P "${3-}" -W "$1" -- "$2")
}

# The names in a program: of its actions, or of the procedures of one sort that an action has, or any if none is given.
_zanutero_list() { # SORT PROGRAM ACTION
    command zanutero list "program=${2/#'~/'/$HOME/}" 2>/dev/null | awk -v sort="$1" -v action="${3^^}" '
        $1 == "A" { inside = action == "" || action == $2 }
        $1 == "A" && sort == "action" || $1 == "I" && inside && $3 == sort { if (!told[$2]++) print $2 }'
}

# Offers the values of a key. `front` is what a reply repeats of the word.
_zanutero_value() { # KEY KIND VALUE
    local front= ends= name left=
    [[ $COMP_WORDBREAKS == *=* ]] || front=$1=
    case $2 in
        PATH)
            compopt -o filenames
            mapfile -t COMPREPLY < <(compgen -P "$front" -f -- "${3#[\"\']}")
            ;;
        NAME*)
            [[ $2 == NAME ]] || ends=${3%"${3##*,}"}
            for name in $(_zanutero_list "${_zanutero_names[$1]}" "${given[program]-}" "${given[action]-}"); do
                [[ ,${ends^^} == *,$name,* ]] || left+="$name "
            done
            name=${3#"$ends"}
            _zanutero_offer "$left" "${name^^}" "$front$ends"
            ;;
        *'|'*) _zanutero_offer "${2//|/ }" "$3" "$front" ;;
    esac
}

_zanutero() {
    local before after word each key left= kind=
    local -A given=()
    # The point keeps a word that is still empty. `read` takes a backslash before a blank away.
    read -a before <<<"${COMP_LINE:0:COMP_POINT}."
    read -a after <<<"${COMP_LINE:COMP_POINT}"
    word=${before[-1]%.}
    COMPREPLY=()
    if ((${#before[@]} == 2)); then
        _zanutero_offer "${!_zanutero_modes[*]} {{words}}" "$word"
        return
    fi
    for each in "${before[@]:2:${#before[@]}-3}" "${after[@]}"; do
        [[ $each == ?*=* ]] && given[${each%%=*}]=${each#*=}
    done
    for each in ${_zanutero_modes[${before[1]}]-}; do
        key=${each%%=*}
        [[ $word == "$key"=* ]] && kind=${each#*=}
        [[ -v given[$key] ]] || left+="$key= "
    done
    if [[ $word == *=* ]]; then
        _zanutero_value "${word%%=*}" "$kind" "${word#*=}"
    else
        compopt -o nospace
        _zanutero_offer "$left" "$word"
    fi
}

complete -F _zanutero zanutero
