#compdef zanutero
# Completion for zsh: modes, the keys of the mode that do not stand yet, and values. Names are those that the zanutero
# in PATH lists of the program in the words. What stands on the line is not run.

# The keys of each mode, each with what its value is.
local -A modes=(
{{modes}}
)

# Which names are the value of a key: those of actions, or of procedures that are optional or recommended.
local -A sorts=([action]=action [do]=optional [skip]=recommended)

local -A given
local -a left
local each key kind

if ((CURRENT == 2)); then
    compadd -- ${(k)modes} {{words}}
    return
fi
for each in ${words[3,CURRENT-1]} ${words[CURRENT+1,-1]}; do
    [[ $each == ?*=* ]] && given[${each%%=*}]=${(Q)each#*=}
done
for each in ${=modes[${words[2]}]}; do
    key=${each%%=*}
    [[ $PREFIX == $key=* ]] && kind=${each#*=}
    ((${+given[$key]})) || left+=($key)
done
if [[ $PREFIX != *=* ]]; then
    compadd -q -S = -- $left
    return
fi
key=${PREFIX%%=*}
compset -P 1 '*='
case $kind in
    PATH) _files ;;
    NAME*)
        # The names that stand already in this value, and those in the program, each once.
        left=(${(U)${(s:,:)PREFIX%${PREFIX##*,}}})
        [[ $kind == NAME ]] || compset -P '*,'
        local -aU names=($(command zanutero list "program=$given[program]" 2>/dev/null |
            awk -v sort="$sorts[$key]" -v action="${(U)given[action]}" '
                $1 == "A" { inside = action == "" || action == $2 }
                $1 == "A" && sort == "action" || $1 == "I" && inside && $3 == sort { print $2 }'))
        compadd -M 'm:{a-z}={A-Z}' -- ${names:|left}
        ;;
    *'|'*) compadd -- ${(s:|:)kind} ;;
esac
