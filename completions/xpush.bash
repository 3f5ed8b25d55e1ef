# Completion of xpush for bash: its commands, and the options of each. Source it, or install it.

_xpush() {
    local word=${COMP_WORDS[COMP_CWORD]} all options option given
    COMPREPLY=()
    if [ "$COMP_CWORD" -eq 1 ]; then
        mapfile -t COMPREPLY < <(compgen -W "serial feed match show explain verify make load" -- "$word")
        return
    fi
    case ${COMP_WORDS[1]} in
    make) all="--seed --filters --documents" ;;
    feed) all="--workers --banks --node-bits --step-bits" ;;
    load) all="--seed --filters --documents --workers --banks --node-bits --step-bits" ;;
    *) return ;;
    esac
    case ${COMP_WORDS[COMP_CWORD - 1]} in
    --seed | --filters | --documents | --workers | --banks | --node-bits | --step-bits) return ;; # a number
    esac
    options=
    given=" ${COMP_WORDS[*]:2:COMP_CWORD-2} "
    for option in $all; do
        [[ $given == *" $option"[\ =]* ]] || options+=" $option"
    done
    mapfile -t COMPREPLY < <(compgen -W "$options" -- "$word")
}

complete -F _xpush xpush
