# Completions of dvdcap for bash, written by tools/tables. Sourced by bash_completion, or by hand.
_dvdcap() {
    local before=${COMP_WORDS[COMP_CWORD - 1]} command at=1 words=
    [ "${COMP_WORDS[1]}" != --cpu ] || [ "$COMP_CWORD" = 1 ] || at=3
    [ "${COMP_WORDS[at]-}" != --progress ] || [ "$COMP_CWORD" = "$at" ] || at=$((at + 1))
    command=${COMP_WORDS[at]-}
    if [ "$COMP_CWORD" -lt "$at" ]; then
        words='x86-64-v2 x86-64-v3'
    elif [ "$COMP_CWORD" = "$at" ]; then
        words='mark interleave draw lost help'
        [ "$before" = --progress ] || words+=' --version --progress'
        [ "$at" != 1 ] || words+=' --cpu'
    else
        case $command,$before in
            help,*) words='mark interleave draw lost' ;;
            *,--form) words='plain marked' ;;
            *,--shape) words='single parallel opposite' ;;
            *,--zones) words='data all' ;;
            *,--*)
                # (a value of one's own, and after it the next option)
                ;;
            mark,*) words='--map --good' ;;
            interleave,*) words='--form --fill' ;;
            draw,*) words='--width' ;;
            lost,*) words='--sectors --sectors1 --shape --zones --initial --tail' ;;
        esac
    fi
    mapfile -t COMPREPLY < <(compgen -W "$words" -- "${COMP_WORDS[COMP_CWORD]}")
}
complete -o bashdefault -o default -F _dvdcap dvdcap
