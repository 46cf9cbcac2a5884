# Completions of dvdecc for bash, written by tools/tables. Sourced by bash_completion, or by hand.
_dvdecc() {
    local before=${COMP_WORDS[COMP_CWORD - 1]} command at=1 words=
    [ "${COMP_WORDS[1]}" != --cpu ] || [ "$COMP_CWORD" = 1 ] || at=3
    [ "${COMP_WORDS[at]-}" != --progress ] || [ "$COMP_CWORD" = "$at" ] || at=$((at + 1))
    command=${COMP_WORDS[at]-}
    if [ "$COMP_CWORD" -lt "$at" ]; then
        words='x86-64-v2 x86-64-v3'
    elif [ "$COMP_CWORD" = "$at" ]; then
        words='frames master recover deep survey info merge assemble convert cdmake cdread exercise help'
        [ "$before" = --progress ] || words+=' --version --progress'
        [ "$at" != 1 ] || words+=' --cpu'
    else
        case $command,$before in
            help,*) words='frames master recover deep survey info merge assemble convert cdmake cdread exercise' ;;
            *,--shape) words='single parallel opposite' ;;
            *,--zones) words='data all' ;;
            recover,--form | deep,--form | survey,--form | info,--form) words='plain marked listed' ;;
            *,--form) words='plain marked' ;;
            *,--*)
                # (a value of one's own, and after it the next option)
                ;;
            frames,*) words='--first --sectors' ;;
            master,*) words='--sectors --sectors1 --shape --zones --initial --tail --cpr --workers' ;;
            recover,*) words='--sectors --sectors1 --shape --zones --initial --tail --form --workers' ;;
            deep,*) words='--sectors --sectors1 --shape --zones --initial --tail --form' ;;
            survey,*) words='--sectors --sectors1 --shape --zones --initial --tail --form --workers' ;;
            info,*) words='--initial --form' ;;
            merge,*) words='--sectors --captures --sectors1 --shape --zones --initial --tail --form' ;;
            assemble,*) words='--sectors --frames --sectors1 --shape --form' ;;
            convert,*) words='--sectors --sectors1 --shape --zones --initial --tail --form' ;;
            cdmake,*) words='--address --sectors' ;;
            cdread,*) words='--address --sectors' ;;
            exercise,*) words='--seed --blocks --workers' ;;
        esac
    fi
    mapfile -t COMPREPLY < <(compgen -W "$words" -- "${COMP_WORDS[COMP_CWORD]}")
}
complete -o bashdefault -o default -F _dvdecc dvdecc
