# Completion of factorc's command line for bash.
# The commands and options: build check exec gen list listen run --stack --steps -o.

_factorc() {
    local word=${COMP_WORDS[COMP_CWORD]} before=${COMP_WORDS[COMP_CWORD - 1]}
    COMPREPLY=()
    if ((COMP_CWORD == 1)); then
        mapfile -t COMPREPLY < <(compgen -W "build check exec gen list listen run" -- "$word")
        return
    fi
    if [[ $before == --steps || ${COMP_WORDS[1]} == gen || ${COMP_WORDS[1]} == listen ]]; then
        return
    fi
    if [[ $word == -* ]]; then
        case ${COMP_WORDS[1]} in
            run) ((COMP_CWORD == 2)) && mapfile -t COMPREPLY < <(compgen -W "--stack --steps" -- "$word") ;;
            exec) ((COMP_CWORD == 2)) && mapfile -t COMPREPLY < <(compgen -W "--steps" -- "$word") ;;
            build) ((COMP_CWORD > 2)) && mapfile -t COMPREPLY < <(compgen -W "-o" -- "$word") ;;
        esac
        return
    fi
    mapfile -t COMPREPLY < <(compgen -f -- "$word")
}

complete -o filenames -F _factorc factorc
