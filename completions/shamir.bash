# Completion of shamir for bash. Source this file, or install it as PREFIX/share/bash-completion/completions/shamir.
# Only the owner knows a plan, names, a secret, a passphrase, a fingerprint or a quorum, so bash offers only its variables for them.
# Redirections and the options whose value is a file are completed with files.

_shamir() {
    local word=${COMP_WORDS[COMP_CWORD]} previous=${COMP_WORDS[COMP_CWORD - 1]}
    local command='' said=' ' options at
    local redirection='^&?[<>]+[&|]?$'
    COMPREPLY=()
    # Bash itself completes the file of a redirection, variables, and the words of a command in <(..).
    [[ $word =~ $redirection || $previous =~ $redirection || $word == *[\$\`]* ]] && return 0
    for ((at = 1; at < COMP_CWORD; at++)); do
        [[ ${COMP_WORDS[at]} == [\<\>]\(* ]] && return 0
        [[ -n $command || ${COMP_WORDS[at]} != [a-z]* || ${COMP_WORDS[at - 1]} =~ $redirection ]] || command=${COMP_WORDS[at]}
        said+="${COMP_WORDS[at]} "
    done
    compopt +o default
    # After two dashes, no word is an option.
    [[ $said != *' -- '* ]] || return 0
    # After an equals sign, which may be a separate word, comes the value of the option before it.
    if [[ $word == = ]]; then
        word=''
    elif [[ $previous == = ]]; then
        previous=${COMP_WORDS[COMP_CWORD - 2]}
    fi
    case $previous in
    --exponent)
        mapfile -t COMPREPLY < <(compgen -W '0 1 2 3 4 5 6 7 8 9 10 11 12 13 14 15' -- "$word")
        return
        ;;
    --master-secret-file | --passphrase-file | --random-file)
        compopt -o default
        return
        ;;
    --master-secret | --passphrase | --after | --limit | --expect) return ;;
    esac
    case $command in
    '') options='create show drill recover status reissue repair resplit --help --version' ;;
    create) options='--master-secret --master-secret-file --passphrase --passphrase-file --exponent --extendable --help' ;;
    drill) options='--passphrase --passphrase-file --after --limit --fingerprint --expect --help' ;;
    recover) options='--passphrase --passphrase-file --fingerprint --expect --help' ;;
    resplit) options='--random-file --help' ;;
    show | status | reissue | repair) options='--help' ;;
    *) return ;;
    esac
    for at in $options; do
        # Options are offered after a dash, and each at most once.
        [[ $at == "$word"* && $said != *" $at "* && ($word == -* || $at != -*) ]] && COMPREPLY+=("$at")
    done
    return 0
}

complete -o bashdefault -o default -F _shamir shamir
