# Completion of shamir-papers for bash. Source this file, or install it as
# PREFIX/share/bash-completion/completions/shamir-papers. Only the owner knows a plan, so nothing is offered for it.

_shamir_papers() {
    local word=${COMP_WORDS[COMP_CWORD]} options at
    COMPREPLY=()
    # After two dashes, no word is an option.
    [[ " ${COMP_WORDS[*]:0:COMP_CWORD} " != *' -- '* ]] || return 0
    case $COMP_CWORD in
    1) options='new check recover replace change repair what --help --version' ;;
    *) options='--help' ;;
    esac
    for at in $options; do
        # Options are offered after a dash.
        [[ $at == "$word"* && ($word == -* || $at != -*) ]] && COMPREPLY+=("$at")
    done
    return 0
}

complete -F _shamir_papers shamir-papers
