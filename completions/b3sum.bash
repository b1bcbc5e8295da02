# Completes the arguments of b3sum in bash.
# Made by tools/completions from the table of options.

_b3sum() {
    local word=${COMP_WORDS[COMP_CWORD]} previous=${COMP_WORDS[COMP_CWORD - 1]} earlier
    local options=(
        -c --check --quiet --ignore-missing --status --strict -w --warn --keyed --derive-key -l --length --seek --raw
        --no-names --tag --files0-from --num-threads --progress --no-mmap -h --help -V --version
    )
    # Where nothing is suggested here, the defaults below suggest files.
    COMPREPLY=()
    for earlier in "${COMP_WORDS[@]:1:COMP_CWORD - 1}"; do
        if [[ $earlier == -- ]]; then
            return
        fi
    done
    # The words of --length=N are --length, = and N.
    if [[ $previous == = ]]; then
        previous=${COMP_WORDS[COMP_CWORD - 2]}
    fi
    case $previous in
        --derive-key | -l | --length | --seek | --num-threads) compopt +o bashdefault +o default ;;
        *) [[ $word != -* ]] || mapfile -t COMPREPLY < <(compgen -W "${options[*]}" -- "$word") ;;
    esac
}

complete -o bashdefault -o default -F _b3sum b3sum
