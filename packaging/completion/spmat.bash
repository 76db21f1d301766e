# bash completion for spmat, whose own help says which words there are
_spmat() {
    local word=${COMP_WORDS[COMP_CWORD]} words
    if [[ $COMP_CWORD -eq 1 ]]; then
        words='run serve help --help --version'
    elif [[ $word == -* ]]; then
        words=$("$1" "${COMP_WORDS[1]}" --help 2>&1 | grep -oE -- '--[a-z][a-z-]*' | sort -u)
    fi
    COMPREPLY=($(compgen -W "$words" -- "$word"))
}
complete -F _spmat spmat
