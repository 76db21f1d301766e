#compdef spmat
# zsh completion for spmat, whose own help says which words there are
local -a found
if (( CURRENT == 2 )); then
    found=(run serve help --help --version)
else
    found=(${(fu)"$($words[1] $words[2] --help 2>&1 | grep -oE -- '--[a-z][a-z-]*')"})
fi
compadd -- $found
