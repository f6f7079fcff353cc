# What an interactive zsh begins with, so that it writes into the file FOUND what LINE would be completed with, a word a line, and ends. FOLDER has
# the completions.
fpath=("$FOLDER" $fpath)
autoload -U compinit && compinit -D -u

# All words are offered by compadd; one that fills arrays offers nothing.
compadd() {
    local -a hits
    if [[ ${@[1,(i)(-|--)]} != *-(O|A|D)\ * ]]; then
        builtin compadd -A hits "$@"
        print -rl -- $IPREFIX$^hits >>$FOUND
    fi
    builtin compadd "$@"
}

ask() {
    BUFFER=$LINE CURSOR=$#LINE
    zle complete-word
    print -n >>$FOUND
    exit
}
zle -N zle-line-init ask
