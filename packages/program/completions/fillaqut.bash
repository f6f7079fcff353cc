# The completion of fillaqut for bash, as packages/program/write makes it of packages/program/options.tsv.
# shellcheck shell=bash

# The words that a command takes and begin with a hyphen; those of the program itself, where it is no command.
_fillaqut_options() {
    case $1 in
        fillaqut) echo '-h --help --version' ;;
        html) echo '--unsafe --strict --to -e --gfm -h --help --version' ;;
        events) echo '-e --gfm -h --help --version' ;;
        json) echo '-e --gfm -h --help --version' ;;
        blocks) echo '--json -e --gfm -h --help --version' ;;
        inlines) echo '-e --gfm -h --help --version' ;;
        links) echo '--json --check --root -e --gfm -h --help --version' ;;
        tables) echo '--check --write --gfm -h --help --version' ;;
    esac
}

# What the value of this option of this command may be; nothing where it takes no value.
_fillaqut_values() {
    case "$1 $2" in
        'html --to') echo 'html events json' ;;
        'html -e') echo 'tables strikethrough tasks wikilinks' ;;
        'events -e') echo 'tables strikethrough tasks wikilinks' ;;
        'json -e') echo 'tables strikethrough tasks wikilinks' ;;
        'blocks -e') echo 'tables footnotes strikethrough tasks definition-lists wikilinks' ;;
        'inlines -e') echo 'tables footnotes strikethrough tasks definition-lists wikilinks' ;;
        'links -e') echo 'tables strikethrough tasks wikilinks' ;;
    esac
}

# Whether the value of this option of this command is a folder.
_fillaqut_is_folder() {
    case "$1 $2" in
        'links --root') return 0 ;;
    esac
    return 1
}

# Whether the word -- stands between the command and the word that is completed.
_fillaqut_only_files() {
    local word
    for word in "${COMP_WORDS[@]:2:COMP_CWORD-2}"; do
        [ "$word" != -- ] || return 0
    done
    return 1
}

_fillaqut() {
    local command=${COMP_WORDS[1]-} word=${COMP_WORDS[COMP_CWORD]} option=${COMP_WORDS[COMP_CWORD - 1]} start='' words=''
    # Readline makes three words of --to=json.
    if [ "$word" = = ]; then
        word=''
    elif [ "$option" = = ]; then
        option=${COMP_WORDS[COMP_CWORD - 2]}
    fi
    COMPREPLY=()
    if [ "$COMP_CWORD" = 1 ]; then
        words='html events json blocks inlines links tables'
        [[ $word != -* ]] || words=$(_fillaqut_options fillaqut)
    elif ! _fillaqut_only_files && _fillaqut_is_folder "$command" "$option"; then
        compopt -o filenames
        mapfile -t COMPREPLY < <(compgen -d -- "$word")
        return
    elif ! _fillaqut_only_files; then
        words=$(_fillaqut_values "$command" "$option")
        if [ -z "$words" ]; then
            # An option and its value in one word.
            case $word in
                --*=*) start=${word%%=*}= ;;
                -[!-]?*) start=${word:0:2} ;;
            esac
            words=$(_fillaqut_values "$command" "${start%=}")
            [ -n "$words" ] || start=''
        fi
        [ -n "$words" ] || [[ $word != -* ]] || words=$(_fillaqut_options "$command")
    fi
    if [ -n "$words" ]; then
        mapfile -t COMPREPLY < <(compgen -P "$start" -W "$words" -- "${word#"$start"}")
    elif [ "$COMP_CWORD" != 1 ] && { [[ $word != -* ]] || _fillaqut_only_files; }; then
        compopt -o default
    fi
}

complete -F _fillaqut fillaqut
