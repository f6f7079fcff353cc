"""The completions of the program for bash, zsh and fish."""
from shlex import quote

from options_table import PROGRAM

BY = "as packages/program/write makes it of packages/program/options.tsv."

BASH = """\
# The completion of fillaqut for bash, {by}
# shellcheck shell=bash

# The words that a command takes and begin with a hyphen; those of the program itself, where it is no command.
_fillaqut_options() {{
    case $1 in
{options}
    esac
}}

# What the value of this option of this command may be; nothing where it takes no value.
_fillaqut_values() {{
    case "$1 $2" in
{values}
    esac
}}

# Whether the value of this option of this command is a folder.
_fillaqut_is_folder() {{
    case "$1 $2" in
{folders}
    esac
    return 1
}}

# Whether the word -- stands between the command and the word that is completed.
_fillaqut_only_files() {{
    local word
    for word in "${{COMP_WORDS[@]:2:COMP_CWORD-2}}"; do
        [ "$word" != -- ] || return 0
    done
    return 1
}}

_fillaqut() {{
    local command=${{COMP_WORDS[1]-}} word=${{COMP_WORDS[COMP_CWORD]}} option=${{COMP_WORDS[COMP_CWORD - 1]}} start='' words=''
    # Readline makes three words of --to=json.
    if [ "$word" = = ]; then
        word=''
    elif [ "$option" = = ]; then
        option=${{COMP_WORDS[COMP_CWORD - 2]}}
    fi
    COMPREPLY=()
    if [ "$COMP_CWORD" = 1 ]; then
        words='{commands}'
        [[ $word != -* ]] || words=$(_fillaqut_options fillaqut)
    elif ! _fillaqut_only_files && _fillaqut_is_folder "$command" "$option"; then
        compopt -o filenames
        mapfile -t COMPREPLY < <(compgen -d -- "$word")
        return
    elif ! _fillaqut_only_files; then
        words=$(_fillaqut_values "$command" "$option")
        if [ -z "$words" ]; then
            # An option and its value in one word.
            case $word in
                --*=*) start=${{word%%=*}}= ;;
                -[!-]?*) start=${{word:0:2}} ;;
            esac
            words=$(_fillaqut_values "$command" "${{start%=}}")
            [ -n "$words" ] || start=''
        fi
        [ -n "$words" ] || [[ $word != -* ]] || words=$(_fillaqut_options "$command")
    fi
    if [ -n "$words" ]; then
        mapfile -t COMPREPLY < <(compgen -P "$start" -W "$words" -- "${{word#"$start"}}")
    elif [ "$COMP_CWORD" != 1 ] && {{ [[ $word != -* ]] || _fillaqut_only_files; }}; then
        compopt -o default
    fi
}}

complete -F _fillaqut fillaqut
"""

ZSH = """\
#compdef fillaqut
# The completion of fillaqut for zsh, {by}

_fillaqut() {{
    local context state state_descr line
    typeset -A opt_args
    local -a commands=(
{commands}
    )
    _arguments -C -S \\
{options} \\
        '(-)1:command:->command' \\
        '(-)*::word:->words' && return 0
    case $state in
        command) _describe -t commands command commands ;;
        words)
            case $words[1] in
{words}
            esac
            ;;
    esac
}}

_fillaqut "$@"
"""

FISH = """\
# The completion of fillaqut for fish, {by}

# Whether the first word is this command, or any where none is named.
function __fillaqut_command
    set -l words (commandline -opc)
    test (count $words) -gt 1; and begin
        test -z "$argv"; or test $words[2] = "$argv"
    end
end

{lines}
"""


def phrase(of):
    """What a row or a command says, without its full stop."""
    return of.sentence.removesuffix(".")


def completed(command):
    """The options of a command that are completed, which -- is not."""
    return [row for row in command.options if row.word != "--"]


def of_commands(commands):
    return [command for command in commands if command.name != PROGRAM]


def bash(commands):
    options = [f"        {command.name}) echo '{' '.join(row.word for row in completed(command))}' ;;" for command in commands]
    values = [f"        '{command.name} {row.word}') echo '{' '.join(row.values)}' ;;" for command in commands for row in completed(command) if row.values]
    folders = [f"        '{command.name} {row.word}') return 0 ;;" for command in commands for row in completed(command) if row.is_folder]
    names = " ".join(command.name for command in of_commands(commands))
    return BASH.format(by=BY, options="\n".join(options), values="\n".join(values), folders="\n".join(folders), commands=names)


def zsh_option(row, others):
    """What _arguments takes of an option: with which others it doesn't stand, how its value follows, and its sentence."""
    repeated = "*" if row.how == ".." else f"({' '.join(others)})" if others else ""
    excluded = "(- : *)" if row.how == "alone" else repeated
    follows = ("=" if row.word.startswith("--") else "+") if row.values or row.is_folder else ""
    offered = "_files -/" if row.is_folder else f"({' '.join(row.values)})"
    value = f":{row.value or 'value'}:{offered}" if follows else ""
    said = phrase(row).replace("[", r"\[").replace("]", r"\]")
    return quote(f"{excluded}{row.word}{follows}[{said}]{value}")


def zsh_options(command):
    rows = completed(command)
    found = []
    for at, row in enumerate(rows):
        before = [rows[at - 1].word] if row.how == "|" else []
        after = [rows[at + 1].word] if at + 1 < len(rows) and rows[at + 1].how == "|" else []
        found.append(zsh_option(row, before + after))
    return found


def zsh_command(command):
    """The lines of a command in a case."""
    lines = [f"                {command.name})", "                    _arguments -S : \\"]
    lines += [f"                        {option} \\" for option in zsh_options(command)]
    return [*lines, "                        '*:FILE:_files'", "                    ;;"]


def zsh(commands):
    described = [f"        {quote(f'{command.name}:{phrase(command)}')}" for command in of_commands(commands)]
    options = [f"        {option}" for option in zsh_options(commands[0])]
    words = [line for command in of_commands(commands) for line in zsh_command(command)]
    return ZSH.format(by=BY, commands="\n".join(described), options=" \\\n".join(options), words="\n".join(words))


def fish_option(command, row):
    is_program = command.name == PROGRAM
    condition = "not __fillaqut_command" if is_program else f"__fillaqut_command {command.name}"
    name = f"-l {row.word[2:]}" if row.word.startswith("--") else f"-s {row.word[1:]}"
    offered = "(__fish_complete_directories)" if row.is_folder else " ".join(row.values)
    value = f" -x -a {quote(offered)}" if offered else ""
    return f"complete -c {PROGRAM} -n {quote(condition)} {name}{value} -d {fish_quoted(phrase(row))}"


def fish_quoted(text):
    return "'" + text.replace("\\", "\\\\").replace("'", r"\'") + "'"


def fish(commands):
    lines = []
    for command in of_commands(commands):
        lines.append(f"complete -c {PROGRAM} -n 'not __fillaqut_command' -f -a {command.name} -d {fish_quoted(phrase(command))}")
    lines += [fish_option(command, row) for command in commands for row in completed(command)]
    return FISH.format(by=BY, lines="\n".join(lines))


def completions(commands):
    """The text of each completion by its name."""
    return {"completions/fillaqut.bash": bash(commands), "completions/_fillaqut": zsh(commands), "completions/fillaqut.fish": fish(commands)}
