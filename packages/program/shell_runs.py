"""What a shell offers to complete a line with, by the completion that stands in completions/: each shell is asked by its own means."""
import os
import pty
import shutil
import subprocess
import tempfile
from pathlib import Path

HERE = Path(__file__).resolve().parent
COMPLETIONS = HERE / "completions"
SECONDS = 60

# Asks as Readline does; where the function leaves it to Readline, which then offers files, so does this.
BASH = """
source "$1"
compopt() { [ "$*" = "-o default" ] && is_left=1; }
is_left=
COMP_WORDS=("${@:2}")
COMP_CWORD=$(($# - 2))
complete -p fillaqut >/dev/null && _fillaqut || exit 1
if [ -n "$is_left" ]; then compgen -f -- "${!#}"; else printf '%s\\n' "${COMPREPLY[@]}"; fi
true
"""


def words_of_line(line):
    """The words of a line as Readline cuts it, where = ends one too, and what stands before the last of them without a space."""
    words = []
    for word in line.split(" "):
        option, mark, value = word.partition("=")
        words += [option, mark, *[value] * bool(value)] if mark else [word]
    last = line.split(" ")[-1]
    return words, last[: last.index("=") + 1] if "=" in last else ""


def asked(words, folder, environment={}):
    done = subprocess.run(words, cwd=folder, capture_output=True, text=True, timeout=SECONDS, env={**os.environ, **environment})
    if done.returncode or done.stderr:
        raise AssertionError(f"{words[0]} ends with {done.returncode}: {done.stderr}")
    return [line for line in done.stdout.splitlines() if line]


def by_bash(line, folder):
    words, start = words_of_line(line)
    found = asked(["bash", "--norc", "-c", BASH, "bash", COMPLETIONS / "fillaqut.bash", *words], folder)
    return sorted(start + word for word in found)


def by_fish(line, folder):
    ask = 'source $argv[1]; complete -C "$argv[2]"'
    with tempfile.TemporaryDirectory() as home:
        found = asked(["fish", "--no-config", "-c", ask, COMPLETIONS / "fillaqut.fish", line], folder, {"HOME": home})
    return sorted(word.split("\t")[0] for word in found)


def on_terminal(words, folder, environment, typed=""):
    """Runs an interactive shell on a terminal of its own, until it ends."""
    words = ["timeout", "--foreground", str(SECONDS), *words]
    child, terminal = pty.fork()
    if child == 0:
        try:
            os.chdir(folder)
            os.execvpe(words[0], words, {**os.environ, "TERM": "dumb", **environment})
        finally:
            os._exit(127)
    os.write(terminal, typed.encode())
    said = b""
    try:
        while read := os.read(terminal, 4096):
            said += read
    except OSError:  # all of its ends are closed
        pass
    os.waitpid(child, 0)
    os.close(terminal)
    return said.decode(errors="replace")


def by_zsh(line, folder):
    with tempfile.TemporaryDirectory() as home:
        shutil.copy(HERE / "asked.zsh", Path(home, ".zshrc"))
        found = Path(home, "found")
        said = on_terminal(["zsh", "-d", "-i"], folder, {"ZDOTDIR": home, "FOLDER": str(COMPLETIONS), "LINE": line, "FOUND": str(found)})
        if not found.is_file():
            raise AssertionError(f"zsh says {said}")
        return sorted(set(found.read_text().split("\n")) - {""})


def typed_in_bash(line, folder):
    """The words that the program gets where this is typed, with tabs, and a line feed after it."""
    with tempfile.TemporaryDirectory() as home:
        found = Path(home, "found")
        setup = f"source '{COMPLETIONS}/fillaqut.bash'; fillaqut() {{ printf '%s\\n' \"$@\" >'{found}'; exit; }}\n"
        said = on_terminal(["bash", "--norc", "--noprofile", "-i"], folder, {"HOME": home}, f"{setup}{line}\n")
        if not found.is_file():
            raise AssertionError(f"bash says {said}")
        return found.read_text().splitlines()


ASKED = {"bash": by_bash, "zsh": by_zsh, "fish": by_fish}
