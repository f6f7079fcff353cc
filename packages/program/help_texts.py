"""What --help prints, as crates/fillaqut keeps it, in pieces, and how it differs from the table of options."""
import re
import shlex
from dataclasses import dataclass, field

from options_table import PROGRAM, TOP, usage_of

# Each word that begins with a hyphen, alone or in brackets; and those that are no option: standard input, and ends of fragments of links.
HYPHENED = re.compile(r"(?<![\w.-])-[\w=-]*")
NO_OPTIONS = ("-", "-1", "-2")
# An option that a text defines, with its value and the first line of what it says of it.
DEFINED = re.compile(r"  (-\S+(?: \S+)?)  +(\S.*)")
SAYS_STATUS = "The status is "
STATUS = re.compile(r"\b(\d) (?:where|for)\b")


@dataclass
class Definition:
    """What a help text says of an option, or of one with one of its values, and the list under that."""

    term: str
    lines: list[str]
    listed: list[str] = field(default_factory=list)

    @property
    def names(self):
        """The words that the lines of the list begin with."""
        return [found[1] for line in self.listed if (found := re.match(r" {4}(\S+)", line))]


@dataclass
class HelpText:
    """The usage lines, the other parts between empty lines, and the options that these define, which are no parts."""

    usage: list[str]
    parts: list[list[str]]
    definitions: list[Definition]

    @property
    def text(self):
        """All but the usage lines."""
        defined = [[it.term, *it.lines, *it.listed] for it in self.definitions]
        return "\n".join(line for part in self.parts + defined for line in part)

    def defined(self, option):
        return [it for it in self.definitions if it.term.split()[0] == option]


def definitions_of(lines):
    found = []
    for line in lines:
        if match := DEFINED.fullmatch(line):
            found.append(Definition(match[1], [match[2]]))
        elif found:
            found[-1].lines.append(line.strip())
    return found


def help_of(text):
    usage, *others = [part.splitlines() for part in re.split(r"\n{2,}", text.strip("\n"))]
    found = HelpText([line.removeprefix("usage:").strip() for line in usage], [], [])
    is_after_options = False
    for part in others:
        if is_after_options and all(line.startswith("    ") for line in part):
            found.definitions[-1].listed += part
            continue
        is_after_options = bool(DEFINED.fullmatch(part[0]))
        if is_after_options:
            found.definitions += definitions_of(part)
        else:
            found.parts.append(part)
    return found


def helps(commands, top=TOP):
    """The help texts by their commands."""
    folder = top / "crates/fillaqut"
    names = [command.name for command in commands if command.name != PROGRAM]
    paths = {PROGRAM: folder / "stdout", **{name: folder / f"help/{name}.txt" for name in names}}
    return {name: help_of(path.read_text()) for name, path in paths.items() if path.is_file()}


def faults_of_files(commands, found, top=TOP):
    """Commands without a help text, and help texts of no command."""
    yield from [f"{command.name}: no help text" for command in commands if command.name not in found]
    for path in sorted((top / "crates/fillaqut/help").iterdir()):
        if path.stem not in found:
            yield f"{path.name}: a help text, and the table has no such command"
    said = {word for text in found.values() for word in HYPHENED.findall(text.text)}
    yield from [f"no help text says {word}, which help_texts.py has as no option" for word in NO_OPTIONS if word not in said]


def is_option(word, commands):
    """Whether it is an option of one of these commands, with its value in the same word where it has one."""
    for command in commands:
        for row in command.options:
            start = f"{row.word}=" if row.word.startswith("--") else row.word
            is_value = row.is_folder or word.removeprefix(start) in row.values
            if word == row.word or word.startswith(start) and is_value:
                return True
    return False


def faults_of_values(command, found):
    """Values that the table and the help text of a command don't have both."""
    for row in [row for row in command.options if row.values]:
        defined = found.defined(row.word)
        if row.value:
            said = [name for it in defined for name in it.names]
        else:
            said = [value for it in defined for value in it.term.split()[1:]]
        if sorted(said) != sorted(row.values):
            yield f"{command.name}: {row.word} takes {' '.join(row.values)}, and the help text says {' '.join(said) or 'nothing'}"
        for value in re.findall(rf"(?<!\S){row.word} ([a-z-]+)", found.text):
            if value not in row.values:
                yield f"{command.name}: the help text says {row.word} {value}"


def faults_of_text(command, commands, found):
    """Options that stand in the table or in the help text of a command, and not in both. The text of the program names options of all."""
    known = commands if command.name == PROGRAM else [command]
    said = HYPHENED.findall(found.text)
    for word in dict.fromkeys(said):
        if word not in NO_OPTIONS and not is_option(word, known):
            yield f"{command.name}: the help text says {word}, and the table has no such option"
    for row in [row for row in command.options if row.how != "alone"]:
        if not any(word == row.word or row.values and word.startswith(row.word) for word in said):
            yield f"{command.name}: the help text says nothing of {row.word}"


def faults_of_statuses(command, found):
    paragraphs = [" ".join(part) for part in found.parts]
    said = [number for text in paragraphs if SAYS_STATUS in text for number in STATUS.findall(text.split(SAYS_STATUS)[1])]
    rows = [row.word for row in command.statuses]
    if not said or not set(said) <= set(rows) or command.name != PROGRAM and said != rows:
        yield f"{command.name}: the statuses are {' '.join(rows)}, and the help text says {' '.join(said) or 'nothing'}"


def faults_of_list(commands, found):
    """The text of the program lists the commands as the table does."""
    listed = [match[1] for part in found.parts for line in part if (match := re.match(r" {2}(\S+)", line))]
    names = [command.name for command in commands if command.name != PROGRAM]
    if listed != names:
        yield f"{PROGRAM}: the table has the commands {' '.join(names)}, and the help text {' '.join(listed) or 'none'}"


def untaken(line, commands):
    """The words after a command, options and their values, that it doesn't take; its name, where there is no such command."""
    name, *words = shlex.split(line) or [""]
    called = [it for it in commands if it.name == name]
    if not called:
        yield name
    for before, word in zip([name, *words], words if called else []):
        values = [row.values for row in called[0].options if row.word == before and row.values]
        is_known = word in NO_OPTIONS or not HYPHENED.fullmatch(word) or is_option(word, called)
        if not is_known or values and word not in values[0]:
            yield word


def faults_of_table(command, commands):
    """Words that the table has after the program in examples, and that the program doesn't take."""
    for line in [row.word.partition(f"{PROGRAM} ")[2] for row in command.examples]:
        yield from [f"{command.name}: the table says {PROGRAM} {line}, and there is no {word}" for word in untaken(line, commands)]


def faults(commands, top=TOP):
    """What the table and the help texts don't have alike, a line each."""
    found = helps(commands, top)
    yield from faults_of_files(commands, found, top)
    for command in commands:
        yield from faults_of_table(command, commands)
    for command in [command for command in commands if command.name in found]:
        text = found[command.name]
        if text.usage != usage_of(command):
            yield f"{command.name}: the usage is {' / '.join(usage_of(command))}, and the help text says {' / '.join(text.usage)}"
        yield from faults_of_text(command, commands, text)
        yield from faults_of_values(command, text)
        yield from faults_of_statuses(command, text)
        if command.name == PROGRAM:
            yield from faults_of_list(commands, text)
