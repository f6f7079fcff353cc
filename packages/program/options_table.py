"""The commands and options of the program fillaqut, as options.tsv has them, and the usage lines that they make."""
import re
import sys
from dataclasses import dataclass
from pathlib import Path

sys.path.append(str(Path(__file__).resolve().parents[1]))
from extension_table import extensions

TOP = Path(__file__).resolve().parents[2]
TABLE = "packages/program/options.tsv"
PROGRAM, EACH = "fillaqut", "*"
# The option that asks for an extension.
ASKS = "-e"
COLUMNS = 6
HOW = ("", "..", "|", "alone")


class BadTable(Exception):
    """What is wrong with the table."""


@dataclass
class Row:
    """A row of the table; `command` is a name, fillaqut or *; the value of an option may be one of these, or is a folder."""

    command: str
    word: str
    value: str
    how: str
    values: list[str]
    sentence: str
    is_folder: bool

    @property
    def shown(self):
        """The option with its value, as the usage line has it."""
        return f"{self.word} {self.value or '|'.join(self.values)}".strip()


@dataclass
class Command:
    """A command, or the program itself: what it does, its other rows, its own first; of the program the day of its pages."""

    name: str
    sentence: str
    rows: list[Row]
    day: str = ""

    def rows_of(self, pattern):
        return [row for row in self.rows if re.match(pattern, row.word)]

    @property
    def options(self):
        return self.rows_of("-")

    @property
    def alone(self):
        """The options that stand with no other."""
        return [row for row in self.options if row.how == "alone"]

    @property
    def operands(self):
        return self.rows_of("[A-Z]")

    @property
    def statuses(self):
        return sorted(self.rows_of("[0-9]"), key=lambda row: row.word)

    @property
    def examples(self):
        return self.rows_of(r"\$ ")

    @property
    def files(self):
        return self.rows_of(r"\.")

    @property
    def extensions(self):
        """What each extension is that the command takes, by the name; its own rows come before those of each command."""
        said = {}
        for row in self.rows_of("="):
            said.setdefault(row.word.removeprefix("="), row.sentence)
        taken = [name for row in self.options if row.word == ASKS for name in row.values]
        if unsaid := [name for name in taken if name not in said]:
            raise BadTable(f"{TABLE}: no row says what {unsaid[0]} is of {self.name}")
        return {name: said[name] for name in taken}


def words_of(cell):
    """The words of a cell of values, where @extensions and @built stand for the names of extensions, and @folder for no word."""
    if cell in ("@extensions", "@built"):
        return [it.name for it in extensions() if it.is_built or cell == "@extensions"]
    return [] if cell == "@folder" else cell.split()


def github():
    """The options that ask for the extensions of GitHub Flavored Markdown."""
    return " ".join(f"{ASKS} {it.name}" for it in extensions() if it.is_github)


def row_of(number, line):
    cells = line.split("\t")
    if len(cells) != COLUMNS or not cells[0] or cells[3] not in HOW or not re.fullmatch(r"[A-Z].*\.", cells[5]):
        raise BadTable(f"{TABLE}:{number}: no row of {COLUMNS} cells with a command and a sentence")
    command, word, value, how, values, sentence = cells
    if word and not re.match(r"-|\d$|\$ |\.|=|[A-Z]+$", word):
        raise BadTable(f"{TABLE}:{number}: {word} is nothing that a row is of")
    if word.startswith("=") and word[1:] not in words_of("@extensions"):
        raise BadTable(f"{TABLE}:{number}: there is no extension {word[1:]}")
    return Row(command, word, value, how, words_of(values), sentence.replace("@github", github()), values == "@folder")


def rows_of_table(text):
    lines = enumerate(text.splitlines(), 1)
    rows = [row_of(number, line) for number, line in lines if line and not line.startswith("#")]
    seen = set()
    for row in rows:
        if (row.command, row.word) in seen:
            raise BadTable(f"{TABLE}: two rows of {row.command} {row.word}")
        seen.add((row.command, row.word))
    return rows


def commands(top=TOP):
    """The program itself, and then its commands in the order of the table."""
    rows = rows_of_table((top / TABLE).read_text())
    heads = [row for row in rows if not row.word]
    if len(heads) < 2 or heads[0].command != PROGRAM or not any(row.command == EACH for row in rows):
        raise BadTable(f"{TABLE}: no row of the program, of a command, or of each command")
    if other := {row.command for row in rows} - {head.command for head in heads} - {EACH}:
        raise BadTable(f"{TABLE}: no row says what {min(other)} does")
    found = []
    for head in heads:
        of = (head.command,) if head.command == PROGRAM else (head.command, EACH)
        own = [row for name in of for row in rows if row.command == name and row.word]
        found.append(Command(head.command, head.sentence, own, head.value))
    if idle := [command.name for command in found if not command.options or not command.statuses]:
        raise BadTable(f"{TABLE}: no option or no status of {idle[0]}")
    return found


def calls_of(command):
    """The words of the usage lines that name options and operands, one in place of another together."""
    found = []
    for row in [row for row in command.options + command.operands if row.how != "alone"]:
        if row.how == "|":
            found[-1] = f"{found[-1][:-1]} | {row.shown}]"
        elif row.how == ".." and row in command.operands:
            found.append(f"[{row.shown} ..]")
        else:
            found.append(f"[{row.shown}]{row.how}")
    return found


def usage_text(command):
    """The usage lines, with the word usage, as --help prints them."""
    first, *others = usage_of(command)
    return "".join([f"usage: {first}\n", *(f"       {line}\n" for line in others)])


def usage_of(command):
    """The usage lines of a command, or of the program itself, without the word usage."""
    alone = " | ".join(row.word for row in command.alone)
    if command.name == PROGRAM:
        return [f"{PROGRAM} COMMAND [OPTION ..] [--] [FILE ..]", f"{PROGRAM} COMMAND --help", f"{PROGRAM} {alone}"]
    return [f"{PROGRAM} {command.name} {' '.join(calls_of(command))}", f"{PROGRAM} {command.name} {alone}"]
