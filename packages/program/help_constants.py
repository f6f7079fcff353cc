"""The constants of crates/*/src/help.rt: what --help prints, as crates/fillaqut has it, and the usage lines that the table makes."""
import re
from dataclasses import dataclass

from options_table import PROGRAM, TOP, usage_of, usage_text

# Commands whose constants stand in the crate of another, with what their names begin with there.
BESIDE = {"json": ("events", "JSON_")}
ESCAPES = {"\\n": "\n", "\\\\": "\\", '\\"': '"', "\\\n": ""}


@dataclass
class Constant:
    """A text constant of a help.rt, and what it has to be."""

    path: str
    name: str
    text: str

    def found(self, source):
        """Its literal in the source of the file, without the quotes."""
        return re.search(rf'\bconst {self.name}: &str =\s*"((?:[^"\\]|\\.)*)";', source, re.S)


def meaning_of(literal):
    return re.sub(r"\\.", lambda escape: ESCAPES.get(escape[0], escape[0]), literal, flags=re.S)


def literal_of(text):
    """Its first line stands on a line of its own."""
    escaped = text.replace("\\", "\\\\").replace('"', '\\"')
    return escaped if escaped.startswith("\n") else f"\\\n{escaped}"


def own_constants(commands, top=TOP):
    """Those of the program itself."""
    path = f"crates/{PROGRAM}/src/help.rt"
    called, _, alone = usage_of(commands[0])
    names = "|".join(command.name for command in commands[1:])
    yield Constant(path, "HELP", (top / f"crates/{PROGRAM}/stdout").read_text())
    yield Constant(path, "USAGE", f"usage: {called.replace('COMMAND', names)}\n       {alone}\n")


def constants(commands, top=TOP):
    """Those of the program, and of all commands."""
    yield from own_constants(commands, top)
    for command in [command for command in commands if command.name != PROGRAM]:
        crate, prefix = BESIDE.get(command.name, (command.name, ""))
        path = f"crates/page_{crate}/src/help.rt"
        yield Constant(path, f"{prefix}HELP", (top / f"crates/fillaqut/help/{command.name}.txt").read_text())
        yield Constant(path, f"{prefix}USAGE", f"\n{usage_text(command)}")


def faults(commands, top=TOP):
    """Which constants are not as they have to be, a line each."""
    for constant in constants(commands, top):
        found = constant.found((top / constant.path).read_text())
        if not found:
            yield f"{constant.path}: no text constant {constant.name}"
        elif meaning_of(found[1]) != constant.text:
            yield f"{constant.path}: {constant.name} is not as the table and crates/fillaqut have it: run packages/program/write --write"


def write(commands, top=TOP):
    """Writes those that are not."""
    for constant in constants(commands, top):
        source = (top / constant.path).read_text()
        found = constant.found(source)
        if found and meaning_of(found[1]) != constant.text:
            (top / constant.path).write_text(source[: found.start(1)] + literal_of(constant.text) + source[found.end(1) :])
