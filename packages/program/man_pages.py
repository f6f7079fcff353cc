"""The manual pages of the program and of each command, by the macros `man` of groff."""
import re

from help_texts import HYPHENED, SAYS_STATUS
from options_table import PROGRAM, TOP, usage_of

BY = r'.\" Written by packages/program/write, of packages/program/options.tsv and the texts of --help.'
ESCAPES = {"\\": r"\e", "`": r"\(ga", "^": r"\(ha", "~": r"\(ti"}
# What stands in another font: options and words bold, names of values slanted.
MARKED = re.compile(r"-[\w=-]*|[a-z][a-z-]*|[A-Z]+")


def escaped(text):
    return "".join(ESCAPES.get(character, character) for character in text)


def line_of(text):
    """A line of text, which is no request."""
    return r"\&" + text if text.startswith((".", "'")) else text


def bold(text):
    return rf"\fB{escaped(text)}\fR".replace("-", r"\-")


def in_fonts(usage):
    """A part of a usage line; no line ends in brackets."""
    usage = re.sub(r"\[[^]]*\]", lambda match: match[0].replace(" ", r"\~"), usage)
    return MARKED.sub(lambda match: rf"\fI{match[0]}\fR" if match[0].isupper() else bold(match[0]), usage)


def prose(lines, names):
    """Lines that are filled: options, and commands of the program, are bold."""
    marked = re.compile(rf"\b{PROGRAM} (?:{'|'.join(names)})\b|{HYPHENED.pattern}")
    found = []
    for line in lines:
        at, made = 0, ""
        for match in marked.finditer(line):
            made += escaped(line[at : match.start()]) + bold(match[0])
            at = match.end()
        found.append(line_of(made + escaped(line[at:])))
    return found


def as_it_stands(lines):
    """Lines that are not filled, without the space that all of them begin with."""
    least = min(len(line) - len(line.lstrip()) for line in lines)
    texts = [escaped(line[least:]).replace("-", r"\-").replace("'", r"\(aq") for line in lines]
    return [".EX", *[line_of(text) for text in texts], ".EE"]


def page_of(name):
    return PROGRAM if name == PROGRAM else f"{PROGRAM}-{name}"


def linked(name):
    return rf"\%\fB{page_of(name)}\fR(1)".replace("-", r"\-")


def synopsis(command):
    lines = []
    for usage in usage_of(command):
        head = PROGRAM if command.name == PROGRAM else f"{PROGRAM} {command.name}"
        lines += [f'.SY "{head}"', in_fonts(usage.removeprefix(head).strip()), ".YS"]
    return lines


def list_of_commands(commands, names):
    lines = []
    for command in [command for command in commands if command.name != PROGRAM]:
        lines += [".TP", bold(command.name), *prose([command.sentence], names), f"See {linked(command.name)}."]
    return lines


def description(command, commands, found, names):
    """What the help text says beside its options and statuses."""
    lines = []
    for part in [part for part in found.parts if not part[0].startswith(SAYS_STATUS)]:
        if not part[0].startswith(" "):
            lines += [".PP", *prose(part, names)]
        elif command.name == PROGRAM:
            lines += list_of_commands(commands, names)
        else:
            lines += [".PP", *as_it_stands(part)]
    return lines[1:]


def sentence_of(definition):
    """What a help text says of an option, as a sentence; where a list follows, without an end."""
    first, *others = definition.lines
    lines = [first[0].upper() + first[1:], *others]
    return lines if definition.listed else [*lines[:-1], f"{lines[-1]}."]


def by_help(definition, names):
    lines = [".TP", in_fonts(definition.term), *prose(sentence_of(definition), names)]
    return lines + ([".RS", ".PP", *as_it_stands(definition.listed), ".RE"] if definition.listed else [])


def by_table(alike, names):
    """Options that have one sentence."""
    row = alike[0]
    return [".TP", ", ".join(in_fonts(other.shown) for other in alike), *prose([row.sentence], names)]


def options(command, found, names):
    """What the help text defines of each option, and else the sentence of the table."""
    lines, said = [], set()
    for row in command.options:
        definitions = found.defined(row.word)
        lines += [line for it in definitions for line in by_help(it, names)]
        if not definitions and row.sentence not in said:
            lines += by_table([other for other in command.options if other.sentence == row.sentence], names)
            said.add(row.sentence)
    return lines


def rows(found, names):
    """Each with its sentence."""
    return [line for row in found for line in (".TP", bold(row.word), *prose([row.sentence], names))]


def examples(command, names):
    lines = []
    for row in command.examples:
        lines += [".PP", *prose([row.sentence], names), ".PP", ".RS", *as_it_stands([row.word]), ".RE"]
    return lines[1:]


def see_also(command, commands):
    others = [linked(other.name) for other in commands if other.name != command.name]
    return [f"{other}{',' if other is not others[-1] else ''}" for other in others]


def page(command, commands, found):
    """The page of a command, of whose help text the pieces are given."""
    names = [it.name for it in commands if it.name != PROGRAM]
    title, version = page_of(command.name), (TOP / "VERSION").read_text().strip()
    sentence = command.sentence[0].lower() + command.sentence[1:].removesuffix(".")
    sections = {
        "NAME": [title.replace("-", r"\-") + rf" \- {escaped(sentence)}"],
        "SYNOPSIS": synopsis(command),
        "DESCRIPTION": description(command, commands, found, names),
        "OPTIONS": options(command, found, names),
        '"EXIT STATUS"': rows(command.statuses, names),
        "FILES": rows(command.files, names),
        "EXAMPLES": examples(command, names),
        '"SEE ALSO"': see_also(command, commands),
    }
    lines = [BY, f'.TH {title.upper()} 1 "{commands[0].day}" "{PROGRAM} {version}" "{PROGRAM}"']
    for heading, content in sections.items():
        lines += [f".SH {heading}", *content] if content else []
    return "\n".join([*lines, ""])


def pages(commands, texts):
    """The text of each page by its name."""
    return {f"man/{page_of(command.name)}.1": page(command, commands, texts[command.name]) for command in commands}
