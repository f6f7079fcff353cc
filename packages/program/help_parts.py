"""The parts of the texts of --help in crates/fillaqut/help that the table makes: the usage lines, and the extensions that a command takes."""
import re
import textwrap

from options_table import ASKS, PROGRAM, TOP, usage_text

WIDEST = 100
ALL_AT_ONCE = "--gfm"
SAYS = "reads pages with an extension, which is one of"
USAGE = re.compile(r"\Ausage: .*?\n(?=\n)", re.S)
LIST = re.compile(rf"^  {ASKS} .*?^  {ALL_AT_ONCE} [^\n]*\n", re.M | re.S)


def begun_small(sentence):
    return sentence[0].lower() + sentence[1:].removesuffix(".")


def defined(term, text, column):
    """What a text says of a term, in lines from this column on."""
    filled = textwrap.wrap(text, WIDEST, initial_indent=term.ljust(column), subsequent_indent=" " * column, break_on_hyphens=False)
    return "".join(f"{line}\n" for line in filled)


def list_of(command):
    """The option that asks for an extension, what each of these is, and the option that asks for those of GitHub."""
    rows = {row.word: row for row in command.options}
    listed = command.extensions
    column = max(len(f"    {name}  ") for name in listed)
    named = "".join(defined(f"    {name}", begun_small(sentence), column) for name, sentence in listed.items())
    asked = defined(f"  {rows[ASKS].shown}", SAYS, column)
    return f"{asked}\n{named}\n" + defined(f"  {ALL_AT_ONCE}", begun_small(rows[ALL_AT_ONCE].sentence), column)


def made_of(command, text):
    """The text, with the parts that the table makes in their places."""
    made = USAGE.sub(lambda _: usage_text(command), text, count=1)
    return LIST.sub(lambda _: list_of(command), made, count=1) if command.extensions else made


def stale(commands, top=TOP):
    """The texts that are not as the table has them, by their paths, and what they have to be."""
    for command in [command for command in commands if command.name != PROGRAM]:
        path = f"crates/fillaqut/help/{command.name}.txt"
        text = (top / path).read_text() if (top / path).is_file() else ""
        if made_of(command, text) != text:
            yield path, made_of(command, text)
