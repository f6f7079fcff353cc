"""The options of commands in `page_programs`, of which the table makes fields and words: between the marks `packages/program` and `end` in
src/asked.rt and specs/Asked.antt of that crate. An extension has a field of its own kind, and an option with any value none."""
import re
from dataclasses import dataclass

from options_table import ASKS, TOP

CODE, WORDS = "crates/page_programs/src/asked.rt", "crates/page_programs/specs/Asked.antt"
# The options that ask for extensions, which packages/extensions writes.
OTHERS = (ASKS, "--gfm", "--")
# Fields that can't have the name of their option, which is a word of Rust.
NAMED = {"unsafe": "unsafe_html"}
MARKED = {
    CODE: re.compile(r"(?ms)(?<=^// packages/program\n).*?(?=^// end$)"),
    WORDS: re.compile(r"(?ms)(?<=^-- packages/program\n).*?(?=^-- end$)"),
}


@dataclass
class Flag:
    """An option without a value, or with one of its values: how it stands in a word, and its field."""

    word: str

    @property
    def field(self):
        name = re.sub(r"[- ]+", "_", self.word.lstrip("-"))
        return NAMED.get(name, name)


def flags_of_row(row):
    """The first value of an option asks for what is done without it."""
    return [f"{row.word} {value}" for value in row.values[1:]] if row.values else [row.word]


def flags(commands):
    rows = [row for command in commands[1:] for row in command.options]
    taken = [row for row in rows if row.how != "alone" and row.word not in OTHERS and not row.is_folder]
    return [Flag(word) for word in dict.fromkeys(word for row in taken for word in flags_of_row(row))]


def code(found):
    lines = ["/// Which options are asked for that commands have of their own, `--root` aside."]
    lines += ["#[derive(Clone, Copy)]", "pub struct Flags {", *[f"    pub {it.field}: bool," for it in found], "}", ""]
    lines += ["const NO_FLAGS: Flags = Flags {", *[f"    {it.field}: false," for it in found], "};", ""]
    lines += ["// Those, and those that a word asks for.", "fn with_flags(flags: Flags, word: &str) -> Flags"]
    lines += ["    ensures { result ≡ both_flags (flags_by word.now) flags }", "{", "    Flags {"]
    lines += [f'        {it.field}: word == "{it.word}" || flags.{it.field},' for it in found]
    return "\n".join([*lines, "    }", "}", ""])


def words(found):
    lines = []
    for it in found:
        lines += [f"abbrev pub {it.field} : List ℕ", f'{it.field} = codes "{it.word}"', ""]
    for says, name, kind, fields in (
        ("what stands before `--`", "flags_of arguments", "List (Bor (List ℕ)) → Flags", "asks {0} arguments"),
        ("what a word is", "flags_by word", "List ℕ → Flags", "bytes_eq word {0}"),
        ("what either is", "both_flags some others", "Flags → Flags → Flags", "some.{0} || others.{0}"),
    ):
        lines += [f"-- {says}", f"abbrev pub {name.split()[0]} : {kind}", f"{name} = record {{"]
        lines += [*[f"  {it.field} = {fields.format(it.field)};" for it in found], "}", ""]
    return "\n".join([*lines, ""])


def stale(commands, top=TOP):
    """The files that are not as the table has them, by their paths, and what they have to be."""
    found = flags(commands)
    for path, made in (CODE, code(found)), (WORDS, words(found)):
        text = (top / path).read_text()
        whole = MARKED[path].sub(lambda _: made, text)
        if len(MARKED[path].findall(text)) != 1 or whole != text:
            yield path, whole
