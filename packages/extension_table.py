"""The extensions of packages/extensions.tsv, a row each."""
from dataclasses import dataclass
from pathlib import Path

TOP = Path(__file__).resolve().parents[1]
TABLE = "packages/extensions.tsv"


class BadTable(Exception):
    """What is wrong with the table."""


@dataclass
class Extension:
    """A row: its columns, and the name as a word of Rust and the constant without the prefix of C."""

    name: str
    bit: int
    constant: str
    is_built: bool
    source: str
    sentence: str

    @property
    def field(self):
        return self.name.replace("-", "_")

    @property
    def is_github(self):
        """Whether the program is asked for it by --gfm."""
        return self.is_built and self.source.startswith("GitHub Flavored Markdown")

    @property
    def short(self):
        return self.constant.removeprefix("MDS_")


def extension_of(number, line):
    columns = line.split("\t")
    if len(columns) != 6 or columns[3] not in ("yes", "no") or not columns[1].isdecimal():
        raise BadTable(f"{TABLE}:{number}: no row of six columns with a bit and yes or no")
    name, bit, constant, built, source, sentence = columns
    return Extension(name, int(bit), constant, built == "yes", source, sentence)


def extensions():
    """The rows of the table, each of a bit of its own."""
    lines = enumerate((TOP / TABLE).read_text().splitlines(), 1)
    found = [extension_of(number, line) for number, line in lines if not line.startswith("#")]
    bits = [it.bit for it in found]
    if not found or len(set(bits)) != len(bits) or any(bit == 0 or bit & (bit - 1) for bit in bits):
        raise BadTable(f"{TABLE} has no rows, or not each has one bit of its own")
    return found
