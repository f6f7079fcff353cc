"""The examples of the two specifications in tests/commonmark, with their numbers and sections."""
import re
from collections import namedtuple
from pathlib import Path

TOP = Path(__file__).resolve().parents[2]
COMMONMARK = TOP / "tests/commonmark/spec-0.31.2.txt"
GFM = TOP / "tests/commonmark/gfm-0.29-extensions.txt"

FENCE = "`" * 32
# A heading, a comment that numbers the next example, or an example: its extension, its page and its HTML.
PART = re.compile(
    r"^##? (?P<heading>[^\n]*)$|^<!-- example (?P<number>\d+) -->$"
    rf"|^{FENCE} example *(?P<extension>\w*)\n(?P<page>.*?)^\.\n(?P<html>.*?)^{FENCE}$",
    re.M | re.S,
)

# An example: the name of the extension that it is of, or ''. Pages and HTML are bytes.
Example = namedtuple("Example", "number section extension page html")


def written(text):
    """The bytes of a page or of HTML, in which the specification shows each tab as an arrow."""
    return text.replace("→", "\t").encode()


def examples(path):
    """The examples of a specification, each one more than the one before it where no comment numbers it."""
    section, number = "", 1
    for part in PART.finditer(path.read_text(encoding="utf-8")):
        if part["heading"] is not None:
            section = part["heading"]
        elif part["number"]:
            number = int(part["number"])
        else:
            yield Example(number, section, part["extension"], written(part["page"]), written(part["html"]))
            number += 1
