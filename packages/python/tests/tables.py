"""Reads the tables of packages, files *.tsv, which the tests of all packages share. What it can't read is an error."""
import re
from collections import namedtuple
from pathlib import Path

FOLDER = Path(__file__).resolve().parents[2]
LARGEST = 2**64 - 1
WORDS = {"max": LARGEST, "none": LARGEST, "true": True, "false": False}
ESCAPES = {"n": "\n", "r": "\r", "t": "\t", "\\": "\\"}
# The calls whose one argument is a second text.
TAKE_TEXTS = ("scan_while", "scan_rev_while", "labels_match")
# The calls whose answer is a status.
STATUSES = ("ends_html_block", "labels_match")
RUN_CALLS = ("space", "space_up_to", "is_at_end", "quote", "list", "definition")
PAGE_CALLS = ("scan_blocks", "block_content", "scan_lists", "scan_inlines", "html_unsafe", "html", "events")

# A row of rows.tsv, of lines.tsv, of runs.tsv, of skips.tsv and of pages.tsv; `where` is its place in the file. A text of a line is None
# where the call goes on with the line before.
Row = namedtuple("Row", "where call text arguments answer")
Line = namedtuple("Line", "where text call numbers answer state")
Run = namedtuple("Run", "where call text given offset rest answers status")
Over = namedtuple("Over", "where call text arguments skips answer")
Page = namedtuple("Page", "where call text words answer example")


def read_text(text):
    """The bytes of a text as the file has it."""
    if re.search(r"\\(?!x[0-9a-f]{2}|[nrt\\])", re.sub(r"\\\\", "", text)) or not text.isascii():
        raise ValueError(f"not a text: {text}")
    made = re.sub(r"\\(?:x(..)|(.))", lambda found: chr(int(found[1], 16)) if found[1] else ESCAPES[found[2]], text)
    return made.encode("latin-1")


def number(word):
    return WORDS[word] if word in WORDS else int(word)


def numbers(words, separator=None):
    return [number(word) for word in words.split(separator)]


def columns_of(table, count):
    """Each row of a table: where it stands, and its columns."""
    for line, text in enumerate((FOLDER / table).read_text().splitlines(), 1):
        if not text.startswith("#"):
            columns = text.split("\t")
            if len(columns) != count:
                raise ValueError(f"packages/{table}, line {line}: {len(columns)} columns")
            yield f"packages/{table}, line {line}", *columns


def rows():
    found = []
    for where, call, text, arguments, answer in columns_of("rows.tsv", 4):
        given = [read_text("" if arguments == "-" else arguments)] if call in TAKE_TEXTS else numbers(arguments)
        found.append(Row(where, call, read_text(text), given, answer))
    return found


def lines():
    found = []
    for where, text, call, given, answer, state in columns_of("lines.tsv", 5):
        found.append(Line(where, None if text == "+" else read_text(text), call, numbers(given), answer, tuple(numbers(state))))
    return found


def run_call(word):
    """A call of a run: its kind, which may be one that no call has, and its number."""
    name, number_of_it = word.split("=")
    return RUN_CALLS.index(name) if name in RUN_CALLS else number(name), number(number_of_it)


def runs():
    found = []
    for where, call, text, given, offset, rest, answers, status in columns_of("runs.tsv", 7):
        is_line = call == "run_line"
        given = [run_call(word) for word in given.split()] if is_line else numbers(given)
        made = [tuple(numbers(word, ",")) for word in answers.split()] if is_line else numbers(answers)
        found.append(Run(where, call, read_text(text), given, number(offset) if offset else None, read_text(rest), made, status))
    return found


def overs():
    """The rows of skips.tsv."""
    found = []
    for where, call, text, arguments, skips, answer in columns_of("skips.tsv", 5):
        table = [tuple(numbers(word, ",")) for word in skips.split()]
        found.append(Over(where, call, read_text(text), numbers(arguments), table, answer))
    return found


def pages(call):
    """The rows of pages.tsv of a call, with the words of what is asked for."""
    found = []
    for where, name, text, asked, answer, example in columns_of("pages.tsv", 5):
        if name not in PAGE_CALLS:
            raise ValueError(f"{where}: there is no such call")
        if name == call:
            found.append(Page(where, name, read_text(text), asked.split(), read_text(answer), example))
    return found


def expected(answer):
    """The answer of a row: a text as how many bytes are taken, where it starts, where that is said, and its bytes; any other as the file
    has it."""
    if found := re.fullmatch(r"(?:taken|end)=(\d+)(?: start=(\w+))? text=(.*)", answer):
        return int(found[1]), found[2] and number(found[2]), read_text(found[3])
    return answer


def answered(call, answer, statuses):
    """What a call has answered, in the same form."""
    if call in STATUSES:
        return statuses[answer]
    if not isinstance(answer, dict):
        return "none" if answer == LARGEST else str(int(answer))
    fields = dict(answer)
    status = statuses[fields.pop("status", 0)]
    if status != "MDS_OK":
        assert not any(fields.values()), answer
        return status
    if "text" in fields:
        return fields["taken"], fields.get("start"), fields["text"]
    return " ".join(f"{name}={'none' if value == LARGEST else int(value)}" for name, value in fields.items())
