"""Rows that are too long to write, or whose answers stand elsewhere: the help and the version of each command, the stored runs, labels and
parentheses as long and as deep as they may be, names with control characters, blocks of many lines and in many others, and the examples
of CommonMark, which tests/commonmark has."""
import sys

sys.dont_write_bytecode = True
from rows import TOP, Row, stored_run

sys.path.append(str(TOP / "tests/html"))
from spec import COMMONMARK, examples

FILLAQUT = TOP / "crates/fillaqut"
COMMANDS = ("html", "events", "json", "blocks", "inlines", "links", "tables")


def row(name, command, page, printed):
    return Row("tests/rows/made.py", name, command.split(), "", page, printed, 0, b"")


def answers():
    """Help and version are printed whole, and nothing is read."""
    version = (TOP / "VERSION").read_bytes()
    yield row("help_is_printed_whole", "fillaqut -h", None, (FILLAQUT / "stdout").read_bytes())
    yield row("the_version_is_that_of_the_repository", "fillaqut --version", None, b"fillaqut " + version)
    for command in COMMANDS:
        help_text = (FILLAQUT / f"help/{command}.txt").read_bytes()
        for word in ("--help", "-h", "a -h"):
            yield row("help_is_printed_whole", f"fillaqut {command} {word}", None, help_text)
        for word in ("--version", "--version --help"):
            yield row("the_version_is_that_of_the_repository", f"fillaqut {command} {word}", None, b"fillaqut " + version)
    yield row("help_is_printed_whole", "fillaqut blocks --json a -h", None, (FILLAQUT / "help/blocks.txt").read_bytes())


def stored():
    """The stored runs of the commands, on a page of every construct."""
    for command in COMMANDS:
        run = stored_run(FILLAQUT / "runs" / command)
        yield row(f"stored_run_of_{command}", f"fillaqut {command} {run.words}", run.page, run.printed)._replace(said=run.said)


def definition(letters, pairs):
    """A label of so many letters, a destination of so many pairs of parentheses, and an underline."""
    return b"[%s]: %s%sb\n===\n" % (b"a" * letters, b"(" * pairs, b")" * pairs)


def definitions():
    """Labels have 999 characters at most (CommonMark 0.31.2, 6.3), and parentheses nest 32 deep at most, as cmark 0.30.2 has it."""
    defined, text = b"1 1 0 definition\n2 2 0 paragraph\n", b"1 2 0 setext 1\n"
    yield row("labels_have_999_characters_at_most", "fillaqut blocks", definition(999, 1), defined)
    yield row("labels_have_999_characters_at_most", "fillaqut blocks", definition(1000, 1), text)
    yield row("parentheses_nest_32_deep_at_most", "fillaqut blocks", definition(1, 32), defined)
    yield row("parentheses_nest_32_deep_at_most", "fillaqut blocks", definition(1, 33), text)


def page_of_references(size, between):
    """A definition whose destination has so many bytes, and its label three times."""
    return b"[a]: /%s\n\n%s\n" % (b"x" * (size - 1), between.join([b"[a]"] * 3))


def link_of(size):
    return b'<a href="/%s">a</a>' % (b"x" * (size - 1))


def paragraphs(*texts):
    return b"".join(b"<p>%s</p>\n" % text for text in texts)


def references():
    """References add as many bytes to a page as it has, and 100,000 to a shorter one, as in cmark 0.30.2; a block that would add more has none."""
    command, text = "fillaqut html --unsafe", b"[a]"
    name = "references_add_100000_bytes_to_a_short_page"
    yield row(name, command, page_of_references(50_000, b"\n\n"), paragraphs(link_of(50_000), link_of(50_000), text))
    yield row(name, command, page_of_references(50_001, b"\n\n"), paragraphs(link_of(50_001), text, text))
    yield row(name, command, page_of_references(33_333, b"\n"), paragraphs(b"\n".join([link_of(33_333)] * 3)))
    yield row(name, command, page_of_references(33_334, b"\n"), paragraphs(b"[a]\n[a]\n[a]"))
    name, page = "references_add_as_many_bytes_as_a_page_has", page_of_references(75_000, b"\n\n")
    for length, links in ((150_000, 2), (149_999, 1)):
        rest = b"b" * (length - len(page) - 2)
        yield row(name, command, b"%s\n%s\n" % (page, rest), paragraphs(*[link_of(75_000)] * links, *[text] * (3 - links), rest))


def short_rows(columns, *rows):
    """A table of so many columns, and for each pair so many rows of so many cells; its HTML where these are not filled in, and where they are."""
    page = b"|a" * columns + b"|\n" + b"|-" * columns + b"|\n" + b"".join((b"|b" * cells + b"|\n") * count for count, cells in rows)
    head = b"<table>\n<thead>\n<tr>\n" + b"<th>a</th>\n" * columns + b"</tr>\n</thead>\n<tbody>\n"

    def html(is_filled):
        shown = (b"<tr>\n" + b"<td>b</td>\n" * min(cells, columns) + b"<td></td>\n" * (max(columns - cells, 0) * is_filled) + b"</tr>\n" for _, cells in rows)
        return head + b"".join(one * count for one, (count, _) in zip(shown, rows)) + b"</tbody>\n</table>\n"

    return page, html(False), html(True)


def filled_rows():
    """Rows are filled in with as many cells in a page as it has bytes, and with 100,000 in a shorter one: all rows of a table, or none (GFM 4.10)."""
    command, name = "fillaqut html -e tables", "rows_are_filled_in_with_100000_cells_in_a_short_page"
    page, _, filled = short_rows(401, (250, 1))
    yield row(name, command, page, filled)
    for rows in [(250, 1), (1, 400)], [(251, 1), (1, 402)]:
        yield row(name, command, *short_rows(401, *rows)[:2])
    first, most, more, last = (short_rows(401, (150, 1)), short_rows(401, (100, 1)), short_rows(401, (100, 1), (1, 400)), short_rows(2, (1, 1)))
    yield row(name, command, first[0] + b"\n" + most[0] + b"\n" + last[0], first[2] + most[2] + last[1])
    yield row(name, command, first[0] + b"\n" + more[0] + b"\n" + last[0], first[2] + more[1] + last[2])
    yield row("own_empty_cells_are_counted", command, b"|a|\n|-|\n||\n\n" + page, short_rows(1, (1, 0))[2] + short_rows(401, (250, 1))[1])
    name, (page, own, filled) = "rows_are_filled_in_with_as_many_cells_as_a_page_has_bytes", short_rows(1011, (100, 1))
    for length, html in ((101_000, filled), (100_999, own)):
        yield row(name, command, page.ljust(length, b"\n"), html)


def large():
    """A block that is longer than many reads, and a hundred thousand items in each other."""
    count = 100_000
    shown = b"1 %d 0 paragraph\n%d %d 0 blank\n%d %d 0 heading 1\n" % (count, *[count + 1] * 2, *[count + 2] * 2)
    yield row("a_block_is_longer_than_many_reads", "fillaqut blocks", b"a\n" * count + b"\n# b\n", shown)
    items = b"".join(b"1 1 %d item + 0\n" % depth for depth in range(count))
    lists = b"".join(b"1 1 %d list + 0 tight\n" % depth for depth in reversed(range(count)))
    yield row("a_hundred_thousand_items_may_be_nested", "fillaqut blocks", b"+ " * count, items + b"1 1 %d blank\n" % count + lists)


def of_specification():
    """The HTML of the examples of CommonMark 0.31.2."""
    for example in examples(COMMONMARK):
        yield row(f"example_{example.number}", "fillaqut html --unsafe", example.page, example.html)


# A name with characters that break a line or drive a terminal, and how it is printed: as Rust's `escape_default` writes those of them.
ODD, SHOWN = "a\nb\t\r\x1b[1m\x7f\x85\u00e9\\'", "a\\nb\\t\\r\\u{1b}[1m\\u{7f}\\u{85}\u00e9\\'"


def named(words, printed, status, said):
    return Row("tests/rows/made.py", "no_name_breaks_a_line", words, "", None, printed, status, said)


def names():
    """Names are printed with escapes for control characters, and as JSON as they are."""
    shown = SHOWN.encode()
    for command in COMMANDS:
        yield named(["fillaqut", command, f"no{ODD}"], b"", 3, b"fillaqut: no" + shown + b": No such file or directory\n")
    yield named(["fillaqut", "links", ODD], shown + b':3:1: link inline "gone" ""\n', 0, b"")
    yield named(["fillaqut", "links", "--check", ODD], shown + b':3:1: no such file "gone"\n', 1, b"")
    yield named(["fillaqut", "tables", "--check", ODD], shown + b":1:1: table is not laid out\n", 1, b"")


def table_of(columns, cell):
    """A table of so many columns whose row has this cell and empty ones, and the same laid out. A character that is not ASCII is two wide."""
    page = b"|a%s\n%s|\n|%s%s\n" % (b"|" * columns, b"|-" * columns, cell, b"|" * columns)
    width = len(cell) if cell.isascii() else 2 * len(cell.decode())
    lines = [(b"| a" + b" " * (width - 1), b" |    "), (b"| " + b"-" * width, b" | ---"), (b"| " + cell, b" |    ")]
    return page, b"".join(first + later * (columns - 1) + b" |\n" for first, later in lines)


def on_table(name, words, page, printed, status=0, said=b""):
    return Row("tests/rows/made.py", name, ["fillaqut", "tables", *words], "", page, printed, status, said)


# Of 2000 columns a row of one cell has four besides its text, and each further empty cell takes six.
WIDEST = [(1, b"b" * 1996), (1, "\u65e5".encode() * 998), (2, b"b" * 1990), (333, b"b" * 4)]
WIDER = [(1, b"b" * 1997), (1, "\u65e5".encode() * 999), (2, b"b" * 1991), (333, b"b" * 5), (334, b"bbb")]


def wide_tables():
    """A table is laid out in rows of 2000 columns at most: one that would have wider rows is left as it is, and named."""
    too_wide = b"-:%d:1: table would be wider than 2000 columns, and is left as it is\n"
    for page, laid in (table_of(*one) for one in WIDEST):
        yield on_table("rows_have_2000_columns_at_most", [], page, laid)
        yield on_table("rows_of_2000_columns_are_laid_out", ["--check"], laid, b"")
    for page, _ in (table_of(*one) for one in WIDER):
        yield on_table("a_table_of_wider_rows_is_left", [], page, page, said=too_wide % 1)
        yield on_table("a_table_of_wider_rows_is_named", ["--check"], page, too_wide % 1, 1)
    page, laid = table_of(1, b"bbb")
    large = table_of(1, b"b" * 40_000)[0] + b"b\n" * 10_000
    yield on_table("one_long_cell_is_not_added_to_each_row", [], large, large, said=too_wide % 1)
    around = [b"\n".join([one, large, one]) for one in (page, laid)]
    yield on_table("the_other_tables_of_a_page_are_laid_out", [], *around, said=too_wide % 5)


# The rows by the names under which they are counted, and the files that some are run with.
MADE = {
    "answers": answers, "stored": stored, "definitions_made": definitions, "references": references, "filled_rows": filled_rows,
    "large": large, "wide_tables": wide_tables, "names": names,
    COMMONMARK.stem: of_specification,
}
FILES = {"names": {ODD: b"|a|\n|-|\n[a](gone)\n"}}
