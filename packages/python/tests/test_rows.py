"""The tables of packages, which the tests of all packages read, on the package's calls: the same answers as those of C, or more of None
and exceptions. The file totals of this folder has how many rows there are; fewer and more fail."""
import itertools
import sys
import unittest
from pathlib import Path

import fillaqut as mds
import tables
from c_calls import AFTER, CALLS, FORMS, Data, as_bytes, check_skips, label, line_call, line_state, tag, outcome_of
from fillaqut import _c
from tables import LARGEST as NONE

sys.path.append(str(Path(__file__).resolve().parents[3] / "docs"))
import totals_file

STATUSES = ["OK", "NOTHING", "NOT_UTF8", "PAST_END", "BAD_SKIPS", "TOO_LARGE", "EMPTY", "NO_OPENER", "NOT_RISING", "INSIDE_FIND",
            "SPACE_PENDING", "BAD_KIND"]
# The names of the statuses, by their numbers.
NAMES = {getattr(_c, name): f"MDS_{name}" for name in STATUSES}


def hold(test, name, tried):
    """So many are tried as the file totals says."""
    test.assertEqual(totals_file.fault(Path(__file__).parent / "totals", name, tried), "")


class Rows(unittest.TestCase):
    maxDiff = None

    def test_calls(self):
        rows = tables.rows()
        for row, form in itertools.product(rows, FORMS):
            found = CALLS[row.call](Data(row.text, form), *row.arguments)
            self.assertEqual(tables.answered(row.call, found, NAMES), tables.expected(row.answer), f"{row.where}, {form}")
        hold(self, "rows.tsv", len(rows))

    def test_lines(self):
        rows = tables.lines()
        for form in FORMS:
            self.are_lines(rows, form)
        hold(self, "lines.tsv", len(rows))

    def are_lines(self, rows, form):
        """Calls on line starts, one after the other, of lines in a form."""
        for row in rows:
            if row.text is not None:
                data = Data(row.text, form)
                start = mds.LineStart(data.data, data.at, data.end)
            if row.call == "copy":
                kept = start.copy()
            elif row.call == "resume":
                start = kept
            else:
                found = tables.answered(row.call, line_call(start, row.call, row.numbers), NAMES)
                self.assertEqual(found or "MDS_OK", row.answer, f"{row.where}, {form}")
            self.assertEqual(tuple(line_state(data, start).values()), row.state, f"{row.where}, {form}")

    def test_runs(self):
        rows = tables.runs()
        checks = {"run_inline_html": self.is_html_run, "run_line": self.is_line_run, "line_rest": self.is_line_rest}
        for row in rows:
            checks[row.call](row)
        hold(self, "runs.tsv", len(rows))

    def is_html_run(self, row):
        for data, end in ((row.text, None), (row.text + AFTER, len(row.text))):
            status, run = outcome_of(mds.run_inline_html, data, row.given, end=end)
            ends = [NONE if place is None else place for place in getattr(run, "run", run)]
            self.assertEqual((NAMES[status], ends), (row.status, row.answers), row.where)

    def is_line_run(self, row):
        """In one run, and in two of which the first has so many calls."""
        if row.status == "MDS_BAD_KIND":
            self.assertRaises(ValueError, mds.run_line, mds.LineStart(row.text), row.given)
            return
        for form, first in itertools.product(FORMS, range(len(row.given) + 1)):
            data = Data(row.text, form)
            start = mds.LineStart(data.data, data.at, data.end)
            status, run = outcome_of(mds.run_line, start, row.given[:first])
            if status == _c.OK:
                status, more = outcome_of(mds.run_line, start, row.given[first:])
                run += getattr(more, "run", more)
            answers = [self.answer(kind, answer) for (kind, _), answer in zip(row.given, getattr(run, "run", run))]
            found = NAMES[status], data.length(start.place), as_bytes(mds.line_rest(start)), answers
            self.assertEqual(found, (row.status, row.offset, row.rest, row.answers), f"{row.where}, {form}")

    @staticmethod
    def answer(kind, returned):
        """An answer of a run as C has it."""
        if kind == _c.LIST:
            return (True, returned.delimiter, returned.start, returned.indent) if returned else (False, 0, 0, 0)
        if kind in (_c.UPTO, _c.DEFINITION):
            return (returned is not None, 0, 0, returned or 0)
        return (returned, 0, 0, 0)

    def is_line_rest(self, row):
        for form in FORMS:
            data = Data(row.text, form)
            start = mds.LineStart(data.data, data.at, data.end)
            for name, number in zip(("place", "pending", "phase"), row.given, strict=True):
                setattr(start._numbers, name, number)
            self.assertEqual(("MDS_OK", as_bytes(mds.line_rest(start))), (row.status, row.rest), f"{row.where}, {form}")

    def test_skips(self):
        rows = tables.overs()
        for row in rows:
            if row.call == "check_skips":
                self.assertEqual(NAMES[check_skips(row.text, row.skips)], row.answer, row.where)
                continue
            for form in FORMS:
                found = self.over(Data(row.text, form), row)
                self.assertEqual(tables.answered(row.call, found, NAMES), tables.expected(row.answer), f"{row.where}, {form}")
        hold(self, "skips.tsv", len(rows))

    @staticmethod
    def over(data, row):
        """A tag or a label over lines."""
        if row.call == "scan_html_tag_over_lines":
            return tag(data, row.skips, *row.arguments)
        start, in_table = row.arguments
        return label(data, row.skips, in_table, start)

    def test_what_is_no_row(self):
        """A text, a call or a row that can't be read is an error."""
        for text in ("\\", "\\q", "\\x4", "\\xzz", "é"):
            self.assertRaises(ValueError, tables.read_text, text)
        self.assertRaises(ValueError, tables.number, "two")
        self.assertRaises(ValueError, tables.run_call, "other=1")
        self.assertRaises(ValueError, list, tables.columns_of("rows.tsv", 5))


if __name__ == "__main__":
    unittest.main()
