"""The example packages/c/examples/outline.py: HTML blocks and code spans, of which its own pages say nothing."""
import importlib.util
import sys
import unittest
from pathlib import Path

OUTLINE = Path(__file__).resolve().parents[3] / "packages/c/examples/outline.py"


def loaded():
    spec = importlib.util.spec_from_file_location("outline", OUTLINE)
    module = importlib.util.module_from_spec(spec)
    spec.loader.exec_module(module)
    return module


outline = loaded()


def prints(page):
    return outline.Outline().read(page.encode())[0].decode()


def lines_run(page):
    """How many lines of the example are run."""
    count = 0

    def trace(frame, event, _):
        nonlocal count
        count += event == "line"
        return trace if frame.f_code.co_filename == str(OUTLINE) else None

    sys.settrace(trace)
    try:
        prints(page)
    finally:
        sys.settrace(None)
    return count


class Html(unittest.TestCase):
    def test_blocks_that_go_on_over_blank_lines(self):
        """Start conditions 1 to 5. (4.6)"""
        for front, end in (("<pre>", "</pre>"), ("<SCRIPT", "</script>"), ("<style>", "</style>"), ("<textarea>", "</textarea>"),
                           ("<!-- a", "-->"), ("<?a", "?>"), ("<!a", ">"), ("<![CDATA[a", "]]>")):
            self.assertEqual(prints(f"{front}\n\n# x\n{end}"), "")
            self.assertEqual(prints(f"{front}\n\n# x\n{end} b\n# y"), "5: # y\n")
            self.assertEqual(prints(f"> {front}\n\n# x"), "3: # x\n")

    def test_blocks_that_end_at_blank_lines(self):
        """Start conditions 6 and 7, of which the last can't interrupt a paragraph. (4.6)"""
        for front in ("<div>", "</p", "<del>"):
            self.assertEqual(prints(f"{front}\n# x\n\n# y"), "4: # y\n")
        self.assertEqual(prints("a\n<div>\n# x"), "")
        self.assertEqual(prints("a\n<del>\n# x"), "3: # x\n")

    def test_blocks_of_one_line(self):
        self.assertEqual(prints("<pre></pre>\n# x"), "2: # x\n")
        self.assertEqual(prints("<!-- a -->\n# x"), "2: # x\n")


class CodeSpans(unittest.TestCase):
    def test_spans(self):
        """(6.1)"""
        for text, refers in (("`[x][y]`", False), ("``[x][y]`", True), ("`[x][y]``", True), ("``a ` [x][y] ``", False),
                             ("``` `` [x][y] `` ```", False), ("` `` ` [x][y]", True), ("\\`[x][y]`", True), ("`[x]\\`[a][y]", True),
                             ("\\``[x][y]`", False), ("```[x][y] `` [x][y] ``", True)):
            self.assertEqual(prints(text), "1: [y] has no definition\n" * refers, text)

    def test_runs_that_grow(self):
        """Twice as long a text of runs, each longer than those before, takes at most 2.2 times as many lines of the example."""
        once, twice = (lines_run(" ".join("`" * length for length in range(1, count))) for count in (200, 283))
        self.assertLessEqual(twice, 2.2 * once)


if __name__ == "__main__":
    unittest.main()
