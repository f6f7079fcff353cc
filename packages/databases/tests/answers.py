"""The tests of what the functions answer, whatever database asks: a test case with the method `answers`, which gives of each case what a function answers."""
import sys
from pathlib import Path

sys.dont_write_bytecode = True
import expected

sys.path.append(str(expected.TOP / "docs"))
import totals_file

TOTALS = Path(__file__).resolve().parents[1] / "totals"
# By which pages are made, and how many of each sort.
SEED, EACH = 1, 200


class Answers:
    """Mixed into a test case of each database."""

    maxDiff = None

    def hold(self, name, tried):
        """So many are tried as the file totals says."""
        self.assertEqual(totals_file.fault(TOTALS, name, tried), "")

    def compare(self, name, function, cases, form=lambda answer: answer):
        found = self.answers(function, cases)
        self.assertEqual(len(found), len(cases))
        for case, answer in zip(cases, found):
            self.assertEqual(form(answer), case.answer, f"{case.where}: {case.page}")
        self.hold(name, len(cases))

    def test_html(self):
        self.compare("html", "markdown_html", expected.html_cases())

    def test_texts(self):
        self.compare("texts", "markdown_text", expected.text_cases())

    def test_links(self):
        self.compare("links", "markdown_links", expected.link_cases())

    def test_texts_of_examples(self):
        """The text of a page has the words of its HTML."""
        cases = [case._replace(answer=expected.Read(case.answer).words) for case in expected.examples()]
        self.compare("examples", "markdown_text", cases, expected.without_spaces)

    def test_links_of_examples(self):
        """The links of a page are those of its HTML."""
        cases = [case._replace(answer=expected.Read(case.answer).links) for case in expected.examples()]
        self.compare("examples", "markdown_links", cases, expected.as_in_html)

    def test_links_of_made_pages(self):
        """Links are those of the safe HTML."""
        cases = list(expected.made_cases(SEED, EACH))
        for case, html, links in zip(cases, self.answers("markdown_html", cases), self.answers("markdown_links", cases)):
            self.assertEqual(expected.as_in_safe_html(links), expected.Read(html).links, f"{case.where}: {case.page}")
        self.hold("made_pages", len(cases))

    def test_long_html(self):
        """More than a first buffer holds, as an address is written as often as it is referred to; and more events than most pages have."""
        address = "/" + "b" * 4999
        link = f'<a href="{address}" rel="nofollow noopener">a</a>'
        page = "[a]\n" * 20 + f"\n[a]: {address}\n"
        self.assertEqual(self.answers("markdown_html", [expected.Case("", page.encode(), "", None)]), ["<p>" + "\n".join([link] * 20) + "</p>\n"])
        self.assertEqual(self.answers("markdown_text", [expected.Case("", page.encode(), "", None)]), ["a\n" * 20])
        found = self.answers("markdown_links", [expected.Case("", page.encode(), "", None)])
        self.assertEqual(found, [[[address, None, "a", "link", 4 * at, 4 * at + 3] for at in range(20)]])

    def test_many_images_in_images(self):
        """Each text is in one image: 20,000 images in one another have as many letters as there are in the page, and no more."""
        count = 20_000
        [found] = self.answers("markdown_links", [expected.Case("", b"![a" * count + b"](b)" * count, "", None)])
        self.assertEqual(found, [["b", None, "a", "image", 3 * at, 7 * count - 4 * at] for at in range(count)])
