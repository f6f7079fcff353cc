"""The extension of SQLite, which EXTENSION names without the end of its file's name."""
import json
import os
import sqlite3
import unittest

import expected
from answers import EACH, SEED, Answers
from readme import examples_of_readme

EXTENSION = os.environ["EXTENSION"]
REPLACEMENT = "\ufffd".encode()
ANSWERED = {
    "markdown_links": "(SELECT json_group_array(json_array(destination, title, text, kind, start, stop)) FROM markdown_links(:page, :extensions))",
    "markdown_html": "markdown_html(:page, :extensions)",
    "markdown_text": "markdown_text(:page, :extensions)",
}


def connected():
    connection = sqlite3.connect(":memory:")
    connection.enable_load_extension(True)
    connection.load_extension(EXTENSION)
    return connection


class InADatabase(unittest.TestCase):
    def setUp(self):
        self.database = connected()
        self.addCleanup(self.database.close)

    def ask(self, query, *values):
        return self.database.execute(query, values).fetchall()

    def one(self, query, *values):
        [[found]] = self.ask(query, *values)
        return found

    def refused(self, query, *values, kind=sqlite3.OperationalError):
        with self.assertRaises(kind) as why:
            self.ask(query, *values)
        return str(why.exception)


class Pages(Answers, InADatabase):
    def answers(self, function, cases):
        read = json.loads if function == "markdown_links" else lambda answer: answer
        query = f"SELECT {ANSWERED[function]}"
        given = [{"page": case.page.decode(), "extensions": case.extensions} for case in cases]
        return [read(self.database.execute(query, words).fetchone()[0]) for words in given]

    def test_readme(self):
        examples = examples_of_readme()
        for query, answer in examples:
            found = ["|".join("" if value is None else str(value) for value in row).rstrip("\n") for row in self.ask(query)]
            self.assertEqual(found, answer, query)
        self.assertEqual(len(examples), 4)

    def test_zero_bytes_of_made_pages(self):
        """A page with zero bytes has the links of that with U+FFFD, at the offsets of its own bytes."""
        cases = [case._replace(page=case.page.replace(b"a", b"\0")) for case in expected.made_cases(SEED, EACH)]
        others = [case._replace(page=case.page.replace(b"\0", REPLACEMENT)) for case in cases]
        for case, other, links, mapped in zip(cases, others, self.answers("markdown_links", cases), self.answers("markdown_links", others)):
            for row in mapped:
                row[4:] = [len(other.page[:offset].replace(REPLACEMENT, b"\0")) for offset in row[4:]]
            self.assertEqual(links, mapped, case.page)
        self.assertEqual(self.answers("markdown_html", cases), self.answers("markdown_html", others))
        self.assertEqual(self.answers("markdown_text", cases), self.answers("markdown_text", others))


class Arguments(InADatabase):
    def test_null(self):
        for function in ("markdown_html", "markdown_text"):
            for words in ("NULL", "NULL, ''", "'a', NULL", "NULL, 'no such'"):
                self.assertIsNone(self.one(f"SELECT {function}({words})"))
        for words in ("NULL", "NULL, ''", "'[a](b)', NULL"):
            self.assertEqual(self.ask(f"SELECT * FROM markdown_links({words})"), [])

    def test_one_argument_is_commonmark(self):
        self.assertEqual(self.one("SELECT markdown_html('~a~ [[b]]')"), "<p>~a~ [[b]]</p>\n")
        self.assertEqual(self.one("SELECT markdown_text('~a~ [[b]]')"), "~a~ [[b]]\n")
        self.assertEqual(self.ask("SELECT * FROM markdown_links('[[b]]')"), [])

    def test_other_values(self):
        self.assertEqual(self.one("SELECT markdown_html(5)"), "<p>5</p>\n")
        self.assertEqual(self.one("SELECT markdown_html(x'2a612a')"), "<p><em>a</em></p>\n")
        self.assertEqual(self.one("SELECT markdown_html(x'') || markdown_text(x'')"), "")
        self.assertEqual(self.one("SELECT typeof(markdown_html(''))"), "text")
        for count in ("", "'a', '', ''"):
            self.assertIn("wrong number of arguments", self.refused(f"SELECT markdown_html({count})"))

    def test_extensions(self):
        for words in ("strikethrough", " tables ,strikethrough", "gfm", "gfm,wikilinks"):
            self.assertEqual(self.one("SELECT markdown_html('~a~', ?)", words), "<p><del>a</del></p>\n")
        for words in ("", " ", "tables", "tables,wikilinks"):
            self.assertEqual(self.one("SELECT markdown_html('~a~', ?)", words), "<p>~a~</p>\n")

    def test_extensions_that_are_refused(self):
        for words, name in (("table", "table"), ("Tables", "Tables"), ("tables,", ""), (",", ""), ("tables;tasks", "tables;tasks"), ("gfm2,x", "gfm2")):
            for query in ("SELECT markdown_html('a', ?)", "SELECT markdown_text('a', ?)", "SELECT * FROM markdown_links('a', ?)"):
                self.assertEqual(self.refused(query, words), f"there is no extension '{name}'")
        self.assertEqual(self.refused("SELECT markdown_html('a', 'tables, footnotes')"), "not built yet is the extension 'footnotes'")

    def test_texts_that_are_not_utf8(self):
        for query in ("SELECT markdown_text({})", "SELECT * FROM markdown_links({})"):
            for value in ("x'61ff'", "CAST(x'eda080' AS TEXT)"):
                self.assertEqual(self.refused(query.format(value)), "the text is not UTF-8")
        self.assertEqual(self.one("SELECT markdown_html(x'61ff')"), "<p>a\ufffd</p>\n")
        self.assertEqual(self.one("SELECT markdown_html(CAST(x'3ceda080' AS TEXT))"), "<p>&lt;\ufffd\ufffd\ufffd</p>\n")

    def test_too_long_html(self):
        self.database.setlimit(sqlite3.SQLITE_LIMIT_LENGTH, 30)
        self.assertEqual(self.one("SELECT markdown_html('aaaaaaaaaa')"), "<p>aaaaaaaaaa</p>\n")
        self.assertIn("too big", self.refused("SELECT markdown_html('**************aaaaaa')", kind=sqlite3.DataError))

    def test_zero_bytes(self):
        """U+FFFD stands for U+0000 (2.3), so that the same links are found as in HTML."""
        page = "\0 [a](b\0) \0[c](d)"
        html = '<p>\ufffd <a href="b%EF%BF%BD" rel="nofollow noopener">a</a> \ufffd<a href="d" rel="nofollow noopener">c</a></p>\n'
        self.assertEqual(self.one("SELECT markdown_html(?)", page), html)
        self.assertEqual(self.one("SELECT markdown_text(?)", page), "\ufffd a \ufffdc\n")
        links = [("b\ufffd", None, "a", "link", 2, 9), ("d", None, "c", "link", 11, 17)]
        self.assertEqual(self.ask("SELECT * FROM markdown_links(?)", page), links)
        self.assertEqual(self.ask("SELECT start, stop FROM markdown_links(?)", "[a](b)\0"), [(0, 6)])
        self.assertEqual(self.one("SELECT markdown_text(?)", "\0"), "\ufffd\n")

    def test_utf16(self):
        self.ask("PRAGMA encoding = 'UTF-16'")
        self.ask("CREATE TABLE pages(page)")
        self.ask("INSERT INTO pages VALUES ('é [ü](🍔)')")
        self.assertEqual(self.one("SELECT markdown_text(page) FROM pages"), "é ü\n")
        self.assertEqual(self.ask("SELECT links.* FROM pages, markdown_links(page) links"), [("🍔", None, "ü", "link", 3, 13)])


class Queries(InADatabase):
    def setUp(self):
        super().setUp()
        self.database.executescript("""
            CREATE TABLE comments(id INTEGER PRIMARY KEY, body TEXT, flags TEXT);
            INSERT INTO comments VALUES (1, '[a](b) ![c](d)', ''), (2, NULL, ''), (3, 'e', ''), (4, '[[f]]', 'wikilinks');""")

    def test_joins(self):
        found = [(1, "b"), (1, "d"), (4, "f")]
        self.assertEqual(self.ask("SELECT id, destination FROM comments, markdown_links(body, flags) ORDER BY id, start"), found)
        self.assertEqual(self.ask("SELECT id, destination FROM markdown_links(body, flags), comments ORDER BY id, start"), found)
        query = "SELECT id, destination FROM comments LEFT JOIN markdown_links(body) ORDER BY id, start"
        self.assertEqual(self.ask(query), [(1, "b"), (1, "d"), (2, None), (3, None), (4, None)])
        self.assertEqual(self.one("SELECT count(*) FROM markdown_links('[a](b)') x, markdown_links('[c](d) [e](f)') y"), 2)

    def test_columns(self):
        """The arguments are hidden columns, which keep what they are given."""
        self.assertEqual(self.ask("SELECT markdown_page, markdown_extensions, destination FROM markdown_links('[a](b)')"), [("[a](b)", None, "b")])
        self.assertEqual(self.ask("SELECT markdown_page, markdown_extensions FROM markdown_links('[a](b)', 'gfm')"), [("[a](b)", "gfm")])
        self.assertEqual(self.ask("SELECT kind FROM markdown_links WHERE markdown_page = '[a](b)' AND start = 0"), [("link",)])
        self.assertEqual(self.ask("SELECT kind FROM markdown_links('[a](b)') WHERE markdown_page = 'c'"), [])
        self.assertEqual(self.ask("SELECT destination FROM markdown_links WHERE markdown_page IN ('[a](b)', '[c](d)') ORDER BY 1"), [("b",), ("d",)])
        self.assertEqual(self.ask("SELECT destination FROM markdown_links('[a](b) [c](d)') WHERE rowid IN (SELECT max(rowid) FROM "
                                  "markdown_links('[a](b) [c](d)'))"), [("d",)])

    def test_links_of_nothing(self):
        self.assertIn("markdown_links needs a text", self.refused("SELECT * FROM markdown_links"))
        self.assertIn("markdown_links needs a text", self.refused("SELECT * FROM markdown_links WHERE markdown_extensions = 'gfm'"))
        self.refused("CREATE VIRTUAL TABLE other USING markdown_links")

    def test_schemas_that_are_not_trusted(self):
        """The functions are deterministic and innocuous: columns, indexes and views may have them."""
        self.database.executescript("""
            PRAGMA trusted_schema = OFF;
            CREATE TABLE pages(body TEXT, html TEXT GENERATED ALWAYS AS (markdown_html(body)) STORED);
            CREATE INDEX texts ON pages(markdown_text(body));
            CREATE VIEW links AS SELECT body, destination FROM pages, markdown_links(body);
            INSERT INTO pages(body) VALUES ('<b> [a](c)');""")
        self.assertEqual(self.one("SELECT html FROM pages"), '<p>&lt;b&gt; <a href="c" rel="nofollow noopener">a</a></p>\n')
        self.assertEqual(self.one("SELECT destination FROM links"), "c")
        [plan] = self.ask("EXPLAIN QUERY PLAN SELECT html FROM pages WHERE markdown_text(body) = 'x'")
        self.assertIn("USING INDEX texts", plan[-1])


if __name__ == "__main__":
    unittest.main()
