"""The extension of PostgreSQL, in the server and the database that the variables of libpq name. What it answers to other arguments is in
postgresql/sql."""
import json
import subprocess
import unittest

from answers import Answers
from readme import examples_of_readme

ANSWERED = {
    "markdown_html": "to_json(markdown_html(page, extensions))",
    "markdown_text": "to_json(markdown_text(page, extensions))",
    "markdown_links": "(SELECT coalesce(json_agg(json_build_array(destination, title, text, kind, start, stop)), '[]') FROM markdown_links(page, extensions))",
}
ESCAPES = str.maketrans({"\\": "\\\\", "\t": "\\t", "\n": "\\n", "\r": "\\r"})


# Has three workers do all that they may, and the process of the session nothing.
IN_WORKERS = "".join(f"SET {setting};\n" for setting in (
    "max_parallel_workers_per_gather = 3", "parallel_leader_participation = off", "min_parallel_table_scan_size = 0",
    "parallel_setup_cost = 0", "parallel_tuple_cost = 0",
))


def nodes_of(plan):
    """The nodes of a plan."""
    yield plan
    for part in plan.get("Plans", []):
        yield from nodes_of(part)


def psql(script, *words):
    """What psql prints of a script, and what it says of faults."""
    done = subprocess.run(["psql", "-XAtq", *words], input=script, capture_output=True, encoding="utf-8", check=False)
    return done.stdout, done.stderr


class Pages(Answers, unittest.TestCase):
    def printed(self, script, *words):
        out, faults = psql(script, "-v", "ON_ERROR_STOP=1", *words)
        self.assertEqual(faults, "")
        return out

    def answers(self, function, cases):
        rows = [f"{at}\t{case.page.decode().translate(ESCAPES)}\t{case.extensions}\n" for at, case in enumerate(cases)]
        script = "CREATE TEMPORARY TABLE pages (number integer, page text, extensions text);\nCOPY pages FROM STDIN;\n"
        query = f"SELECT {ANSWERED[function]} FROM pages ORDER BY number;\n"
        return [json.loads(line) for line in self.printed("".join([script, *rows, "\\.\n", query])).splitlines()]

    def test_readme(self):
        examples = examples_of_readme()
        for query, answer in examples:
            self.assertEqual([line for line in self.printed(f"BEGIN;\n{query}\nROLLBACK;").splitlines() if line], answer, query)
        self.assertEqual(len(examples), 4)

    def test_workers(self):
        """The workers that a query over many pages is given share the pages."""
        self.printed("CREATE TABLE many AS SELECT repeat('*a* ', 2500) AS page FROM generate_series(1, 2000);")
        self.addCleanup(self.printed, "DROP TABLE many;")
        query = "SELECT sum(length(markdown_html(page))) FROM many;\n"
        self.assertEqual(int(self.printed(IN_WORKERS + query)), 2000 * len("<p>" + "<em>a</em> " * 2499 + "<em>a</em></p>\n"))
        [found] = json.loads(self.printed(f"{IN_WORKERS}EXPLAIN (ANALYZE, VERBOSE, FORMAT json) {query}"))
        [scan] = [node for node in nodes_of(found["Plan"]) if node["Node Type"] == "Seq Scan"]
        rows = [worker["Actual Rows"] for worker in scan["Workers"]]
        self.assertEqual((len(rows), sum(rows)), (3, 2000))
        self.assertGreater(min(rows), 0)

    def test_other_encodings(self):
        for encoding in ("LATIN1", "SQL_ASCII"):
            self.printed(f"CREATE DATABASE {encoding} ENCODING '{encoding}' LOCALE 'C' TEMPLATE template0;")
            self.addCleanup(self.printed, f"DROP DATABASE {encoding};")
            self.printed("CREATE EXTENSION fillaqut;", "-d", encoding.lower())
            for query in ("SELECT markdown_html('a')", "SELECT markdown_text('a')", "SELECT * FROM markdown_links('a')"):
                out, faults = psql(query, "-d", encoding.lower())
                self.assertIn("ERROR:  Markdown is read in databases whose encoding is UTF8", faults)
                self.assertIn(f"DETAIL:  The encoding of this database is {encoding}.", faults)
                self.assertEqual(out, "")


if __name__ == "__main__":
    unittest.main()
