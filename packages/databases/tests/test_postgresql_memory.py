"""The extension of PostgreSQL that test_postgresql.py tests, linked with refuse.c and refuse_postgresql.c, with memory refused."""
import unittest

from test_postgresql import psql


class Refusals(unittest.TestCase):
    """Each request for memory is refused in turn: an error is thrown, and the library keeps none."""

    QUERIES = ("PERFORM markdown_html(page)", "PERFORM markdown_text(page)", "PERFORM count(*) FROM markdown_links(page)")
    SCRIPT = """
        CREATE FUNCTION refuse_memory(integer) RETURNS boolean AS '$libdir/fillaqut', 'refuse_memory_in_sql' LANGUAGE C;
        CREATE FUNCTION held_memory() RETURNS integer AS '$libdir/fillaqut', 'held_memory_in_sql' LANGUAGE C;
        DO $$
        DECLARE
            page text := E'[a *b*](c ''d'') ![e](f) <g@h.i>\\n\\n- `j`\\n\\n[k]: l\\n';
            refused integer := 0;
        BEGIN
            LOOP
                PERFORM refuse_memory(refused);
                BEGIN
                    %s;
                EXCEPTION WHEN out_of_memory THEN
                    refused := refused + 1;
                    CONTINUE WHEN held_memory() = 0;
                    RAISE EXCEPTION 'memory is held';
                END;
                EXIT WHEN held_memory() = 0 AND NOT refuse_memory(-1);
                RAISE EXCEPTION 'memory is held, or an error was not thrown';
            END LOOP;
            RAISE NOTICE 'refused: %%', refused;
        END $$;
        DROP FUNCTION refuse_memory, held_memory;"""

    def test_refusals(self):
        for query in self.QUERIES:
            out, faults = psql(self.SCRIPT % query, "-v", "ON_ERROR_STOP=1")
            self.assertRegex(faults, r"\ANOTICE:  refused: [1-9]\d*\n\Z", query)
            self.assertEqual(out, "")


if __name__ == "__main__":
    unittest.main()
