\pset format unaligned
\pset tuples_only on
\pset null (null)
SELECT markdown_html('*a* <b> [c](javascript:d)');
SELECT markdown_html('');
SELECT markdown_html(NULL), markdown_html('a', NULL), markdown_html(NULL, 'no such');
-- extensions
SELECT markdown_html('~a~'), markdown_html('~a~', 'strikethrough'), markdown_html('~a~', ' tables , gfm');
SELECT markdown_html('a', 'tables,Tasks');
SELECT markdown_html('a', 'tables,');
SELECT markdown_html('a', 'footnotes');
-- what the planner is promised
SELECT proname, provolatile, proisstrict, proparallel FROM pg_proc WHERE proname LIKE 'markdown%' ORDER BY 1;
SELECT extname, extversion = (SELECT default_version FROM pg_available_extensions WHERE name = 'fillaqut')
    FROM pg_extension WHERE extname = 'fillaqut';
-- HTML that is kept beside its page
CREATE TABLE comments (
    id integer PRIMARY KEY,
    body text,
    html text GENERATED ALWAYS AS (markdown_html(body, 'gfm')) STORED
);
INSERT INTO comments VALUES (1, '~~é~~ <script>'), (2, NULL);
SELECT id, html FROM comments ORDER BY id;
UPDATE comments SET body = '&eacute; &#x1F354;' WHERE id = 2;
SELECT html FROM comments WHERE id = 2;
-- a page that is kept apart and compressed, and one whose HTML needs a second buffer
INSERT INTO comments VALUES (3, repeat('*a* ', 100000)), (4, repeat(E'[a]\n', 20) || E'\n[a]: /' || repeat('b', 4999));
SELECT id, octet_length(html) FROM comments WHERE id > 2 ORDER BY id;
-- in workers
SET force_parallel_mode = on;
SELECT max(markdown_html(body)) FROM comments WHERE id = 1;
RESET force_parallel_mode;
DROP TABLE comments;
