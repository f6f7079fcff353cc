\pset format unaligned
\pset null (null)
SELECT * FROM markdown_links('é [a *b*](/c "d") ![e](f) <g@h.i>');
SELECT * FROM markdown_links('[[a|b]]', 'wikilinks');
SELECT * FROM markdown_links('a');
SELECT * FROM markdown_links(NULL);
SELECT * FROM markdown_links('[a](b)', NULL);
SELECT * FROM markdown_links('[a](b)', 'x');
\pset tuples_only on
-- of each row of a table
CREATE TABLE comments (id integer, body text);
INSERT INTO comments VALUES (1, '[a](b) [c](d)'), (2, NULL), (3, 'e'), (4, '![f](g)');
SELECT id, destination FROM comments, markdown_links(body) ORDER BY id, start;
SELECT id, kind, number FROM comments LEFT JOIN LATERAL markdown_links(body) WITH ORDINALITY AS links(d, t, x, kind, a, z, number) ON true
    ORDER BY id, number;
-- a row for each call, of which not all are asked for; and an error between two
SELECT (markdown_links('[a](b) [c](d) [e](f)')).destination LIMIT 2;
SELECT 1 / (7 - (markdown_links('[a](b) [c](d)')).start);
SELECT count(*), sum(stop - start) FROM markdown_links(repeat('[a](b) ', 10000));
DROP TABLE comments;
