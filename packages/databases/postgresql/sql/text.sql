\pset format unaligned
\pset tuples_only on
\pset null (null)
SELECT markdown_text(E'# *a* `b`\n\n- c\\\n  d\n- e <i>f</i>\n\n***\n\n<div>\ng\n</div>\n\n![h](i) &amp; [j](k)');
SELECT markdown_text(''), markdown_text(NULL), markdown_text('a', NULL);
SELECT markdown_text(E'|a|b|\n|-|-|\n|c|d|', 'tables');
SELECT markdown_text('a', 'x');
-- words to be searched for
CREATE TABLE pages (body text);
INSERT INTO pages VALUES ('a **red** fox'), ('a `fox`'), ('[hen](fox)');
CREATE INDEX ON pages USING gin (to_tsvector('simple', markdown_text(body)));
SELECT body FROM pages WHERE to_tsvector('simple', markdown_text(body)) @@ to_tsquery('simple', 'fox') ORDER BY body COLLATE "C";
DROP TABLE pages;
