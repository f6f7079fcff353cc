-- Safe HTML, plain text and links of Markdown; README.md of packages/databases says what they are.
\echo Use "CREATE EXTENSION fillaqut" to load this file. \quit

CREATE FUNCTION markdown_html(page text, extensions text DEFAULT '') RETURNS text
    AS 'MODULE_PATHNAME', 'fillaqut_html'
    LANGUAGE C IMMUTABLE STRICT PARALLEL SAFE COST 1000;

CREATE FUNCTION markdown_text(page text, extensions text DEFAULT '') RETURNS text
    AS 'MODULE_PATHNAME', 'fillaqut_text'
    LANGUAGE C IMMUTABLE STRICT PARALLEL SAFE COST 1000;

CREATE FUNCTION markdown_links(
    page text, extensions text DEFAULT '',
    OUT destination text, OUT title text, OUT "text" text, OUT kind text, OUT start integer, OUT stop integer
) RETURNS SETOF record
    AS 'MODULE_PATHNAME', 'fillaqut_links'
    LANGUAGE C IMMUTABLE STRICT PARALLEL SAFE COST 1000 ROWS 10;

COMMENT ON FUNCTION markdown_html(text, text) IS 'safe HTML of a Markdown page';
COMMENT ON FUNCTION markdown_text(text, text) IS 'plain text of a Markdown page';
COMMENT ON FUNCTION markdown_links(text, text) IS 'links and images of a Markdown page';
