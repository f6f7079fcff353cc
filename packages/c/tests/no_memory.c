/* Calls that need no memory, for memory.c: with each request refused they answer as ever, and make none. */
#include "checks.h"
#include "fillaqut_parser.h"
#include "requests.h"

/* The call makes no request. */
#define ASKS_NOT(call, expected) (requests = 0, refused = 1, SAME(call, expected), SAME(requests, 0), refused = 0)

/* Where functions that may answer MDS_NO_MEMORY need none. */
static void sparing(void) {
    ASKS_NOT(mds_unescape(OF("plain"), false, NULL, 0).status, MDS_TOO_SHORT);
    ASKS_NOT(mds_unescape(OF("\xff"), false, NULL, 0).status, MDS_NOT_UTF8);
    ASKS_NOT(mds_scan_link_label(OF("a b]"), 0, false, NULL, 0, NULL, 0).status, MDS_OK);
    ASKS_NOT(mds_scan_link_label(OF("a b]"), 0, false, NULL, 0, writable(BUFFER, 2), 2).status, MDS_TOO_SHORT);
    ASKS_NOT(mds_scan_link_label(OF("a  b"), 0, false, NULL, 0, NULL, 0).status, MDS_NOTHING);
    ASKS_NOT(mds_scan_link_label(OF("a  \xff]"), 0, false, NULL, 0, NULL, 0).status, MDS_NOTHING);
    ASKS_NOT(mds_scan_link_label(OF("a  b]"), 6, false, NULL, 0, NULL, 0).status, MDS_PAST_END);
    ASKS_NOT(mds_scan_html_tag_over_lines(OF("<a\nb>"), 0, NULL, 0, NULL, 0).status, MDS_OK);
    ASKS_NOT(mds_scan_html_tag_over_lines(OF("<a\n> b"), 0, (const struct mds_skip[]){{3, 2}}, 1, NULL, 0).status, MDS_NOTHING);
    ASKS_NOT(mds_scan_html_tag_over_lines(OF("<a\n> b>"), 9, (const struct mds_skip[]){{3, 2}}, 1, NULL, 0).status, MDS_PAST_END);
    ASKS_NOT(mds_check_skips(OF("<a\n> b>"), (const struct mds_skip[]){{3, 2}}, 1), MDS_OK);
    ASKS_NOT(mds_check_skips(OF("<a\n> b>"), (const struct mds_skip[]){{3, 9}}, 1), MDS_BAD_SKIPS);
    ASKS_NOT(mds_label_key(OF("\xff"), NULL, 0).status, MDS_NOT_UTF8);
    ASKS_NOT(mds_label_key(OF("Foo Bar"), NULL, 0).status, MDS_TOO_SHORT);
    ASKS_NOT(mds_scan_table_head(OF("a | b"), NULL, 0).status, MDS_NOTHING);
    ASKS_NOT(mds_scan_table_head(OF("- - -"), NULL, 0).status, MDS_NOTHING);
    ASKS_NOT(mds_scan_table_head(OF("    |-|-|"), NULL, 0).status, MDS_NOTHING);
    ASKS_NOT(mds_scan_table_head(OF("|-|-| a"), NULL, 0).status, MDS_NOTHING);
    ASKS_NOT(mds_scan_table_head(OF("|:|-|"), NULL, 0).status, MDS_NOTHING);
    ASKS_NOT(mds_scan_table_head(OF("||-|"), NULL, 0).status, MDS_NOTHING);
    ASKS_NOT(mds_run_inline_html(OF("<!a>"), NULL, 0, NULL, 0).status, MDS_OK);
    ASKS_NOT(mds_run_inline_html(OF("<!a>"), (const size_t[]){1, 2}, 2, NULL, 0).status, MDS_NO_OPENER);
    ASKS_NOT(mds_scan_inlines(OF("\xff"), NULL, 0, 0, NULL, 0).status, MDS_NOT_UTF8);
    ASKS_NOT(mds_scan_inlines(OF("a"), NULL, 0, 1, NULL, 0).status, MDS_BAD_KIND);
    ASKS_NOT(mds_scan_inlines(OF("a"), (const struct mds_view[]){{"b", 1}, {"\xff", 1}}, 2, 0, NULL, 0).status, MDS_NOT_UTF8);
    ASKS_NOT(mds_html_unsafe(OF("a"), 1, NULL, 0).status, MDS_BAD_KIND);
    ASKS_NOT(mds_events(OF("\xff"), 0, NULL, 0, NULL, 0).status, MDS_NOT_UTF8);
    ASKS_NOT(mds_events(OF("a"), 1, NULL, 0, NULL, 0).status, MDS_BAD_KIND);
    ASKS_NOT(mds_html(OF("a"), 1, NULL, 0).status, MDS_BAD_KIND);
    const struct mds_view schemes[] = {{"b", 1}, {"\xff", 1}};
    const struct mds_html_setting one = {.schemes = schemes, .scheme_count = 1}, both = {.schemes = schemes, .scheme_count = 2};
    const struct mds_html_setting unknown = {.schemes = schemes, .scheme_count = 1, .rel = 2}, strict = {.strict = 1};
    ASKS_NOT(mds_html_with(OF("\xff"), 0, &strict, NULL, 0).status, MDS_NOT_UTF8), ASKS_NOT(mds_html_with(OF("a"), 0, &both, NULL, 0).status, MDS_NOT_UTF8);
    ASKS_NOT(mds_html_with(OF("a"), 1, &one, NULL, 0).status, MDS_BAD_KIND), ASKS_NOT(mds_html_with(OF("a"), 0, &unknown, NULL, 0).status, MDS_BAD_KIND);
    const struct mds_block leaf = {.kind = MDS_BLOCK_PARAGRAPH, .start = 1, .bytes = 2}, end = {.kind = MDS_BLOCK_END};
    ASKS_NOT(mds_scan_blocks(OF(""), 0, NULL, 0).status, MDS_OK);
    ASKS_NOT(mds_scan_blocks(OF("a"), 1, NULL, 0).status, MDS_BAD_KIND), ASKS_NOT(mds_scan_lists(OF("- a"), 1, NULL, 0).status, MDS_BAD_KIND);
    struct mds_open_blocks open = {0, 0, 0}, other = {0, 1, 0};
    struct mds_block block;
    ASKS_NOT(mds_block_line(OF("# a\nb\n"), false, NULL, 0, &open, &block).status, MDS_OK);
    ASKS_NOT(mds_block_line(OF("> a"), false, NULL, 0, &open, &block).status, MDS_NOTHING);
    ASKS_NOT(mds_block_line(OF("> a\n"), true, NULL, 0, &other, &block).status, MDS_BAD_KIND);
    ASKS_NOT(mds_block_content(OF("\na\n"), &leaf, NULL, 0, 0, writable(BUFFER, 1), 1).status, MDS_OK);
    ASKS_NOT(mds_block_content(OF("\na\n"), &leaf, &end, 1, 0, writable(BUFFER, 1), 1).status, MDS_BAD_KIND);
    ASKS_NOT(mds_block_content(OF("\na\n"), &end, NULL, 0, 0, writable(BUFFER, 1), 1).status, MDS_BAD_KIND);
    ASKS_NOT(mds_block_content(OF("\na"), &leaf, NULL, 0, 0, writable(BUFFER, 1), 1).status, MDS_PAST_END);
}

static void others_on_lines(void) {
    ASKS_NOT(mds_is_whitespace(' '), true);
    ASKS_NOT(mds_is_whitespace_in_line(' '), true);
    ASKS_NOT(mds_is_punctuation('!'), true);
    ASKS_NOT(mds_is_unicode_whitespace(0xA0), true);
    ASKS_NOT(mds_is_unicode_punctuation(0x20AC), true);
    ASKS_NOT(mds_is_utf8(OF("\xc3\xa9")), true);
    ASKS_NOT(mds_version(), MDS_VERSION);
    ASKS_NOT(mds_scan_ch(OF("#x"), '#'), 1);
    ASKS_NOT(mds_scan_ch_repeat(OF("##x"), '#'), 2);
    ASKS_NOT(mds_scan_while(OF("aab"), OTHER("a")), 2);
    ASKS_NOT(mds_scan_rev_while(OF("baa"), OTHER("a")), 2);
    ASKS_NOT(mds_scan_whitespace_in_line(OF("  x")), 2);
    ASKS_NOT(mds_scan_eol(OF("\r\n")), 2);
    ASKS_NOT(mds_scan_line(OF("a\r\nb")), 3);
    ASKS_NOT(mds_scan_nextline(OF("a\nb")), 2);
    ASKS_NOT(mds_scan_blank_line(OF(" \n")), 2);
    ASKS_NOT(mds_scan_blockquote_start(OF("> a")), 2);
    ASKS_NOT(mds_scan_listitem(OF("- a")).length, 2);
    ASKS_NOT(mds_calc_indent(OF("  a"), 4).columns, 2);
    ASKS_NOT(mds_scan_hrule(OF("***\n")).length, 4);
    ASKS_NOT(mds_scan_atx_heading(OF("## a")), 2);
    ASKS_NOT(mds_scan_setext_heading(OF("==\n")).length, 3);
    ASKS_NOT(mds_scan_code_fence(OF("```\n")).length, 3);
    ASKS_NOT(mds_scan_closing_code_fence(OF("```\n"), '`', 3), 3);
    ASKS_NOT(mds_scan_metadata_block(OF("---\na\n---\n"), true, false).length, 3);
    ASKS_NOT(mds_scan_closing_metadata_block(OF("---\n"), '-'), 3);
    ASKS_NOT(mds_interrupts_paragraph(OF("- a")), true);
}

static void others_on_line_starts(void) {
    struct mds_line_start start = {0};
    ASKS_NOT(mds_line_quote(OF("> - [x] a"), &start), MDS_OK);
    ASKS_NOT(mds_line_list(OF("> - [x] a"), &start, 2).indent, 4);
    ASKS_NOT(mds_line_task(OF("> - [x] a"), &start).checked, true);
    ASKS_NOT(mds_line_space(OF("> - [x] a"), &start, 1), MDS_OK);
    ASKS_NOT(mds_line_space_up_to(OF("> - [x] a"), &start, 1).status, MDS_OK);
    ASKS_NOT(mds_line_all_space(OF("> - [x] a"), &start), MDS_OK);
    ASKS_NOT(mds_line_is_at_end(OF("> - [x] a"), &start), MDS_NOTHING);
    start = (struct mds_line_start){0};
    ASKS_NOT(mds_line_definition(OF(": a"), &start, 0).columns, 2);
    ASKS_NOT(mds_line_alert(OF(": [!TIP]"), &start).kind, MDS_ALERT_TIP);
    struct mds_line_answer answers[3];
    static const struct mds_line_call calls[] = {{MDS_QUOTE, 0}, {MDS_UPTO, 1}, {MDS_LIST, 0}}, unknown[] = {{6, 0}};
    start = (struct mds_line_start){0};
    ASKS_NOT(mds_run_line(OF(">\t- a"), &start, calls, 3, answers, 2).status, MDS_TOO_SHORT);
    ASKS_NOT(mds_run_line(OF(">\t- a"), &start, unknown, 1, answers, 3).status, MDS_BAD_KIND);
    ASKS_NOT(mds_run_line(OF(">\t- a"), &start, calls, 3, answers, 3).status, MDS_SPACE_PENDING);
    ASKS_NOT(mds_line_rest(OF(">\t- a"), &start, NULL, 0).length, 4);
    ASKS_NOT(mds_line_rest(OF(">\t- a"), &start, writable(BUFFER, 4), 4).status, MDS_OK);
    ASKS_NOT(mds_run_line(OF(">\t- a"), &start, calls + 1, 2, answers, 3).status, MDS_OK);
    start.pending = 4;
    ASKS_NOT(mds_run_line(OF(">\t- a"), &start, calls, 3, answers, 3).status, MDS_BAD_STATE);
    ASKS_NOT(mds_line_rest(OF(">\t- a"), &start, NULL, 0).status, MDS_BAD_STATE);
}

static void others_on_texts(void) {
    ASKS_NOT(mds_scan_link_dest(OF("<a>"), 0, 9).end, 3);
    ASKS_NOT(mds_scan_link_title(OF("'a\nb'"), 0).end, 5);
    ASKS_NOT(mds_scan_autolink(OF("<ab:c>"), 1).end, 6);
    ASKS_NOT(mds_scan_wikilink_pipe(OF("a|b]]"), 0, 3).end, 2);
    ASKS_NOT(mds_scan_email_autolink(OF("<a@b>"), 1).end, 5);
    ASKS_NOT(mds_scan_code_span(OF("``a``"), 0).end, 5);
    ASKS_NOT(mds_scan_delimiter_run(OF("\xc3\xa9**"), 2).count, 2);
    ASKS_NOT(mds_scan_reference_definition(OF("[a]: <b> 'c'\n"), 0, 9).end, 13);
    ASKS_NOT(mds_starts_html_block_type_6(OF("div>")), true);
    ASKS_NOT(mds_scan_html_type_7(OF("<a b='c'>\n")), 9);
    ASKS_NOT(mds_scan_html_block_start(OF("<a b='c'>\n")), MDS_HTML_TAG_ALONE);
    ASKS_NOT(mds_ends_html_block(OF("a</PRE>"), MDS_HTML_RAW_TEXT), MDS_OK);
    ASKS_NOT(mds_scan_html_tag(OF("<a b='c'>")), 9);
    struct mds_html_guard guard = {0, 0, 0, 0};
    ASKS_NOT(mds_scan_inline_html(OF("<!-- a -->"), 2, &guard).end, 10);
    ASKS_NOT(mds_scan_entity(OF("&#x1F354;"), writable(BUFFER, 4), 4).status, MDS_OK);
    ASKS_NOT(mds_labels_match(OF("A b"), OTHER("a B")), MDS_OK);
    ASKS_NOT(mds_labels_match(OF("\xe1\xba\x9e"), OTHER("SS")), MDS_OK);
}

void asking_nothing(void) {
    sparing();
    others_on_lines(), others_on_line_starts(), others_on_texts();
}
