//! What the calls are run on: places of a real text, and hostile texts of two sizes.

/// A text, and the places in it where a call is run.
pub struct Input {
    pub text: Vec<u8>,
    pub at: Vec<usize>,
}

/// Each benchmark by the name of its C functions, and what it calls.
pub const CALLS: &[(&str, &str)] = &[
    ("empty", "the loop alone"),
    ("line_quote", "LineStart: scan_blockquote_marker"),
    ("line_list", "LineStart: scan_list_marker_with_indent"),
    ("line_task", "LineStart: scan_task_list_marker"),
    ("line_definition", "LineStart: definition marker"),
    ("line_tag", "LineStart: scan_blockquote_tag"),
    ("line_space", "LineStart: scan_space"),
    ("line_upto", "LineStart: scan_space_upto"),
    ("line_all", "LineStart: scan_all_space, is_at_eol"),
    ("line_containers", "LineStart: all containers of a line"),
    ("hrule", "scan_hrule"),
    ("atx", "scan_atx_heading"),
    ("setext", "scan_setext_heading"),
    ("fence", "scan_code_fence"),
    ("closing_fence", "scan_closing_code_fence"),
    ("metadata", "scan_metadata_block"),
    ("closing_metadata", "scan_closing_metadata_block"),
    ("table_head", "scan_table_head"),
    ("interrupts", "interrupts_paragraph"),
    ("listitem", "scan_listitem"),
    ("blank", "scan_blank_line"),
    ("line", "scan_line"),
    ("nextline", "scan_nextline"),
    ("indent", "calc_indent, 4 columns"),
    ("indent_deep", "calc_indent, no limit"),
    ("quote_start", "scan_blockquote_start"),
    ("classes", "three byte classes, a whole text"),
    ("while", "scan_while"),
    ("rev_while", "scan_rev_while"),
    ("entity", "scan_entity"),
    ("entity_html", "scan_entity, HTML's entities"),
    ("entity_name", "HtmlEntities::get, each name"),
    ("no_entity_name", "HtmlEntities::get, other names"),
    ("unescape", "unescape, a line"),
    ("unescape_table", "unescape, a line in a table"),
    ("unescape_html", "unescape, HTML's entities"),
    ("link_dest", "scan_link_dest, 32 parentheses"),
    ("link_dest_deep", "scan_link_dest, no limit"),
    ("autolink", "scan_autolink"),
    ("wikilink", "scan_wikilink_pipe"),
    ("inlines", "InlineFinder::find, a paragraph"),
    ("inlines_defined", "InlineFinder::find, each label defined"),
    ("inlines_once", "find_inlines, a paragraph"),
    ("page_events", "Parser, a page"),
    ("page_ranges", "OffsetIter, a page"),
    ("page_html", "push_html, a page"),
    ("html_of_page", "html_of_page, a page"),
    ("type_6", "starts_html_block_type_6"),
    ("type_7", "scan_html_type_7"),
    ("html_start", "scan_html_block_start"),
    ("html_end", "ends_html_block, a comment"),
    ("tag", "scan_html_block_inner"),
    ("tag_lines", "scan_html_block_inner, with a handler"),
    ("inline_html", "guarded scans of inline HTML"),
    ("inline_html_run", "InlineHtmlRun"),
    ("label", "scan_link_label_rest"),
    ("label_table", "scan_link_label_rest, in a table"),
    ("label_new", "LinkLabel::new"),
    ("label_hash", "LinkLabel: hash"),
    ("label_eq", "LinkLabel: =="),
    ("clone_lent", "CowStr::clone, borrowed"),
    ("clone_inlined", "CowStr::clone, inlined"),
    ("clone_boxed", "CowStr::clone, boxed"),
    ("static_lent", "CowStr::into_static, borrowed"),
    ("tag_made", "Tag: a link made"),
    ("tag_end", "Tag: a link made, to_end"),
    ("tag_clone", "Tag: a link made, clone"),
    ("tag_eq", "Tag: two links made, =="),
    ("event_clone", "Event: a text made, clone"),
    ("event_eq", "Event: two texts made, =="),
    ("tree_flat", "Tree::append"),
    ("tree_nested", "Tree: append, push, pop, walk"),
    ("tree_walk", "Tree: walk"),
    ("tree_two", "Tree: two nodes made"),
    ("tree_two_remove", "Tree: two nodes made, remove_node"),
    ("tree_two_raise", "Tree: two nodes made, truncate_to_parent"),
    ("tree_two_cut", "Tree: two nodes made, truncate_siblings"),
];

fn input(text: Vec<u8>, at: Vec<usize>) -> Input {
    Input { text, at }
}

fn line_starts(text: &[u8]) -> Vec<usize> {
    [vec![0], after(text, b'\n')].concat()
}

/// After the spaces and tabs at the start of each line.
fn line_texts(text: &[u8]) -> Vec<usize> {
    let is_space = |byte: &&u8| matches!(byte, b' ' | b'\t');
    let indent = |start: usize| text[start..].iter().take_while(is_space).count();
    line_starts(text).into_iter().map(|start| start + indent(start)).collect()
}

fn each(text: &[u8], byte: u8) -> Vec<usize> {
    text.iter().enumerate().filter(|(_, other)| **other == byte).map(|(place, _)| place).collect()
}

fn after(text: &[u8], byte: u8) -> Vec<usize> {
    each(text, byte).into_iter().map(|place| place + 1).collect()
}

/// After each two bytes that are wanted.
fn after_pair(text: &[u8], is_wanted: fn(u8, u8) -> bool) -> Vec<usize> {
    (2..=text.len()).filter(|place| is_wanted(text[place - 2], text[place - 1])).collect()
}

fn openers(text: &[u8]) -> Vec<usize> {
    after_pair(text, |first, second| first == b'<' && matches!(second, b'!' | b'?'))
}

/// After each blank line, and the end.
fn paragraph_ends(text: &[u8]) -> Vec<usize> {
    [after_pair(text, |first, second| first == b'\n' && second == b'\n'), vec![text.len()]].concat()
}

/// Beginnings and ends of words of up to 22 bytes.
fn words(text: &[u8]) -> Vec<usize> {
    let mut at = vec![];
    let mut from = 0;
    for (place, byte) in text.iter().enumerate() {
        if byte.is_ascii_whitespace() || !byte.is_ascii() {
            if (1..=22).contains(&(place - from)) {
                at.extend([from, place]);
            }
            from = place + 1;
        }
    }
    at
}

/// Beginnings and ends of labels: after each `[` up to the next `]` in its line.
fn labels(text: &[u8]) -> Vec<usize> {
    let mut at = vec![];
    for start in after(text, b'[') {
        let is_inside = |byte: &&u8| !matches!(byte, b'\n' | b']' | b'[');
        let end = start + text[start..].iter().take_while(is_inside).count();
        if end > start && text.get(end) == Some(&b']') {
            at.extend([start, end]);
        }
    }
    at
}

/// The stretches between these beginnings and ends, one after the other, and the end of each.
fn stretches(text: &[u8], ends: &[usize]) -> Input {
    let mut joined = vec![];
    let mut at = vec![];
    for ends in ends.chunks(2) {
        joined.extend_from_slice(&text[ends[0]..ends[1]]);
        at.push(joined.len());
    }
    input(joined, at)
}

/// The real text with the places where a call is run; None where it is run on made inputs alone.
pub fn real(call: &str, text: &[u8]) -> Option<Input> {
    let at = match call {
        "label_new" | "label_hash" | "label_eq" => return Some(stretches(text, &labels(text))),
        "tag_made" | "tag_end" | "tag_clone" | "tag_eq" | "event_clone" | "event_eq" => {
            return Some(stretches(text, &labels(text)));
        }
        "clone_inlined" => return Some(stretches(text, &words(text))),
        "tree_flat" | "tree_nested" | "tree_walk" => return None,
        "tree_two" | "tree_two_remove" | "tree_two_raise" | "tree_two_cut" => return None,
        "line_tag" => [line_texts(text), each(text, b'[')].concat(),
        "hrule" | "atx" | "setext" | "fence" | "metadata" | "table_head" | "listitem" | "while" | "html_start" => line_texts(text),
        "rev_while" => each(text, b'\n'),
        "entity" | "entity_html" => each(text, b'&'),
        "link_dest" | "link_dest_deep" => after_pair(text, |first, second| first == b']' && second == b'('),
        "autolink" | "type_6" => after(text, b'<'),
        "type_7" | "tag" | "tag_lines" => each(text, b'<'),
        "wikilink" | "label" | "label_table" => after(text, b'['),
        "inline_html" | "inline_html_run" => openers(text),
        "inlines" | "inlines_defined" | "inlines_once" => return Some(input(text.to_vec(), paragraph_ends(text))),
        "page_events" | "page_ranges" | "page_html" | "html_of_page" => return Some(input(text.to_vec(), vec![text.len()])),
        "classes" => vec![0],
        _ => line_starts(text),
    };
    let at = at.into_iter().filter(|place| *place < text.len()).collect();
    Some(input(text.to_vec(), at))
}

/// A hostile input: what is run on it, its text as pieces that are repeated, and the places in it.
pub struct Hostile {
    pub name: &'static str,
    pub call: &'static str,
    pieces: Vec<(String, usize)>,
    at: fn(&[u8]) -> Vec<usize>,
}

impl Hostile {
    /// The input of a size; 1 is the size that its name says.
    pub fn input(&self, size: usize) -> Input {
        self.made(|count| count * size)
    }

    /// The input of about so many bytes.
    pub fn of_length(&self, bytes: usize) -> Input {
        let all: usize = self.pieces.iter().map(|(piece, count)| piece.len() * count).sum();
        self.made(|count| (count * bytes / all).max(1))
    }

    /// What comes once comes once at each size.
    fn made(&self, times: impl Fn(usize) -> usize) -> Input {
        let times = |count: usize| if count == 1 { 1 } else { times(count) };
        let text: String = self.pieces.iter().map(|(piece, count)| piece.repeat(times(*count))).collect();
        let (text, at) = (text.into_bytes(), self.at);
        let at = at(&text);
        if self.call == "label_hash" { stretches(&text, &at) } else { input(text, at) }
    }
}

/// The hostile inputs.
pub fn hostile() -> Vec<Hostile> {
    let start: fn(&[u8]) -> Vec<usize> = |_| vec![0];
    let whole: fn(&[u8]) -> Vec<usize> = |text| vec![0, text.len()];
    let len: fn(&[u8]) -> Vec<usize> = |text| vec![text.len()];
    let label = |content: String| vec![(format!("[{content}]"), 200)];
    let made = |name, call, pieces: &[(&str, usize)], at| {
        let pieces = pieces.iter().map(|(piece, count)| (piece.to_string(), *count)).collect();
        Hostile { name, call, pieces, at }
    };
    vec![
        made("5000 x '<!--'", "inline_html", &[("<!--", 5000)], openers),
        made("5000 x '<!x'", "inline_html", &[("<!x", 5000)], openers),
        made("5000 x '<![CDATA['", "inline_html", &[("<![CDATA[", 5000)], openers),
        made("5000 x '<![CDATA[]'", "inline_html", &[("<![CDATA[]", 5000)], openers),
        made("5000 x '<?'", "inline_html", &[("<?", 5000)], openers),
        made("5000 x '<!--', 20000 hyphens", "inline_html", &[("<!--", 5000), ("-", 20000)], openers),
        made("5000 x '<?', 20000 x '?'", "inline_html", &[("<?", 5000), ("?", 20000)], openers),
        made("'<?', 100000 letters", "inline_html", &[("<?", 1), ("a", 100000)], openers),
        made("10000 x '- '", "line_containers", &[("- ", 10000)], start),
        made("10000 x '* '", "line_containers", &[("* ", 10000)], start),
        made("10000 x '- ', 'x'", "line_containers", &[("- ", 10000), ("x", 1)], start),
        made("10000 x '-' and a tab", "line_containers", &[("-\t", 10000)], start),
        made("10000 x '> '", "line_containers", &[("> ", 10000)], start),
        made("10000 x '1. '", "line_containers", &[("1. ", 10000)], start),
        made("100 x '- ', 'a', from each", "hrule", &[("- ", 100), ("a", 1)], |text| each(text, b'-')),
        made("1000 parentheses in each other", "link_dest_deep", &[("(", 1000), (")", 1000)], start),
        made("1000 parentheses, from each", "link_dest_deep", &[("(", 1000), (")", 1000)], |text| each(text, b'(')),
        made("1000 parentheses, from each", "link_dest", &[("(", 1000), (")", 1000)], |text| each(text, b'(')),
        made("100000 bytes of destination", "link_dest", &[("a", 100000)], start),
        made("'<', 50000 x '\\('", "link_dest", &[("<", 1), ("\\(", 50000)], start),
        made("100000 tabs", "line_upto", &[("\t", 100000)], start),
        made("100000 tabs", "line_all", &[("\t", 100000)], start),
        made("100000 tabs", "blank", &[("\t", 100000)], start),
        made("100000 tabs", "indent_deep", &[("\t", 100000)], start),
        made("100000 spaces", "line_upto", &[(" ", 100000)], start),
        made("100000 spaces", "indent_deep", &[(" ", 100000)], start),
        made("100000 letters", "nextline", &[("a", 100000)], start),
        Hostile {
            name: "200 labels of 999 letters",
            call: "label",
            pieces: label("a".repeat(999)),
            at: |text| after(text, b'['),
        },
        Hostile {
            name: "200 labels of 333 'a  '",
            call: "label",
            pieces: label("a  ".repeat(333)),
            at: |text| after(text, b'['),
        },
        Hostile {
            name: "200 labels of 499 '\\['",
            call: "label",
            pieces: label("\\[".repeat(499)),
            at: |text| (1..text.len()).step_by(1000).collect(),
        },
        Hostile {
            name: "200 labels of 1000 'é'",
            call: "label",
            pieces: label("é".repeat(1000)),
            at: |text| after(text, b'['),
        },
        Hostile { name: "200 labels of 999 letters", call: "label_hash", pieces: label("A".repeat(999)), at: labels },
        Hostile { name: "200 labels of 333 'ẞ'", call: "label_hash", pieces: label("ẞ".repeat(333)), at: labels },
        made("50000 x '['", "label", &[("[", 50000)], |text| after(text, b'[')),
        made("'[', 100000 letters", "label", &[("[", 1), ("a", 100000)], |_| vec![1]),
        made("2000 x '\\[', from each", "label", &[("\\[", 2000)], |text| after(text, b'[')),
        made("50000 x '&'", "entity", &[("&", 50000)], |text| each(text, b'&')),
        made("'&#', 100000 digits", "entity", &[("&#", 1), ("1", 100000)], start),
        made("50000 x '&'", "unescape", &[("&", 50000)], whole),
        made("50000 x '&a'", "unescape", &[("&a", 50000)], whole),
        made("'&', 100000 letters", "unescape", &[("&", 1), ("a", 100000)], whole),
        made("50000 x backslash and pipe", "unescape_table", &[("\\|", 50000)], whole),
        made("50000 x '\\*'", "unescape", &[("\\*", 50000)], whole),
        made("50000 x '&amp;'", "unescape", &[("&amp;", 50000)], whole),
        made("50000 x CR", "unescape", &[("\r", 50000)], whole),
        made("50000 x '&#xffffff;'", "unescape", &[("&#xffffff;", 50000)], whole),
        made("50000 x '&#x'", "unescape", &[("&#x", 50000)], whole),
        made("50000 x '\\a'", "unescape_table", &[("\\a", 50000)], whole),
        made("'---', 50000 lines, no close", "metadata", &[("---\n", 1), ("abc\n", 50000)], start),
        made("'---', 50000 lines '--'", "metadata", &[("---\n", 1), ("--\n", 50000)], start),
        made("500 x '---', 'x', from each line", "metadata", &[("---\t\nx\n", 500)], line_starts),
        made("10000 attributes", "tag", &[("<a", 1), (" b='c'", 10000), (">", 1)], start),
        made("10000 attributes, no end", "type_7", &[("<a", 1), (" b='c'", 10000)], start),
        made("10000 lines of '> b'", "tag_lines", &[("<a", 1), ("\n> b", 10000), (">", 1)], start),
        made("50000 x LF", "tag_lines", &[("<a", 1), ("\n", 50000), (">", 1)], start),
        made("50000 spaces", "tag", &[("<a", 1), (" b                   ", 2500), (">", 1)], start),
        made("10000 x '<a '", "tag", &[("<a ", 10000)], |text| each(text, b'<')),
        made("1000 x '<a b=' and a quote", "tag", &[("<a b='", 1000)], |text| each(text, b'<')),
        made("1000 x '<a b=', no quote ends", "tag", &[("<a b=\"<a c=\"", 1), ("<a b=x <a ", 1000)], |text| {
            each(text, b'<')
        }),
        made("50000 x '`'", "fence", &[("`", 50000)], start),
        made("50000 x '-|'", "table_head", &[("-|", 50000)], start),
        made("50000 x '|', from each", "table_head", &[("|", 50000)], |text| each(text, b'|')),
        made("50000 x '|:', from each", "table_head", &[("|:", 50000)], |text| (0..text.len()).collect()),
        made("50000 spaces, from each", "table_head", &[(" ", 50000)], |text| each(text, b' ')),
        made("50000 x '-'", "setext", &[("-", 50000)], start),
        made("50000 digits", "listitem", &[("1", 50000)], start),
        made("50000 letters", "autolink", &[("a", 50000)], start),
        made("1000 x 'a+', from each", "autolink", &[("a+", 1000)], |text| each(text, b'a')),
        made("50000 x '*'", "inlines", &[("*", 50000)], len),
        made("10000 x '**a '", "inlines", &[("**a ", 10000)], len),
        made("10000 x '_a*'", "inlines", &[("_a*", 10000)], len),
        made("10000 x '*a_ '", "inlines", &[("*a_ ", 10000)], len),
        made("50000 x '['", "inlines", &[("[", 50000)], len),
        made("50000 x '!['", "inlines", &[("![", 50000)], len),
        made("50000 x ']'", "inlines", &[("]", 50000)], len),
        made("10000 x '[a]('", "inlines", &[("[a](", 10000)], len),
        made("10000 x '[a](<b'", "inlines", &[("[a](<b", 10000)], len),
        made("10000 x '`a``'", "inlines", &[("`a``", 10000)], len),
        made("50000 x '<'", "inlines", &[("<", 50000)], len),
        made("10000 x '<a '", "inlines", &[("<a ", 10000)], len),
        made("10000 x '<a@'", "inlines", &[("<a@", 10000)], len),
        made("10000 x '<!--a '", "inlines", &[("<!--a ", 10000)], len),
        made("50000 x '<?'", "inlines", &[("<?", 50000)], len),
        made("50000 x '&a'", "inlines", &[("&a", 50000)], len),
        made("10000 x 'a  ' and LF", "inlines", &[("a  \n", 10000)], len),
        made("50000 x '~'", "inlines", &[("~", 50000)], len),
        made("10000 x '[a]'", "inlines_defined", &[("[a]", 10000)], len),
        made("10000 x '[a]['", "inlines_defined", &[("[a][", 10000)], len),
        made("10000 x '![a][b]'", "inlines_defined", &[("![a][b]", 10000)], len),
        made("10000 x '[[a] '", "inlines_defined", &[("[[a] ", 10000)], len),
        made("10000 x '[*a]* '", "inlines_defined", &[("[*a]* ", 10000)], len),
        made("50000 letters", "type_6", &[("a", 50000)], start),
        made("100000 nodes", "tree_flat", &[("-", 100000)], len),
        made("100000 nodes", "tree_nested", &[("-", 100000)], len),
        made("100000 nodes", "tree_walk", &[("-", 100000)], len),
        made("10000 times", "tree_two", &[("-", 10000)], |text| each(text, b'-')),
        made("10000 times", "tree_two_remove", &[("-", 10000)], |text| each(text, b'-')),
        made("10000 times", "tree_two_raise", &[("-", 10000)], |text| each(text, b'-')),
        made("10000 times", "tree_two_cut", &[("-", 10000)], |text| each(text, b'-')),
    ]
}
