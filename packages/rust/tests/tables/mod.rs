//! Reads the tables of packages, files *.tsv, which the tests of all packages share. What it can't read is a panic.

use fillaqut::HtmlBlockKind;

/// The kinds of HTML blocks in the order of their conditions, of which the tables have the numbers.
pub const HTML_KINDS: [HtmlBlockKind; 7] = [
    HtmlBlockKind::RawText,
    HtmlBlockKind::Comment,
    HtmlBlockKind::Processing,
    HtmlBlockKind::Declaration,
    HtmlBlockKind::Cdata,
    HtmlBlockKind::BlockName,
    HtmlBlockKind::TagAlone,
];
const FOLDER: &str = concat!(env!("CARGO_MANIFEST_DIR"), "/..");
const PAGE_CALLS: [&str; 7] =
    ["scan_blocks", "block_content", "scan_lists", "scan_inlines", "html_unsafe", "html", "events"];

/// The bytes of a text as the file has it.
pub fn read_text(text: &str) -> Vec<u8> {
    let mut bytes = vec![];
    let mut rest = text.bytes();
    while let Some(byte) = rest.next() {
        bytes.push(match (byte, byte == b'\\') {
            (byte, false) => byte,
            _ => match rest.next() {
                Some(b'n') => b'\n',
                Some(b'r') => b'\r',
                Some(b't') => b'\t',
                Some(b'\\') => b'\\',
                Some(b'x') => {
                    let digits = [rest.next().unwrap(), rest.next().unwrap()];
                    u8::from_str_radix(std::str::from_utf8(&digits).unwrap(), 16).unwrap()
                }
                kind => panic!("no escape: {kind:?} in {text}"),
            },
        });
    }
    bytes
}

/// A text that is UTF-8.
pub fn read_str(text: &str) -> String {
    String::from_utf8(read_text(text)).unwrap()
}

pub fn read_number(word: &str) -> usize {
    match word {
        "max" | "none" => usize::MAX,
        "true" => 1,
        "false" => 0,
        _ => word.parse().unwrap(),
    }
}

/// The numbers of words between separators.
pub fn numbers(words: &str, separator: char) -> Vec<usize> {
    words.split(separator).filter(|it| !it.is_empty()).map(read_number).collect()
}

/// The text of an answer, how many bytes are taken, and where it starts, where that is said; `None` where it is a status.
pub fn text_of(answer: &str) -> Option<(usize, Option<usize>, Vec<u8>)> {
    let (fields, text) = answer.split_once(" text=")?;
    let mut numbers = fields.split(' ').map(|it| read_number(it.split_once('=').unwrap().1));
    Some((numbers.next().unwrap(), numbers.next(), read_text(text)))
}

/// Prints how many rows are checked, which packages/rust/test holds against tests/totals.
pub fn count(name: &str, rows: usize) {
    assert!(rows > 0, "{name} has no rows");
    println!("{name}: {rows} rows");
}

/// Each row of a table, with its place in the file.
pub fn rows_of<const COLUMNS: usize>(table: &str) -> Vec<(String, [String; COLUMNS])> {
    let text = std::fs::read_to_string(format!("{FOLDER}/{table}")).unwrap();
    let lines = text.lines().enumerate().filter(|(_, line)| !line.starts_with('#'));
    let rows = lines.map(|(number, line)| {
        let columns: Vec<String> = line.split('\t').map(str::to_owned).collect();
        let place = format!("packages/{table}, line {}", number + 1);
        let columns = columns.try_into().unwrap_or_else(|_| panic!("{place} has more columns or fewer"));
        (place, columns)
    });
    rows.collect()
}

/// Checks each row; those for which that answers false are left out.
pub fn each_row<const COLUMNS: usize>(table: &str, mut check: impl FnMut(&str, [&str; COLUMNS]) -> bool) {
    let rows = rows_of::<COLUMNS>(table);
    let checked = rows.iter().filter(|(place, row)| check(place, row.each_ref().map(String::as_str))).count();
    count(table, checked);
    if checked < rows.len() {
        count(&format!("{table}_left_out"), rows.len() - checked);
    }
}

/// A row of pages.tsv.
pub struct PageRow {
    pub place: String,
    pub text: String,
    /// What is asked for: an extension with an empty text, or a field.
    pub words: Vec<(String, String)>,
    pub answer: String,
}

impl PageRow {
    pub fn asks(&self, extension: &str) -> bool {
        self.words.iter().any(|(name, _)| name == extension)
    }
}

fn read_page(place: String, [_, text, asked, answer, _]: [String; 5]) -> PageRow {
    let words = asked.split(' ').filter(|it| !it.is_empty()).map(|word| {
        let (name, field) = word.split_once('=').unwrap_or((word, ""));
        (name.to_owned(), read_str(field))
    });
    PageRow { place, text: read_str(&text), words: words.collect(), answer: read_str(&answer) }
}

/// Checks each row of pages.tsv of a call.
pub fn each_page(call: &str, check: impl Fn(&PageRow)) {
    let rows = rows_of::<5>("pages.tsv");
    assert!(rows.iter().all(|(_, row)| PAGE_CALLS.contains(&&row[0][..])));
    let pages: Vec<PageRow> =
        rows.into_iter().filter(|(_, row)| row[0] == call).map(|(place, row)| read_page(place, row)).collect();
    pages.iter().for_each(check);
    count(call, pages.len());
}
