//! The names of HTML's entities, others like them, and the search by halves with which pulldown-cmark looks one up.
use crate::inputs::Input;
use std::sync::OnceLock;

/// Names a line, and what each means, `none` where it means nothing.
const NAMES: &str = include_str!("../../packages/entities/asked");
const MEANINGS: &str = include_str!("../../packages/entities/meanings");

type Row = (&'static str, &'static str);

/// Each name that was asked, once, with its meaning; names rise. One meaning is a line ending.
fn asked() -> Vec<Row> {
    let mut meanings = MEANINGS.split('\n');
    let mut meaning_of = |name| match (name, meanings.next()) {
        ("NewLine", _) => meanings.next().map(|_| "\n"),
        (_, meaning) => meaning,
    };
    let names = NAMES.lines().take_while(|name| !name.starts_with("text "));
    let mut rows: Vec<Row> = names.map(|name| (name, meaning_of(name).expect("an answer a name"))).collect();
    rows.sort_unstable();
    rows.dedup();
    rows
}

fn known() -> &'static [Row] {
    static KNOWN: OnceLock<Vec<Row>> = OnceLock::new();
    KNOWN.get_or_init(|| asked().into_iter().filter(|row| row.1 != "none").collect())
}

/// The names that a call is run on, one behind another with the end of each; None for other calls.
pub fn names(call: &str) -> Option<Input> {
    let is_wanted: fn(&Row) -> bool = match call {
        "entity_name" => |row| row.1 != "none",
        "no_entity_name" => |row| row.1 == "none",
        _ => return None,
    };
    let (mut text, mut at) = (vec![], vec![]);
    for (name, _) in asked().into_iter().filter(is_wanted) {
        text.extend_from_slice(name.as_bytes());
        at.push(text.len());
    }
    Some(Input { text, at })
}

/// The sum of the answers for each stretch of the text between two of the places, by halves.
///
/// # Safety
/// The pointers and lengths are those of a text and of places that rise in it.
pub unsafe extern "C" fn by_halves(
    text: *const u8, length: usize, at: *const usize, places: usize, rounds: usize,
) -> u64 {
    let (text, at) = unsafe { (std::slice::from_raw_parts(text, length), std::slice::from_raw_parts(at, places)) };
    let rows = known();
    let mut sum: u64 = 0;
    for _ in 0..rounds {
        let mut from = 0;
        for to in at {
            let name = &text[from..*to];
            let found = rows.binary_search_by(|row| row.0.as_bytes().cmp(name));
            sum = sum.wrapping_add(found.map_or(0, |row| rows[row].1.len() as u64 + 1));
            from = *to;
        }
    }
    sum
}
