//! The entities that the cases know, the same as those of `tests_replay`.

pub fn get_entity(name: &[u8]) -> Option<&'static str> {
    match name {
        b"amp" => Some("&"),
        b"lt" => Some("<"),
        b"gt" => Some(">"),
        b"quot" => Some("\""),
        b"copy" => Some("\u{a9}"),
        b"AElig" => Some("\u{c6}"),
        b"ngE" => Some("\u{2267}\u{338}"),
        b"frac34" => Some("\u{be}"),
        _ => None,
    }
}
