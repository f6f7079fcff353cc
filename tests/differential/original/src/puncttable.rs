//! ASCII punctuation.

pub fn is_ascii_punctuation(byte: u8) -> bool {
    byte.is_ascii_punctuation()
}

#[allow(dead_code)]
pub fn is_punctuation(character: char) -> bool {
    character.is_ascii_punctuation()
}
