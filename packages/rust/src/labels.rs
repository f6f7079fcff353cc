//! Labels by which references find their definitions. Sections in brackets are those of CommonMark 0.31.2.

use alloc::borrow::Cow;
use alloc::string::String;
use alloc::vec::Vec;
use core::hash::{Hash, Hasher};

use crate::inline::{string, with_room};
use crate::raw;

/// Whether two labels match: their full case foldings are equal. (6.3)
///
/// ```
/// assert!(fillaqut::labels_match("ẞ", "SS"));
/// ```
#[inline]
#[must_use]
pub fn labels_match(one: &str, other: &str) -> bool {
    raw::labels_match(one, other)
}

/// The full case folding of a label: two labels match exactly where their keys are equal. (6.3)
///
/// ```
/// assert_eq!(fillaqut::label_key("Straße"), "strasse");
/// ```
#[inline]
#[must_use]
pub fn label_key(label: &str) -> String {
    string(key_of(label))
}

fn key_of(label: &str) -> Vec<u8> {
    with_room(3 * label.len(), |buffer| {
        let length = raw::label_key(label, buffer).length;
        buffer[..length].to_vec()
    })
}

/// A link label, equal to those that match it, for tables of definitions.
///
/// ```
/// use fillaqut::LinkLabel;
/// let labels = std::collections::HashMap::from([(LinkLabel::new("Foo"), "/url")]);
/// assert_eq!(labels.get(&LinkLabel::new("FOO")), Some(&"/url"));
/// ```
#[derive(Clone, Debug)]
pub struct LinkLabel<'text> {
    text: Cow<'text, str>,
    key: Vec<u8>,
}

impl<'text> LinkLabel<'text> {
    /// The label of a text, as `scan_link_label_rest` writes it.
    ///
    /// ```
    /// assert_eq!(fillaqut::LinkLabel::new("Foo"), fillaqut::LinkLabel::new("foo"));
    /// ```
    #[inline]
    pub fn new(text: impl Into<Cow<'text, str>>) -> Self {
        let text = text.into();
        let key = key_of(&text);
        LinkLabel { text, key }
    }

    /// The text as it was given.
    ///
    /// ```
    /// assert_eq!(fillaqut::LinkLabel::new("Foo").as_str(), "Foo");
    /// ```
    #[inline]
    #[must_use]
    pub fn as_str(&self) -> &str {
        &self.text
    }
}

impl PartialEq for LinkLabel<'_> {
    fn eq(&self, other: &Self) -> bool {
        self.key == other.key
    }
}

impl Eq for LinkLabel<'_> {}

impl Hash for LinkLabel<'_> {
    fn hash<H: Hasher>(&self, state: &mut H) {
        self.key.hash(state);
    }
}
