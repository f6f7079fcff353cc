//! Pulldown-cmark's own modules, which `build` puts beside this file, and what they name of its other modules, so that
//! they stand alone.
#![allow(dead_code, unused_imports, improper_ctypes)]
pub mod entities {
    /// The four names that `crates/bench_calls` knows, compared in the same order.
    pub fn get_entity(name: &[u8]) -> Option<&'static str> {
        if name == b"amp" {
            Some("&")
        } else if name == b"lt" {
            Some("<")
        } else if name == b"gt" {
            Some(">")
        } else if name == b"quot" {
            Some("\"")
        } else {
            None
        }
    }
}
#[path = "upstream/puncttable.rs"]
pub mod puncttable;
pub mod parse {
    #[derive(Default, Clone, Debug)]
    pub struct HtmlScanGuard {
        pub cdata: usize,
        pub processing: usize,
        pub declaration: usize,
        pub comment: usize,
    }
    #[derive(Debug, Clone, Copy)]
    pub enum ItemBody {
        Text { backslash_escaped: bool },
        Other(u8),
    }
    impl Default for ItemBody {
        fn default() -> Self {
            ItemBody::Other(0)
        }
    }
    #[derive(Debug, Default, Clone, Copy)]
    pub struct Item {
        pub start: usize,
        pub end: usize,
        pub body: ItemBody,
    }
}
#[path = "upstream/linklabel.rs"]
pub mod linklabel;
#[path = "upstream/scanners.rs"]
pub mod scanners;
#[path = "upstream/strings.rs"]
pub mod strings;
#[path = "upstream/tree.rs"]
pub mod tree;
pub use strings::{CowStr, InlineStr};
mod loops;
mod values;
// what the scanners answer; `build` copies it from `tests/differential/original`
mod answers;
pub use answers::{Alignment, BlockQuoteKind, HeadingLevel, LinkType};

macro_rules! export { ($($name:ident $f:ident),* $(,)?) => { $(
    #[no_mangle]
    pub unsafe extern "C" fn $name(text: *const u8, len: usize, at: *const usize, places: usize, rounds: usize) -> u64 {
        loops::$f(std::slice::from_raw_parts(text, len), std::slice::from_raw_parts(at, places), rounds)
    }
)* } }
export! {
    reference_empty empty,
    reference_line_quote line_quote,
    reference_line_list line_list,
    reference_line_task line_task,
    reference_line_definition line_definition,
    reference_line_tag line_tag,
    reference_line_space line_space,
    reference_line_upto line_upto,
    reference_line_all line_all,
    reference_line_containers line_containers,
    reference_hrule hrule,
    reference_atx atx,
    reference_setext setext,
    reference_fence fence,
    reference_closing_fence closing_fence,
    reference_metadata metadata,
    reference_closing_metadata closing_metadata,
    reference_table_head table_head,
    reference_listitem listitem,
    reference_blank blank,
    reference_nextline nextline,
    reference_indent indent,
    reference_indent_deep indent_deep,
    reference_quote_start quote_start,
    reference_classes classes,
    reference_while scan_while_,
    reference_rev_while rev_while,
    reference_entity entity,
    reference_unescape unescape_,
    reference_link_dest link_dest,
    reference_link_dest_deep link_dest_deep,
    reference_autolink autolink,
    reference_wikilink wikilink,
    reference_type_6 type_6,
    reference_type_7 type_7,
    reference_tag tag,
    reference_tag_lines tag_lines,
    reference_inline_html inline_html,
    reference_inline_html_run inline_html,
    reference_label label,
    reference_label_table label_table,
    reference_label_new label_new,
    reference_label_hash label_hash,
    reference_label_eq label_eq,
    reference_clone_lent clone_lent,
    reference_clone_inlined clone_inlined,
    reference_clone_boxed clone_boxed,
    reference_tree_flat tree_flat,
    reference_tree_nested tree_nested,
    reference_unescape_table unescape_table,
    reference_static_lent static_lent,
    reference_tree_walk tree_walk,
}
