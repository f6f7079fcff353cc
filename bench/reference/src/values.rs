//! The same over labels, texts and trees.
use crate::linklabel::{scan_link_label_rest, LinkLabel};
use crate::loops::two;
use crate::parse::{Item, ItemBody};
use crate::strings::{CowStr, InlineStr};
use crate::tree::Tree;
use crate::{places, stretches};
use std::collections::hash_map::DefaultHasher;
use std::hash::{Hash, Hasher};

fn label_answer(text: &str, table: bool) -> u64 {
    let handler = |_rest: &[u8]| -> Option<usize> { Some(0) };
    match scan_link_label_rest(text, &handler, table) {
        Some((n, label)) => {
            let lent = matches!(&label, CowStr::Borrowed(_));
            two(n, label.len() as u64).wrapping_mul(2).wrapping_add(lent as u64)
        }
        None => 0,
    }
}
places!(label, |text: &str, place| label_answer(&text[place..], false));
places!(label_table, |text: &str, place| label_answer(&text[place..], true));
stretches!(label_new, |t: &str| {
    let l: LinkLabel = LinkLabel::new(CowStr::Borrowed(t));
    std::hint::black_box(&l).len() as u64
});
fn hash_of(label: &LinkLabel) -> u64 {
    let mut state = DefaultHasher::new();
    label.hash(&mut state);
    state.finish()
}
fn built<'a>(text: &'a str, at: &[usize]) -> Vec<LinkLabel<'a>> {
    let mut labels = vec![];
    let mut from = 0;
    for place in at {
        let to = *place;
        if from <= to && text.is_char_boundary(from) && text.is_char_boundary(to) {
            labels.push(LinkLabel::new(CowStr::Borrowed(&text[from..to])));
        }
        from = to;
    }
    labels
}
#[inline(never)]
pub fn label_hash(text: &[u8], at: &[usize], rounds: usize) -> u64 {
    let Ok(text) = std::str::from_utf8(text) else { return 0 };
    let labels = built(text, at);
    let mut sum: u64 = 0;
    for _ in 0..rounds {
        for label in &labels {
            sum = sum.wrapping_add(hash_of(label));
        }
    }
    sum
}
#[inline(never)]
pub fn label_eq(text: &[u8], at: &[usize], rounds: usize) -> u64 {
    let Ok(text) = std::str::from_utf8(text) else { return 0 };
    let (labels, again) = (built(text, at), built(text, at));
    let mut sum: u64 = 0;
    for _ in 0..rounds {
        for (one, other) in labels.iter().zip(again.iter()) {
            if *one == *other {
                sum = sum.wrapping_add(1);
            }
        }
    }
    sum
}

fn size(text: &CowStr) -> u64 {
    let kind = match text {
        CowStr::Boxed(_) => 1,
        CowStr::Borrowed(_) => 2,
        CowStr::Inlined(_) => 3,
    };
    two(text.len(), kind)
}
fn made(text: &str, kind: usize) -> CowStr<'_> {
    if kind == 0 {
        return CowStr::Borrowed(text);
    }
    if kind == 1 {
        if let Ok(text) = InlineStr::try_from(text) {
            return CowStr::Inlined(text);
        }
    }
    CowStr::from(text.to_string())
}
fn built_texts<'a>(text: &'a str, at: &[usize], kind: usize) -> Vec<CowStr<'a>> {
    let mut texts = vec![];
    let mut from = 0;
    for place in at {
        let to = *place;
        if from <= to && text.is_char_boundary(from) && text.is_char_boundary(to) {
            texts.push(made(&text[from..to], kind));
        }
        from = to;
    }
    texts
}
fn copied(texts: &[CowStr]) -> u64 {
    let mut copies = Vec::with_capacity(texts.len());
    for text in texts {
        copies.push(text.clone());
    }
    let mut sum: u64 = 0;
    for copy in &copies {
        sum = sum.wrapping_add(size(copy));
    }
    sum
}
fn cloned(text: &[u8], at: &[usize], rounds: usize, kind: usize) -> u64 {
    let Ok(text) = std::str::from_utf8(text) else { return 0 };
    let texts = built_texts(text, at, kind);
    let mut sum: u64 = 0;
    for _ in 0..rounds {
        sum = sum.wrapping_add(copied(&texts));
    }
    sum
}
#[inline(never)]
pub fn clone_lent(text: &[u8], at: &[usize], rounds: usize) -> u64 {
    cloned(text, at, rounds, 0)
}
#[inline(never)]
pub fn clone_inlined(text: &[u8], at: &[usize], rounds: usize) -> u64 {
    cloned(text, at, rounds, 1)
}
#[inline(never)]
pub fn clone_boxed(text: &[u8], at: &[usize], rounds: usize) -> u64 {
    cloned(text, at, rounds, 2)
}

fn nth_item(n: usize) -> Item {
    Item { start: n, end: n, body: ItemBody::Other((n % 200) as u8) }
}
fn flat(nodes: usize) -> u64 {
    let mut tree: Tree<Item> = Tree::with_capacity(128);
    let mut sum: u64 = 0;
    for n in 0..nodes {
        sum = sum.wrapping_add(tree.append(nth_item(n)).get() as u64);
    }
    sum
}
/// Nodes eight deep, and the sum of their indices.
fn nested_tree(nodes: usize) -> (Tree<Item>, u64) {
    let mut tree: Tree<Item> = Tree::with_capacity(128);
    let mut sum: u64 = 0;
    for n in 0..nodes {
        sum = sum.wrapping_add(tree.append(nth_item(n)).get() as u64);
        if n % 8 == 7 {
            for _ in 0..7 {
                tree.pop();
            }
        } else if tree.cur().is_some() {
            tree.push();
        }
    }
    (tree, sum)
}
fn nested(nodes: usize) -> u64 {
    let (mut tree, sum) = nested_tree(nodes);
    sum.wrapping_add(walked(&mut tree, nodes))
}
fn walked(tree: &mut Tree<Item>, nodes: usize) -> u64 {
    let mut sum: u64 = 0;
    tree.reset();
    for _ in 0..nodes.saturating_mul(4) {
        if let Some(ix) = tree.cur() {
            let ItemBody::Other(body) = tree[ix].item.body else { return 0 };
            sum = sum.wrapping_mul(3).wrapping_add(body as u64);
            if tree[ix].child.is_some() {
                tree.push();
            } else {
                tree.next_sibling(ix);
            }
        } else if let Some(parent) = tree.pop() {
            sum = sum.wrapping_add(1);
            tree.next_sibling(parent);
        } else {
            break;
        }
    }
    sum
}
#[inline(never)]
pub fn tree_flat(_text: &[u8], at: &[usize], rounds: usize) -> u64 {
    let mut sum: u64 = 0;
    for _ in 0..rounds {
        for n in at {
            sum = sum.wrapping_add(flat(*n));
        }
    }
    sum
}
#[inline(never)]
pub fn tree_nested(_text: &[u8], at: &[usize], rounds: usize) -> u64 {
    let mut sum: u64 = 0;
    for _ in 0..rounds {
        for n in at {
            sum = sum.wrapping_add(nested(*n));
        }
    }
    sum
}

fn kept(text: &str, at: &[usize]) -> u64 {
    let mut texts: Vec<CowStr<'static>> = Vec::with_capacity(at.len());
    let mut from = 0;
    for place in at {
        let to = *place;
        if from <= to && text.is_char_boundary(from) && text.is_char_boundary(to) {
            texts.push(CowStr::Borrowed(&text[from..to]).into_static());
        }
        from = to;
    }
    let mut sum: u64 = 0;
    for text in &texts {
        sum = sum.wrapping_add(size(text));
    }
    sum
}
#[inline(never)]
pub fn static_lent(text: &[u8], at: &[usize], rounds: usize) -> u64 {
    let Ok(text) = std::str::from_utf8(text) else { return 0 };
    let mut sum: u64 = 0;
    for _ in 0..rounds {
        sum = sum.wrapping_add(kept(text, at));
    }
    sum
}
#[inline(never)]
pub fn tree_walk(_text: &[u8], at: &[usize], rounds: usize) -> u64 {
    let mut sum: u64 = 0;
    for n in at {
        let (mut tree, _) = nested_tree(*n);
        for _ in 0..rounds {
            sum = sum.wrapping_add(walked(&mut tree, *n));
        }
    }
    sum
}
