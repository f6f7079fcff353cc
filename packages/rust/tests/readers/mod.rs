//! Pages that come piece by piece.

use std::ops::Range;

use fillaqut::*;

/// What a block is, where it stands, and its content.
fn block_of(it: &Block) -> (BlockKind, Range<usize>, usize, Vec<Container>, usize, Vec<u8>) {
    (it.kind, it.range.clone(), it.lines.start, it.containers().to_vec(), it.place, it.content())
}

/// Piece by piece a page has the blocks that it has as a whole.
#[test]
fn fed_blocks() {
    let page = b"# A\r\n> - b\n> c\n\n1. d\n   - e\n\n      f\n-\n  ```\n  g\r\n===\n| a |\n|-|\n| b";
    for tables in [false, true] {
        fed_with(page, Extensions { tables, ..Extensions::default() });
    }
}

fn fed_with(page: &[u8], extensions: Extensions) {
    let expected: Vec<_> = scan_blocks(page, extensions).map(|it| block_of(&it)).collect();
    let is_table = expected.iter().any(|it| it.0 == BlockKind::Table(1));
    assert_eq!(is_table, extensions.tables);
    for size in 1..=page.len() {
        let (mut reader, mut found) = (BlockReader::new(extensions), Vec::new());
        for piece in page.chunks(size) {
            reader.feed(piece);
            while let Some(block) = reader.next_block() {
                found.push(block_of(&block));
            }
        }
        reader.end();
        while let Some(block) = reader.next_block() {
            found.push(block_of(&block));
        }
        assert_eq!(found, expected);
    }
}

/// More containers than there is room for at first, and a block that is long.
#[test]
fn deep_and_long_blocks_are_fed() {
    let (mut reader, mut returned) = (BlockReader::default(), 0);
    reader.feed(">".repeat(1000).as_bytes());
    for _ in 0..10_000 {
        reader.feed(b"a\n");
        while let Some(block) = reader.next_block() {
            returned += block.range.len();
        }
    }
    reader.end();
    let block = reader.next_block().unwrap();
    assert_eq!((returned, block.containers().len(), block.lines.len()), (0, 1000, 10_000));
}

#[test]
#[should_panic(expected = "the page has ended")]
fn nothing_is_fed_after_the_end() {
    let mut reader = BlockReader::default();
    reader.end();
    reader.feed(b"a");
}
