// Extension entries in chains of the greatest length, with blocks that refer to their first ones.

use crate::hostile::lines::head;
use crate::sequence::Sequence;
use std::fmt::Write;

/// The most entries.
const MOST: usize = 100_000;

/// The most entries of a chain.
const LONGEST_CHAIN: usize = 256;

/// The bytes of an entry and of a block, about.
const ENTRY: usize = 17;
const BLOCK: usize = 24;

/// As many entries as may be, and blocks up to the size.
pub fn chains(size: usize) -> Sequence {
    let entries = MOST.min(size / 2 / ENTRY);
    chained(entries, (size - ENTRY * entries) / BLOCK)
}

/// As many entries as may be, and few blocks.
pub fn few_blocks() -> Sequence {
    chained(MOST, MOST / LONGEST_CHAIN)
}

/// Chains that interleave: the next entry of each is as many rows away as there are chains.
fn chained(entries: usize, blocks: usize) -> Sequence {
    let chains = entries.div_ceil(LONGEST_CHAIN);
    let mut text = head();
    text.push_str("[BLOCKS]\n");
    for block in 1..=blocks {
        writeln!(text, "{block} 0 0 0 0 0 0 {}", 1 + block % chains).expect("a text");
    }
    text.push_str("[EXTENSIONS]\n");
    for entry in 1..=entries {
        let next = if entry + chains <= entries { entry + chains } else { 0 };
        writeln!(text, "{entry} 1 1 {next}").expect("a text");
    }
    text.push_str("extension LABELSET 1\n1 1 LIN\n");
    Sequence { text, rows: blocks + entries + 2, samples: 0 }
}
