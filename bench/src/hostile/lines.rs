// Files of one sort of line: definitions, comments, blank lines, and lines of the greatest length.

use crate::sequence::Sequence;
use std::fmt::Write;

/// The version of a 1.4 file, and the line that opens its definitions.
const VERSION: &str = "[VERSION]\nmajor 1\nminor 4\nrevision 1\n[DEFINITIONS]\n";

/// What a 1.4 file must define.
const RASTERS: &str = "GradientRasterTime 1e-05\nRadiofrequencyRasterTime 1e-06\n\
AdcRasterTime 1e-07\nBlockDurationRaster 1e-05\n";

/// One block.
const BLOCK: &str = "[BLOCKS]\n1 0 0 0 0 0 0 0\n";

/// The greatest length of a line.
const LONGEST_LINE: usize = 1024;

/// Fields of a block.
const FIELDS: usize = 8;

/// The head of a 1.4 file.
pub fn head() -> String {
    [VERSION, RASTERS].concat()
}

/// Distinct keys, in no order, before those that are needed.
pub fn keys(size: usize) -> Sequence {
    let mut text = VERSION.to_string();
    let mut number: u32 = 0;
    while text.len() + RASTERS.len() + BLOCK.len() < size {
        number = number.wrapping_add(0x9e37_79b9);
        writeln!(text, "K{number:08x} 1").expect("a text takes every line");
    }
    text.push_str(RASTERS);
    text.push_str(BLOCK);
    Sequence { text, rows: 1, samples: 0 }
}

/// Comments alone behind the head.
pub fn comments(size: usize) -> Sequence {
    filled(size, "#\n")
}

/// Blank lines alone behind the head.
pub fn blank_lines(size: usize) -> Sequence {
    filled(size, "\n")
}

/// A head, and one line again and again.
fn filled(size: usize, line: &str) -> Sequence {
    let mut text = head();
    text.push_str(&line.repeat(size.saturating_sub(text.len()) / line.len()));
    Sequence { text, rows: 0, samples: 0 }
}

/// Comments and blocks in turn, each a line of the greatest length.
pub fn long_lines(size: usize) -> Sequence {
    let mut text = head();
    text.push_str("[BLOCKS]\n");
    let comment = format!("#{}\n", "-".repeat(LONGEST_LINE - 1));
    let width = LONGEST_LINE / FIELDS;
    let events = format!("{:>width$}", 0).repeat(FIELDS - 1);
    let mut rows = 0;
    while rows == 0 || text.len() + 2 * comment.len() <= size {
        rows += 1;
        text.push_str(&comment);
        writeln!(text, "{rows:>width$}{events}").expect("a text takes every line");
    }
    Sequence { text, rows, samples: 0 }
}
