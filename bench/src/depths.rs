// The report on the stack: how deep reading and restating go for the deepest inputs.

use crate::hostile::{chains, shapes};
use crate::library::{read, restate, Answer, Edition, Lent, LONGEST_TEXT};
use crate::realistic::KINDS;
use crate::sequence::Sequence;
use crate::{stack, tables};

/// The size of the files whose size can be chosen, in bytes.
const SIZE: usize = 4_000_000;

/// Measures the deepest inputs and prints what came of it.
pub fn run() {
    println!("## Bytes of stack\n");
    tables::print_head(&["file", "reading", "to 1.3.1", "to 1.4.1"].map(str::to_string));
    print_depths("100,000 entries in chains of 256", chains::few_blocks());
    print_depths("a run-length shape of 1,000,000 values", shapes::run_length_shape(SIZE));
    print_depths("a plain shape of 1,000,000 values", shapes::plain_shape(SIZE));
    for kind in &KINDS {
        print_depths(&format!("{} 1.4, 4 MB", kind.name), kind.file(Edition::V14, SIZE));
    }
    println!();
}

/// Prints how deep the three calls go for a file.
fn print_depths(name: &str, file: Sequence) {
    let text = file.text.as_bytes();
    let mut lent = Lent::new(file.rows, file.samples, LONGEST_TEXT);
    let mut cells = vec![name.to_string(), depth(&file, || read(text, &mut lent))];
    for target in [Edition::V13, Edition::V14] {
        cells.push(depth(&file, || restate(text, target, &mut lent)));
    }
    tables::print_row(&cells);
}

/// How deep a call goes that must accept a file.
fn depth(file: &Sequence, mut call: impl FnMut() -> Answer) -> String {
    let mut answer = None;
    let used = stack::used_by(|| answer = Some(call()));
    let answer = answer.expect("a call answers");
    let wanted = (0, file.rows, file.samples);
    assert_eq!((answer.number, answer.rows, answer.samples), wanted, "a file must be accepted");
    used.to_string()
}
