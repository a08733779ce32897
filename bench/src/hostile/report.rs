// The report on hostile files: what each is answered, how long that takes, and how that grows.

use crate::hostile::{Case, CASES};
use crate::library::{read, Edition, Lent};
use crate::measure::{Outcome, Series};
use crate::realistic::KINDS;
use crate::sequence::Sequence;
use crate::tables;

/// Sizes that are measured only to foretell the others, in small steps, since growth is not even.
const FIRST: [usize; 5] = [100_000, 200_000, 400_000, 800_000, 1_600_000];

/// The sizes that are reported.
const SIZES: [(&str, usize); 2] = [("4 MB", 4_000_000), ("16 MB", 15_500_000)];

/// Measures all cases and prints what came of it; no call may be expected to take longer than so
/// many seconds.
pub fn run(longest: f64) {
    println!("## Hostile files: reading\n");
    let head = ["file", "answer", "4 MB, s", "16 MB, s", "time per byte, 16 MB ÷ 4 MB"];
    let mut head = head.map(str::to_string).to_vec();
    head.extend(SIZES.map(|(size, _)| format!("÷ {} 1.4, {size}", KINDS[0].name)));
    tables::print_head(&head);
    let realistic = measured(
        longest,
        |size| KINDS[0].file(Edition::V14, size),
        |file, lent| {
            let answer = read(file.text.as_bytes(), lent);
            assert_eq!((answer.number, answer.rows), (0, file.rows), "{}", KINDS[0].name);
        },
    );
    print_case(KINDS[0].name, "ACCEPTED", realistic, realistic);
    for case in &CASES {
        let outcomes = measured(longest, case.make, |file, lent| assert_answered(case, file, lent));
        print_case(case.name, case.verdict.name(), outcomes, realistic);
    }
    println!();
}

/// Measures the sizes of files that are made and called as the caller says.
fn measured(
    longest: f64,
    make: impl Fn(usize) -> Sequence,
    call: impl Fn(&Sequence, &mut Lent),
) -> [Outcome; SIZES.len()] {
    let mut series = Series::new(longest);
    let mut attempt = |size| {
        if let Some(outcome) = series.too_long(size) {
            return outcome;
        }
        let file = make(size);
        let mut lent = Lent::new(file.rows, file.samples, 0);
        series.attempt(file.text.len(), || call(&file, &mut lent))
    };
    for size in FIRST {
        attempt(size);
    }
    SIZES.map(|(_, size)| attempt(size))
}

/// Reads a file, and stops the program unless it is answered as it must be.
fn assert_answered(case: &Case, file: &Sequence, lent: &mut Lent) {
    let answer = read(file.text.as_bytes(), lent);
    let wanted = (case.verdict as u64, 0, file.rows, file.samples);
    assert_eq!((answer.number, answer.line, answer.rows, answer.samples), wanted, "{}", case.name);
}

/// Prints the row of a case.
fn print_case(name: &str, answer: &str, outcomes: [Outcome; 2], realistic: [Outcome; 2]) {
    let mut cells = vec![name.to_string(), answer.to_string()];
    cells.extend(outcomes.map(|outcome| outcome.words(|m| format!("{:.3}", m.seconds))));
    let [small, large] = outcomes;
    cells.push(tables::ratio(large, small));
    cells.extend(outcomes.iter().zip(realistic).map(|(case, usual)| tables::ratio(*case, usual)));
    tables::print_row(&cells);
}
