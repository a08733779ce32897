// Tests of the library from outside. Modes:
//   compare [CASES] [SEED]    generated cases, the library against a plain reading of the paper
//   vectors                   the fixed vectors of the folder `vectors`
//   show VERB ...             the plain reading's own answer, as text
//   dump FILE [CASES] [SEED]  generated questions with the plain reading's answers

mod asked;
#[cfg(library)]
mod compare;
mod counts;
mod dump;
mod generator;
#[cfg(library)]
mod library;
mod paper;
mod questions;
mod random;
#[cfg(library)]
mod vectors;

use std::io::Write;
use std::path::Path;
use std::process::ExitCode;

/// How many cases are compared, and from which seed, if nothing else is said.
const CASES: u64 = 120_000;
const SEED: u64 = 20_261_115;

/// What the modes are called with.
const USAGE: &str = "compare [CASES] [SEED] | vectors | dump FILE [CASES] [SEED] |
show read FILE SITE ROWS SAMPLES | show restate FILE SITE 1.3.1|1.4.1 ROWS SAMPLES OUT |
show definition FILE SITE KEY | show stored FILE SITE ID |
show expand STORED NUM 1.3|1.4 ROOM | show write 1.3|1.4 ROOM SAMPLE...   (a SITE of - is empty)";

/// Runs a mode; the status is 0 if all was right, 1 if not, 2 for wrong words.
fn main() -> ExitCode {
    let words: Vec<String> = std::env::args().skip(1).collect();
    let words: Vec<&str> = words.iter().map(String::as_str).collect();
    let number = |at: usize, other: u64| match words.get(at) {
        Some(word) => word.parse().ok(),
        None => Some(other),
    };
    match words.split_first() {
        Some((&"compare", _)) => match (number(1, CASES), number(2, SEED)) {
            (Some(cases), Some(seed)) => status(compared(cases, seed)),
            _ => usage(),
        },
        Some((&"vectors", [])) => status(vectored()),
        Some((&"show", question)) => show(question),
        Some((&"dump", [path, ..])) => match (number(2, CASES), number(3, SEED)) {
            (Some(cases), Some(seed)) => status(dump::dump(path, cases, seed).is_ok()),
            _ => usage(),
        },
        _ => usage(),
    }
}

/// The status of a run that was right or not.
fn status(right: bool) -> ExitCode {
    ExitCode::from(u8::from(!right))
}

/// Says how the program is called.
fn usage() -> ExitCode {
    eprintln!("{USAGE}");
    ExitCode::from(2)
}

/// Prints the plain reading's answer to a question.
fn show(words: &[&str]) -> ExitCode {
    match questions::question_of(words, Path::new("")) {
        Some(question) => {
            let text = questions::text_of(&question, &questions::by_the_paper(&question));
            status(std::io::stdout().write_all(&text).is_ok())
        }
        None => usage(),
    }
}

/// Compares generated cases.
#[cfg(library)]
fn compared(cases: u64, seed: u64) -> bool {
    compare::compare(cases, seed)
}

/// Runs the fixed vectors.
#[cfg(library)]
fn vectored() -> bool {
    vectors::run()
}

/// Without the archive nothing is compared.
#[cfg(not(library))]
fn compared(_: u64, _: u64) -> bool {
    eprintln!("the archive target/staticlib/libpulseq.a is not built");
    false
}

/// Without the archive no vector is run.
#[cfg(not(library))]
fn vectored() -> bool {
    compared(0, 0)
}
