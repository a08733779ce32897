// The fixed vectors: each line of `vectors/list` is a question and the file with its outcome.

use crate::compare::held;
use crate::library;
use crate::questions::{by_the_paper, plays_again, question_of, text_of};
use std::path::PathBuf;

/// Runs all vectors; says whether all are right.
pub fn run() -> bool {
    let folder = PathBuf::from(env!("CARGO_MANIFEST_DIR")).join("vectors");
    let list = std::fs::read_to_string(folder.join("list")).expect("the list of vectors");
    let mut count = 0;
    let mut wrong = 0;
    for line in list.lines().filter(|line| !line.is_empty() && !line.starts_with('#')) {
        count += 1;
        if let Err(fault) = one(line, &folder) {
            println!("{line}: {fault}");
            wrong += 1;
        }
    }
    println!("{count} vectors, {wrong} wrong");
    wrong == 0
}

/// Runs one vector: the library's text form is the one kept, and nothing else is in what was lent.
fn one(line: &str, folder: &std::path::Path) -> Result<(), String> {
    let words: Vec<&str> = line.split(' ').collect();
    let (outcome, words) = words.split_first().ok_or("no words")?;
    let question = question_of(words, folder).ok_or("no question")?;
    let kept = std::fs::read(folder.join(outcome)).map_err(|fault| fault.to_string())?;
    let expected = by_the_paper(&question);
    let full = expected.answer.len();
    let found = text_of(&question, &library::ask(&question, full)?);
    if found != kept {
        return Err(format!("found {:?}", String::from_utf8_lossy(&found)));
    }
    plays_again(&question, &expected)?;
    held(&question, expected, full)
}
