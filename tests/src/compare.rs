// Many generated cases: the library held against the paper's plain reading.

use crate::asked::Asked;
use crate::counts::Counts;
use crate::library;
use crate::questions::{by_the_paper, plays_again, Outcome, Question};
use crate::random::Random;
use std::path::PathBuf;

/// Compares cases of a seed up to the first difference; says whether there was none.
pub fn compare(cases: u64, seed: u64) -> bool {
    let mut counts = Counts::default();
    for number in 0..cases {
        let mut asked = Asked::new(seed, number);
        let mut random = Random::new(seed.rotate_left(32), number);
        for question in asked.questions() {
            let expected = by_the_paper(&question);
            counts.add(&question, &expected);
            let length = answer_len(&mut random, expected.answer.len());
            let result = plays_again(&question, &expected);
            if let Err(difference) = result.and_then(|()| held(&question, expected, length)) {
                println!("case {number} of seed {seed}: {difference}");
                println!("written to {}", keep(&question).display());
                println!("{} cases, 1 difference", number + 1);
                return false;
            }
        }
    }
    counts.print();
    println!("{cases} cases, 0 differences");
    true
}

/// A length for the answer: mostly the full one.
fn answer_len(random: &mut Random, full: usize) -> usize {
    match random.below(8) {
        0 => random.below(full),
        1 => full + random.below(4),
        _ => full,
    }
}

/// Asks the library and compares everything that comes back.
pub fn held(question: &Question, mut expected: Outcome, length: usize) -> Result<(), String> {
    expected.answer.resize(length, 0);
    let found = library::ask(question, length)?;
    first_difference("answer", &expected.answer, &found.answer)?;
    first_difference("rows", &expected.rows, &found.rows)?;
    first_difference("samples", &expected.samples, &found.samples)?;
    first_difference("out", &expected.out, &found.out)
}

/// The first place where two lists differ.
fn first_difference<T: PartialEq + std::fmt::Debug>(
    name: &str,
    expected: &[T],
    found: &[T],
) -> Result<(), String> {
    match expected.iter().zip(found).position(|(a, b)| a != b) {
        Some(at) => {
            let [paper, library] = [&expected[at], &found[at]];
            Err(format!("{name}[{at}] is {paper:?} by the paper, {library:?} by the library"))
        }
        None => Ok(()),
    }
}

/// Writes a question's texts and numbers to files, and answers where.
fn keep(question: &Question) -> PathBuf {
    let folder = PathBuf::from(env!("CARGO_MANIFEST_DIR")).join("target/difference");
    std::fs::create_dir_all(&folder).expect("a folder for the difference");
    let save = |name: &str, bytes: &[u8]| {
        std::fs::write(folder.join(name), bytes).expect("a file of the difference");
    };
    let asked = match question {
        Question::Read { file, site, rows_len, samples_len } => {
            save("file", file);
            save("site", site);
            format!("read, rows_len {rows_len}, samples_len {samples_len}\n")
        }
        Question::Restate { file, site, target, lengths: [rows, samples, out] } => {
            save("file", file);
            save("site", site);
            format!("restate to {target}, rows_len {rows}, samples_len {samples}, out_len {out}\n")
        }
        Question::Definition { file, site, key } => {
            save("file", file);
            save("site", site);
            format!("definition of {:?}\n", String::from_utf8_lossy(key))
        }
        Question::Stored { file, site, id } => {
            save("file", file);
            save("site", site);
            format!("stored lines of {id}\n")
        }
        Question::Expand { stored, num, edition, samples_len } => {
            save("stored", stored);
            format!("expand, num {num}, edition {edition}, samples_len {samples_len}\n")
        }
        Question::Write { samples, edition, out_len } => {
            format!("write, edition {edition}, out_len {out_len}, samples {samples:?}\n")
        }
    };
    save("question", asked.as_bytes());
    folder
}
