// Questions of generated cases with the answers of the plain reading, in one file, to be held
// against another reading of the paper.

use crate::asked::Asked;
use crate::counts::Counts;
use crate::questions::{by_the_paper, plays_again, text_of, Question};
use std::io::{BufWriter, Write};

/// Writes the questions of cases of a seed; each is a line of words and lengths, then the bytes.
pub fn dump(path: &str, cases: u64, seed: u64) -> std::io::Result<()> {
    let mut to = BufWriter::new(std::fs::File::create(path)?);
    let mut counts = Counts::default();
    for number in 0..cases {
        let mut asked = Asked::new(seed, number);
        for question in asked.questions() {
            let outcome = by_the_paper(&question);
            counts.add(&question, &outcome);
            if let Err(fault) = plays_again(&question, &outcome) {
                println!("case {number} of seed {seed}: {fault}");
            }
            let answer = match question {
                Question::Definition { .. } | Question::Stored { .. } => {
                    format!("{:?}", outcome.answer).into_bytes()
                }
                _ => text_of(&question, &outcome),
            };
            write_question(&mut to, number, &question, &answer)?;
        }
    }
    counts.print();
    to.flush()
}

/// Writes one question and its answer.
fn write_question(
    to: &mut impl Write,
    number: u64,
    question: &Question,
    answer: &[u8],
) -> std::io::Result<()> {
    let (words, texts): (String, Vec<Vec<u8>>) = match question {
        Question::Read { file, site, rows_len, samples_len } => {
            (format!("read {rows_len} {samples_len}"), vec![file.to_vec(), site.to_vec()])
        }
        Question::Restate { file, site, target, lengths: [rows, samples, out] } => {
            (format!("restate {target} {rows} {samples} {out}"), vec![file.to_vec(), site.to_vec()])
        }
        Question::Definition { file, site, key } => {
            ("definition".to_string(), vec![file.to_vec(), site.to_vec(), key.clone()])
        }
        Question::Stored { file, site, id } => {
            (format!("stored {id}"), vec![file.to_vec(), site.to_vec()])
        }
        Question::Expand { stored, num, edition, samples_len } => {
            (format!("expand {num} {edition} {samples_len}"), vec![stored.clone()])
        }
        Question::Write { samples, edition, out_len } => {
            let list: Vec<String> = samples.iter().map(i64::to_string).collect();
            (format!("write {edition} {out_len}"), vec![list.join(" ").into_bytes()])
        }
    };
    let lengths: Vec<String> = texts.iter().map(|text| text.len().to_string()).collect();
    writeln!(to, "{number} {words} | {} | {}", lengths.join(" "), answer.len())?;
    for text in &texts {
        to.write_all(text)?;
    }
    to.write_all(answer)?;
    writeln!(to)
}
