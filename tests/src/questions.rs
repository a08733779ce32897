// What can be asked of the library, what the paper answers, and the text form of an answer.

use crate::paper::lookup::{self, Part};
use crate::paper::plays::plays_the_same;
use crate::paper::restating::restate;
use crate::paper::{self, edition_of, shapes, Accepted, Edition, Fault};
use std::borrow::Cow;
use std::path::Path;

/// One call; the lengths that restating is lent are those of rows, samples and output.
pub enum Question<'a> {
    Read { file: Cow<'a, [u8]>, site: Cow<'a, [u8]>, rows_len: usize, samples_len: usize },
    Restate { file: Cow<'a, [u8]>, site: Cow<'a, [u8]>, target: u64, lengths: [usize; 3] },
    Definition { file: Cow<'a, [u8]>, site: Cow<'a, [u8]>, key: Vec<u8> },
    Stored { file: Cow<'a, [u8]>, site: Cow<'a, [u8]>, id: i64 },
    Expand { stored: Vec<u8>, num: u64, edition: u64, samples_len: usize },
    Write { samples: Vec<i64>, edition: u64, out_len: usize },
}

/// What a call leaves behind: the answer, and every number or byte that was lent.
#[derive(PartialEq, Default)]
pub struct Outcome {
    pub answer: Vec<u64>,
    pub rows: Vec<i64>,
    pub samples: Vec<i64>,
    pub out: Vec<u8>,
}

/// What the paper answers.
pub fn by_the_paper(question: &Question) -> Outcome {
    match question {
        Question::Read { file, site, rows_len, samples_len } => {
            let result = paper::read(file, site, *rows_len, *samples_len, None);
            table_outcome(result.as_ref(), *rows_len, *samples_len)
        }
        Question::Restate { file, site, target, lengths } => {
            let unread = Fault { number: paper::VERSION, line: 0 };
            let restated = |target: Edition| restate(file, site, target, *lengths);
            let result = edition_of(*target).ok_or(unread).and_then(restated);
            let tables = result.as_ref().map(|(accepted, _)| accepted);
            let mut outcome = table_outcome(tables, lengths[0], lengths[1]);
            let text = result.as_ref().map_or(&[][..], |(_, text)| text);
            outcome.answer.push(text.len() as u64);
            Outcome { out: padded(text, lengths[2]), ..outcome }
        }
        Question::Definition { file, site, key } => {
            part_outcome(lookup::definition(file, site, key))
        }
        Question::Stored { file, site, id } => part_outcome(lookup::stored(file, site, *id)),
        Question::Expand { stored, num, edition, samples_len } => {
            let expand = |edition| shapes::expand(stored, *num, edition, *samples_len);
            let result = edition_of(*edition).ok_or(paper::VERSION).and_then(expand);
            let (number, samples) = parted(result);
            let answer = vec![number, samples.len() as u64];
            Outcome { answer, samples: padded(&samples, *samples_len), ..Outcome::default() }
        }
        Question::Write { samples, edition, out_len } => {
            let write = |edition| shapes::write(samples, edition, *out_len);
            let result = edition_of(*edition).ok_or(paper::VERSION).and_then(write);
            let (number, text) = parted(result);
            let answer = vec![number, text.len() as u64];
            Outcome { answer, out: padded(&text, *out_len), ..Outcome::default() }
        }
    }
}

/// Whether a restated text plays the same as its file; nothing is asked of other outcomes.
pub fn plays_again(question: &Question, outcome: &Outcome) -> Result<(), String> {
    match (question, &outcome.answer[..]) {
        (Question::Restate { file, site, target, .. }, [0, _, _, _, length]) => {
            let target = edition_of(*target).ok_or("restated to no edition")?;
            plays_the_same(file, site, target, &outcome.out[..*length as usize])
        }
        _ => Ok(()),
    }
}

/// The answer and the tables of a file that was read, all zero on refusal.
fn table_outcome(
    result: Result<&Accepted, &Fault>,
    rows_len: usize,
    samples_len: usize,
) -> Outcome {
    let mut rows = vec![0; rows_len];
    let (answer, samples) = match result {
        Ok(accepted) => {
            for (place, row) in rows.chunks_mut(12).zip(&accepted.rows) {
                place[..row.len()].copy_from_slice(row);
            }
            let samples = accepted.shapes.concat();
            (vec![0, 0, accepted.rows.len() as u64, samples.len() as u64], samples)
        }
        Err(fault) => (vec![fault.number, fault.line, 0, 0], Vec::new()),
    };
    Outcome { answer, rows, samples: padded(&samples, samples_len), ..Outcome::default() }
}

/// A result as a number and a list, empty on refusal.
fn parted<T>(result: Result<Vec<T>, u64>) -> (u64, Vec<T>) {
    match result {
        Ok(list) => (0, list),
        Err(number) => (number, Vec::new()),
    }
}

/// A list with zeros behind it.
fn padded<T: Clone + Default>(list: &[T], length: usize) -> Vec<T> {
    let mut all = list.to_vec();
    all.resize(length, T::default());
    all
}

/// The answer that names a part of a text.
fn part_outcome(part: Part) -> Outcome {
    let answer = match part {
        Part::None => vec![0, 0, 0],
        Part::File(start, length) => vec![1, start as u64, length as u64],
        Part::Site(start, length) => vec![2, start as u64, length as u64],
    };
    Outcome { answer, ..Outcome::default() }
}

/// The text form of an outcome.
pub fn text_of(question: &Question, outcome: &Outcome) -> Vec<u8> {
    let answer = &outcome.answer;
    match question {
        Question::Read { .. } => match answer[..] {
            [number, line, rows, samples] => {
                let head = format!("answer {number} line {line} rows {rows} samples {samples}\n");
                (head + &table_lines(outcome, rows, samples)).into_bytes()
            }
            _ => b"a short answer\n".to_vec(),
        },
        Question::Restate { .. } => match answer[..] {
            [number, line, rows, samples, length] => {
                let head = format!("answer {number} line {line} rows {rows} samples {samples}");
                let tables = table_lines(outcome, rows, samples);
                let mut text = format!("{head} length {length}\n{tables}").into_bytes();
                text.extend(outcome.out.iter().take(length as usize));
                text
            }
            _ => b"a short answer\n".to_vec(),
        },
        Question::Expand { .. } => {
            let samples = sample_lines(&outcome.samples, answer[1]);
            format!("answer {}\n{samples}", answer[0]).into_bytes()
        }
        Question::Write { .. } => {
            let mut text = format!("answer {}\n", answer[0]).into_bytes();
            text.extend(outcome.out.iter().take(answer[1] as usize));
            text
        }
        Question::Definition { file, site, .. } => {
            let [start, end] = [answer[1] as usize, (answer[1] + answer[2]) as usize];
            let (name, part) = match answer[0] {
                1 => ("file", file.get(start..end)),
                2 => ("site", site.get(start..end)),
                _ => ("none", None),
            };
            let mut text = format!("{name} {start} {end} ").into_bytes();
            text.extend_from_slice(part.unwrap_or(b""));
            text.push(b'\n');
            text
        }
        Question::Stored { file, .. } => {
            let [start, end] = [answer[1] as usize, (answer[1] + answer[2]) as usize];
            file.get(start..end).unwrap_or(b"").to_vec()
        }
    }
}

/// The used rows and samples, one a line.
fn table_lines(outcome: &Outcome, rows: u64, samples: u64) -> String {
    let used = outcome.rows.chunks(12).take(rows as usize);
    used.map(row_text).collect::<String>() + &sample_lines(&outcome.samples, samples)
}

/// A row's numbers on one line.
fn row_text(row: &[i64]) -> String {
    let numbers: Vec<String> = row.iter().map(i64::to_string).collect();
    numbers.join(" ") + "\n"
}

/// Samples, one a line.
fn sample_lines(samples: &[i64], count: u64) -> String {
    samples.iter().take(count as usize).map(|sample| format!("{sample}\n")).collect()
}

/// The number of an edition from a word as `1.4`, or as `1.4.1` where it is a target.
fn edition_from(word: &str) -> Option<u64> {
    match word {
        "1.3" | "1.3.1" => Some(103),
        "1.4" | "1.4.1" => Some(104),
        _ => word.parse().ok(),
    }
}

/// A question from words as `read FILE SITE ROWS SAMPLES`, with files of a folder.
pub fn question_of(words: &[&str], folder: &Path) -> Option<Question<'static>> {
    let load = |name: &str| match name {
        "-" => Some(Cow::Owned(Vec::new())),
        _ => std::fs::read(folder.join(name)).ok().map(Cow::Owned),
    };
    Some(match words {
        ["read", file, site, rows, samples] => Question::Read {
            file: load(file)?,
            site: load(site)?,
            rows_len: 12 * rows.parse::<usize>().ok()?,
            samples_len: samples.parse().ok()?,
        },
        ["restate", file, site, target, rows, samples, out] => Question::Restate {
            file: load(file)?,
            site: load(site)?,
            target: edition_from(target)?,
            lengths: [12 * rows.parse::<usize>().ok()?, samples.parse().ok()?, out.parse().ok()?],
        },
        ["definition", file, site, key] => Question::Definition {
            file: load(file)?,
            site: load(site)?,
            key: key.as_bytes().to_vec(),
        },
        ["stored", file, site, id] => {
            Question::Stored { file: load(file)?, site: load(site)?, id: id.parse().ok()? }
        }
        ["expand", stored, num, edition, room] => Question::Expand {
            stored: load(stored)?.into_owned(),
            num: num.parse().ok()?,
            edition: edition_from(edition)?,
            samples_len: room.parse().ok()?,
        },
        ["write", edition, room, samples @ ..] => Question::Write {
            samples: samples.iter().map(|word| word.parse().ok()).collect::<Option<_>>()?,
            edition: edition_from(edition)?,
            out_len: room.parse().ok()?,
        },
        _ => return None,
    })
}
