// Files on disk: one that is made here is written, or one is read once, for a profiler.

use crate::library::{read, Edition, Lent};
use crate::sequence::Sequence;
use crate::{hostile, realistic};

/// The most samples of a shape, and the most for which room is made.
const SHAPE: usize = 1_000_000;
const MOST_SAMPLES: usize = 50_000_000;

/// Writes a file of a kind or a hostile case, in an edition, of about a size in bytes.
pub fn write(kind: &str, edition: &str, size: &str, path: &str) -> Result<(), String> {
    let number = match edition {
        "1.3" => Edition::V13,
        "1.4" => Edition::V14,
        _ => return Err(format!("{edition} is neither 1.3 nor 1.4")),
    };
    let size = size.parse().map_err(|_| format!("{size} is no size in bytes"))?;
    let file = made(kind, number, size).ok_or(format!("there is no {kind} in {edition}"))?;
    std::fs::write(path, &file.text).map_err(|error| format!("{path}: {error}"))?;
    let Sequence { text, rows, samples } = file;
    println!("{path}: {} bytes, {rows} rows, {samples} samples", text.len());
    Ok(())
}

/// The file of a kind or a case, if there is one in the edition.
fn made(name: &str, edition: Edition, size: usize) -> Option<Sequence> {
    let kind = realistic::KINDS.iter().find(|kind| kind.name == name);
    let case = hostile::CASES.iter().find(|case| case.name == name && case.edition == edition);
    match (kind, case) {
        (Some(kind), _) => Some(kind.file(edition, size)),
        (None, Some(case)) => Some((case.make)(size)),
        (None, None) => None,
    }
}

/// Reads a file once, and prints the answer.
pub fn once(path: &str) -> Result<(), String> {
    let text = std::fs::read(path).map_err(|error| format!("{path}: {error}"))?;
    let [rows, samples] = room(&text);
    let answer = read(&text, &mut Lent::new(rows, samples, 0));
    println!(
        "number {}, line {}, {} rows, {} samples",
        answer.number, answer.line, answer.rows, answer.samples
    );
    Ok(())
}

/// Rows and samples that a text has at most, if no shape is too long.
fn room(text: &[u8]) -> [usize; 2] {
    let [mut rows, mut samples, mut in_shapes] = [0, 0, 0];
    for line in text.split(|byte| *byte == b'\n') {
        let line = line.trim_ascii();
        if line.starts_with(b"[") {
            in_shapes = usize::from(line == b"[SHAPES]");
        } else if in_shapes == 0 || line.starts_with(b"shape_id") {
            rows += usize::from(!line.is_empty() && !line.starts_with(b"#"));
        } else if let Some(count) = line.strip_prefix(b"num_samples") {
            let count = std::str::from_utf8(count).ok().and_then(|word| word.trim().parse().ok());
            samples += SHAPE.min(count.unwrap_or(0));
        }
    }
    [rows, samples.min(MOST_SAMPLES)]
}
