// Shapes alone: stored values expanded into samples, and samples written as stored lines.

use super::lines::{breaks_line, fields_of, kind_of, lines_of, Kind};
use super::numbers::{decimal, decimal_text, integer, steps, whole, Decimal, ONE};
use super::{Edition, FIELD, OUTPUT, ROOM, SHAPE};

/// The largest size of a stored value, in steps.
const VALUE_MOST: i64 = 200_000 * ONE;

/// The largest size of a sample, in steps.
const SAMPLE_MOST: i64 = 100_000 * ONE;

/// Most samples of a shape, and most repeats of a count.
pub const COUNT_MOST: i64 = 1_000_000;

/// The samples of stored values, or nothing where they do not expand.
pub fn expanded(values: &[Decimal], num: usize, edition: Edition) -> Option<Vec<i64>> {
    if edition == Edition::V14 && values.len() == num {
        return values.iter().map(|&value| steps(value, SAMPLE_MOST)).collect();
    }
    let mut samples = Vec::new();
    let mut sum = 0;
    let mut at = 0;
    while at < values.len() {
        let difference = steps(values[at], VALUE_MOST)?;
        let mut times = 1;
        if values.get(at + 1) == Some(&values[at]) {
            times = 2 + whole(*values.get(at + 2)?, 0, 0, COUNT_MOST)? as usize;
        }
        at += if times == 1 { 1 } else { 3 };
        if samples.len() + times > num {
            return None;
        }
        for _ in 0..times {
            sum += difference;
            if sum.abs() > SAMPLE_MOST {
                return None;
            }
            samples.push(sum);
        }
    }
    (samples.len() == num).then_some(samples)
}

/// Expands stored lines alone, or answers the number of the refusal.
pub fn expand(stored: &[u8], num: u64, edition: Edition, room: usize) -> Result<Vec<i64>, u64> {
    let values = stored_values(stored).ok_or(FIELD)?;
    if num < 1 || num > COUNT_MOST as u64 {
        return Err(FIELD);
    }
    let samples = expanded(&values, num as usize, edition).ok_or(SHAPE)?;
    if samples.len() > room {
        return Err(ROOM);
    }
    Ok(samples)
}

/// The values of stored lines, if every line is a comment or one decimal.
fn stored_values(stored: &[u8]) -> Option<Vec<Decimal>> {
    let mut values = Vec::new();
    for line in lines_of(stored) {
        if breaks_line(line.content) {
            return None;
        }
        match kind_of(line.content) {
            Kind::Comment => {}
            Kind::Other => values.push(value_of(line.content)?),
            _ => return None,
        }
    }
    Some(values)
}

/// The one decimal of a stored line.
pub fn value_of(content: &[u8]) -> Option<Decimal> {
    match fields_of(content)[..] {
        [field] => decimal(field),
        _ => None,
    }
}

/// The number behind a word, on a line of these two fields.
pub fn headed(content: &[u8], word: &[u8], most: i64) -> Option<i64> {
    match fields_of(content)[..] {
        [first, number] if first == word => integer(number, 1, most),
        _ => None,
    }
}

/// Writes samples as stored lines, or answers the number of the refusal.
pub fn write(samples: &[i64], edition: Edition, room: usize) -> Result<Vec<u8>, u64> {
    let beyond = |sample: &i64| !(-SAMPLE_MOST..=SAMPLE_MOST).contains(sample);
    if samples.is_empty() || samples.len() > COUNT_MOST as usize || samples.iter().any(beyond) {
        return Err(SHAPE);
    }
    let text = stored_text(samples, edition);
    if text.len() > room || text.len() > 1 << 24 {
        return Err(OUTPUT);
    }
    Ok(text)
}

/// The stored lines of samples: for 1.4 the plain samples, unless run-length differences are fewer
/// values; for 1.3 never plain.
pub fn stored_text(samples: &[i64], edition: Edition) -> Vec<u8> {
    let mut values = run_length(samples);
    if edition == Edition::V14 && values.len() >= samples.len() {
        values = samples.iter().map(|&sample| sample_text(sample)).collect();
    }
    let mut text = Vec::new();
    for value in values {
        text.extend_from_slice(value.as_bytes());
        text.push(b'\n');
    }
    text
}

/// The run-length differences of samples, as texts.
fn run_length(samples: &[i64]) -> Vec<String> {
    let before = |at: usize| if at == 0 { 0 } else { samples[at - 1] };
    let differences: Vec<i64> = (0..samples.len()).map(|at| samples[at] - before(at)).collect();
    let mut values = Vec::new();
    for run in differences.chunk_by(|a, b| a == b) {
        values.push(sample_text(run[0]));
        if run.len() >= 2 {
            values.push(sample_text(run[0]));
            values.push((run.len() - 2).to_string());
        }
    }
    values
}

/// A number of steps of 10^-12 as a decimal without trailing zeros.
fn sample_text(steps: i64) -> String {
    let mut mantissa = steps;
    let mut exponent = -12;
    while mantissa != 0 && mantissa % 10 == 0 {
        mantissa /= 10;
        exponent += 1;
    }
    match mantissa {
        0 => decimal_text(0, 0),
        _ => decimal_text(mantissa, exponent),
    }
}
