// Numbers written in the many forms that a file may use, and stored values of shapes.

use crate::random::Random;

/// One, in steps of 10^-12.
pub const ONE: i64 = 1_000_000_000_000;

/// An integer, now and then with leading zeros.
pub fn integer(random: &mut Random, value: i64) -> String {
    match random.below(40) {
        0 => format!("{value:010}"),
        1 => format!("{value:03}"),
        _ => value.to_string(),
    }
}

/// A whole number as a decimal of any form.
pub fn whole(random: &mut Random, value: i64) -> String {
    match random.below(12) {
        0 => format!("{value}."),
        1 => format!("{value}.0"),
        2 => format!("+{value}"),
        3 => format!("{value}0e-1"),
        4 => format!("{value}E0"),
        5 => scaled(random, value, 0),
        _ => value.to_string(),
    }
}

/// A value times a power of ten, with the point moved about.
pub fn scaled(random: &mut Random, value: i64, power: i64) -> String {
    let digits = value.unsigned_abs().to_string();
    let sign = if value < 0 {
        "-"
    } else if random.once_in(15) {
        "+"
    } else {
        ""
    };
    let places = random.below(digits.len() + 2).min(8);
    let padded = format!("{digits:0>width$}", width = places + random.below(2));
    let (front, back) = padded.split_at(padded.len() - places);
    let point = if places > 0 || random.once_in(10) { "." } else { "" };
    let exponent = power + places as i64;
    let letter = if random.once_in(4) { "E" } else { "e" };
    let tail = match random.below(4) {
        _ if exponent == 0 && !random.once_in(8) => String::new(),
        0 if exponent >= 0 => format!("{letter}+{exponent}"),
        1 if exponent >= 0 => format!("{letter}{exponent:02}"),
        1 => format!("{letter}-{:02}", -exponent),
        _ => format!("{letter}{exponent}"),
    };
    let front = if front.is_empty() && back.is_empty() { "0" } else { front };
    format!("{sign}{front}{point}{back}{tail}")
}

/// Seconds worth a number of nanoseconds.
pub fn seconds(random: &mut Random, ns: i64) -> String {
    match random.below(4) {
        0 => {
            let text = format!("{}.{:09}", ns / 1_000_000_000, ns % 1_000_000_000);
            text.trim_end_matches('0').to_string()
        }
        1 => format!("{ns}e-9"),
        2 => format!("{ns}000E-12"),
        _ => scaled(random, ns, -9),
    }
}

/// A stored value: steps of 10^-12, and what is behind them and rounds away.
#[derive(Clone, Copy, PartialEq)]
pub struct Value {
    pub steps: i64,
    pub noise: u8,
}

/// The text of a stored value.
pub fn value_text(random: &mut Random, value: Value) -> String {
    let steps = value.steps;
    let sign = if steps < 0 { "-" } else { "" };
    let (size, tail) = match value.noise {
        1 => (steps.abs(), "4"),
        2 => (steps.abs(), "49"),
        3 if steps != 0 => (steps.abs() - 1, "5"),
        4 if steps != 0 => (steps.abs() - 1, "73"),
        _ => return exact_text(random, steps),
    };
    format!("{sign}{}.{:012}{tail}", size / ONE, size % ONE)
}

/// The text of whole steps.
fn exact_text(random: &mut Random, steps: i64) -> String {
    let mut mantissa = steps;
    let mut exponent = -12;
    while mantissa != 0 && mantissa % 10 == 0 {
        mantissa /= 10;
        exponent += 1;
    }
    match (mantissa, random.below(3)) {
        (0, 0) => random.pick(&["0.0", "-0", "0e5", "+0.", ".0", "00"]).to_string(),
        (0, _) => "0".to_string(),
        (_, 0) => scaled(random, mantissa, exponent),
        (_, 1) if exponent <= 0 && mantissa.abs() < 100_000_000 => fixed(steps),
        _ if exponent == 0 => mantissa.to_string(),
        _ => format!("{mantissa}e{exponent}"),
    }
}

/// Steps in plain notation without trailing zeros.
fn fixed(steps: i64) -> String {
    let sign = if steps < 0 { "-" } else { "" };
    let size = steps.abs();
    let text = format!("{sign}{}.{:012}", size / ONE, size % ONE);
    text.trim_end_matches('0').trim_end_matches('.').to_string()
}

/// Values as run-length texts: each run in one piece, or in pieces.
pub fn run_texts(random: &mut Random, values: &[Value]) -> Vec<String> {
    let mut texts = Vec::new();
    for run in values.chunk_by(|a, b| a == b) {
        let mut left = run.len();
        while left > 0 {
            let split = left > 4 && random.once_in(6);
            let piece = if split { 2 + random.below(left - 2) } else { left };
            texts.push(value_text(random, run[0]));
            if piece > 1 {
                texts.push(value_text(random, run[0]));
                texts.push(whole(random, piece as i64 - 2));
            }
            left -= piece;
        }
    }
    texts
}
