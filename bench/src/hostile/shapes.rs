// Files of one shape with a million stored values, each of as many digits as the size asks for; and
// of many events that refer to two shapes of a million samples.

use crate::hostile::lines::head;
use crate::random::Random;
use crate::sequence::Sequence;
use std::fmt::Write;

/// The most samples that a shape has, and here the most stored values.
const MOST: usize = 1_000_000;

/// The bytes of the shortest stored value with its line's end.
const SHORTEST: usize = 4;

/// A plain shape of a 1.4 file, which a gradient refers to.
pub fn plain_shape(size: usize) -> Sequence {
    let count = MOST.min(size / SHORTEST);
    let digits = digits(size, count);
    let mut random = Random::new();
    let mut text = head();
    write!(text, "[BLOCKS]\n1 {count} 0 1 0 0 0 0\n[GRADIENTS]\n1 1000 1 0 0\n").expect("a text");
    write!(text, "[SHAPES]\nshape_id 1\nnum_samples {count}\n").expect("a text");
    for _ in 0..count {
        push_value(&mut text, "0.", digits, &mut random);
    }
    Sequence { text, rows: 3, samples: count }
}

/// A run-length shape of a 1.3 file, which a gradient refers to: in turn two single values, and two
/// pairs with a count of no further ones, so that each value is fresh or a repeat.
pub fn run_length_shape(size: usize) -> Sequence {
    let turns = MOST.min(size / SHORTEST) / 8;
    let digits = digits(size, 8 * turns);
    let mut random = Random::new();
    let mut text =
        "[VERSION]\nmajor 1\nminor 3\nrevision 1\n[BLOCKS]\n1 0 0 1 0 0 0 0\n".to_string();
    write!(text, "[GRADIENTS]\n1 1000 1 0\n[SHAPES]\nshape_id 1\n").expect("a text");
    writeln!(text, "num_samples {}", 6 * turns).expect("a text");
    for _ in 0..turns {
        let value = value(digits, &mut random);
        let [up, down] = [format!("0.{value}\n"), format!("-.{value}\n")];
        for line in [&up, &down, &up, &up, "0\n", &down, &down, "0\n"] {
            text.push_str(line);
        }
    }
    Sequence { text, rows: 3, samples: 6 * turns }
}

/// Gradients of a 1.4 file that in turn refer to two shapes of a million samples, each of which is
/// stored in three lines. Their lines are long, so that there are hints for all rows.
pub fn shared_shapes(size: usize) -> Sequence {
    let mut text = head();
    text.push_str("[BLOCKS]\n1 1000000 0 1 0 0 0 0\n[GRADIENTS]\n");
    let mut events = 0;
    while text.len() < size {
        events += 1;
        writeln!(text, "{events} 1000.0000000000000000000000 {} 0 0", 1 + events % 2).expect("a text");
    }
    text.push_str("[SHAPES]\n");
    for id in [1, 2] {
        write!(text, "shape_id {id}\nnum_samples {MOST}\n0\n0\n{}\n\n", MOST - 2).expect("a text");
    }
    Sequence { text, rows: events + 3, samples: 2 * MOST }
}

/// The digits behind the point of each stored value.
fn digits(size: usize, count: usize) -> usize {
    (size / count.max(1)).max(SHORTEST) - "0.\n".len()
}

/// Writes a stored value.
fn push_value(text: &mut String, sign: &str, digits: usize, random: &mut Random) {
    writeln!(text, "{sign}{}", value(digits, random)).expect("a text takes every line");
}

/// Digits 1 to 4, so that a value is not 0 and twice a value is below 1.
fn value(digits: usize, random: &mut Random) -> String {
    (0..digits).map(|_| char::from(b'1' + random.below(4) as u8)).collect()
}
