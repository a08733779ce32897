// A file made here, and how one of a given size is found.

/// A file's text, and how many rows and samples it has.
pub struct Sequence {
    pub text: String,
    pub rows: usize,
    pub samples: usize,
}

/// How often a file is made anew to come nearer to a size.
const TRIES: usize = 8;

/// A file near to a size in bytes, among those of a number of repetitions from 1 on.
pub fn of_size(size: usize, make: impl Fn(usize) -> Sequence) -> Sequence {
    let mut best = make(1);
    let head = best.text.len();
    let mut repetitions = 2;
    for _ in 0..TRIES {
        let next = make(repetitions);
        let length = next.text.len();
        if length.abs_diff(size) < best.text.len().abs_diff(size) {
            best = next;
        }
        let each = (length - head) as f64 / (repetitions - 1) as f64;
        let wanted = 1 + (size.saturating_sub(head) as f64 / each).round() as usize;
        if wanted == repetitions || wanted == 1 || length.abs_diff(size) < size / 200 {
            break;
        }
        repetitions = wanted;
    }
    best
}
