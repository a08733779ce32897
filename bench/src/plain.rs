// The plain reader, as it is called here, and whether it gives what the library gives.

use crate::library::{Lent, ROW};

extern "C" {
    fn plain_read(
        file: *const u8,
        length: usize,
        rows: *mut i64,
        samples: *mut f64,
        counts: *mut usize,
    );
}

/// Steps of one in the library's samples.
const STEPS: f64 = 1e12;

/// How far a sum of many doubles may lie from the exact one.
const NEAR: f64 = 1e-9;

/// The tables of the plain reader.
pub struct Plain {
    pub rows: Vec<i64>,
    pub samples: Vec<f64>,
}

impl Plain {
    /// Tables of exactly the given room, all written once.
    pub fn new(rows: usize, samples: usize) -> Plain {
        Plain { rows: vec![-1; ROW * rows], samples: vec![-1.0; samples] }
    }
}

/// Reads a text that ends with a zero byte; answers rows and samples. The tables must be large
/// enough and the text free of faults, since nothing is checked.
pub fn read(text: &[u8], plain: &mut Plain) -> [usize; 2] {
    assert_eq!(text.last(), Some(&0), "the plain reader needs a zero byte at the end");
    let mut counts = [0; 2];
    unsafe {
        plain_read(
            text.as_ptr(),
            text.len() - 1,
            plain.rows.as_mut_ptr(),
            plain.samples.as_mut_ptr(),
            counts.as_mut_ptr(),
        );
    }
    counts
}

/// Stops the program unless the two readers give the same numbers, but for the rounding of doubles.
pub fn assert_alike(plain: &Plain, lent: &Lent) {
    for (ours, theirs) in lent.rows.chunks(ROW).zip(plain.rows.chunks(ROW)) {
        let mut cell = 0;
        while cell < ROW {
            if decimals(ours[0]).contains(&cell) {
                let exact = ours[cell] as f64 * 10f64.powi(ours[cell + 1] as i32);
                let double = f64::from_bits(theirs[cell] as u64);
                let alike = (exact - double).abs() <= NEAR * exact.abs();
                assert!(alike, "{exact} and {double} in {ours:?}");
                cell += 2;
            } else {
                assert_eq!(ours[cell], theirs[cell], "number {cell} of {ours:?} and {theirs:?}");
                cell += 1;
            }
        }
    }
    for (ours, theirs) in lent.samples.iter().zip(&plain.samples) {
        assert!((*ours as f64 / STEPS - theirs).abs() <= NEAR, "samples {ours} and {theirs}");
    }
}

/// Where the decimals of a row of a kind begin.
fn decimals(kind: i64) -> &'static [usize] {
    match kind {
        2 => &[2, 8, 10],
        3 | 4 => &[2],
        5 => &[5, 7],
        _ => &[],
    }
}
