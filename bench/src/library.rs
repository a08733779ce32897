// The library's functions, as they are called here: what is lent, and what is answered.

#[rustfmt::skip]
extern "C" {
    fn pulseq_read(file: *const u8, file_len: usize, site: *const u8, site_len: usize, rows: *mut i64, rows_len: usize, samples: *mut i64, samples_len: usize, answer: *mut u64, answer_len: usize);
    fn pulseq_restate(file: *const u8, file_len: usize, site: *const u8, site_len: usize, target: u64, rows: *mut i64, rows_len: usize, samples: *mut i64, samples_len: usize, out: *mut u8, out_len: usize, answer: *mut u64, answer_len: usize);
}

/// Numbers of one row.
pub const ROW: usize = 12;

/// The longest text that restating gives.
pub const LONGEST_TEXT: usize = 1 << 24;

/// The site's text: all four rasters, so that files of both editions can be said in both.
const SITE: &[u8] = b"GradientRasterTime 1e-05\nRadiofrequencyRasterTime 1e-06\n\
AdcRasterTime 1e-07\nBlockDurationRaster 1e-05\n";

/// The two editions, each with the number that the library has for it.
#[derive(Clone, Copy, PartialEq, Eq)]
pub enum Edition {
    V13 = 103,
    V14 = 104,
}

/// What is lent to a call: rows, samples and an output.
pub struct Lent {
    pub rows: Vec<i64>,
    pub samples: Vec<i64>,
    pub out: Vec<u8>,
}

impl Lent {
    /// Tables of exactly the given room and an output, all written once, so that no page of them
    /// is new to the call.
    pub fn new(rows: usize, samples: usize, out: usize) -> Lent {
        Lent { rows: vec![-1; ROW * rows], samples: vec![-1; samples], out: vec![0xff; out] }
    }
}

/// What a call answers; `length` is of the restated text, 0 for reading.
#[derive(Clone, Copy, Debug, PartialEq, Eq)]
pub struct Answer {
    pub number: u64,
    pub line: u64,
    pub rows: usize,
    pub samples: usize,
    pub length: usize,
}

impl Answer {
    /// The answer that the library wrote.
    fn from(numbers: [u64; 5]) -> Answer {
        let [number, line, rows, samples, length] = numbers;
        let [rows, samples, length] = [rows as usize, samples as usize, length as usize];
        Answer { number, line, rows, samples, length }
    }
}

/// Reads a file.
#[rustfmt::skip]
pub fn read(file: &[u8], lent: &mut Lent) -> Answer {
    let Lent { rows, samples, .. } = lent;
    let mut answer = [0; 5];
    unsafe {
        pulseq_read(
            file.as_ptr(), file.len(), SITE.as_ptr(), SITE.len(),
            rows.as_mut_ptr(), rows.len(), samples.as_mut_ptr(), samples.len(),
            answer.as_mut_ptr(), answer.len(),
        );
    }
    Answer::from(answer)
}

/// Reads a file and writes it anew in an edition.
#[rustfmt::skip]
pub fn restate(file: &[u8], target: Edition, lent: &mut Lent) -> Answer {
    let Lent { rows, samples, out } = lent;
    let mut answer = [0; 5];
    unsafe {
        pulseq_restate(
            file.as_ptr(), file.len(), SITE.as_ptr(), SITE.len(), target as u64,
            rows.as_mut_ptr(), rows.len(), samples.as_mut_ptr(), samples.len(),
            out.as_mut_ptr(), out.len(), answer.as_mut_ptr(), answer.len(),
        );
    }
    Answer::from(answer)
}
