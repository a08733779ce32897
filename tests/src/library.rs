// The library's functions, and a safe way to call them: each lent slice is filled with garbage
// before the call, and has guards before and behind it that must hold afterwards.

use crate::questions::{Outcome, Question};

#[rustfmt::skip]
extern "C" {
    fn pulseq_read(file: *const u8, file_len: usize, site: *const u8, site_len: usize, rows: *mut i64, rows_len: usize, samples: *mut i64, samples_len: usize, answer: *mut u64, answer_len: usize);
    fn pulseq_restate(file: *const u8, file_len: usize, site: *const u8, site_len: usize, target: u64, rows: *mut i64, rows_len: usize, samples: *mut i64, samples_len: usize, out: *mut u8, out_len: usize, answer: *mut u64, answer_len: usize);
    fn pulseq_expand(stored: *const u8, stored_len: usize, num: u64, edition: u64, samples: *mut i64, samples_len: usize, answer: *mut u64, answer_len: usize);
    fn pulseq_write(samples: *const i64, samples_len: usize, edition: u64, out: *mut u8, out_len: usize, answer: *mut u64, answer_len: usize);
    fn pulseq_definition(file: *const u8, file_len: usize, site: *const u8, site_len: usize, key: *const u8, key_len: usize, answer: *mut u64, answer_len: usize);
    fn pulseq_stored(file: *const u8, file_len: usize, site: *const u8, site_len: usize, id: i64, answer: *mut u64, answer_len: usize);
}

/// How many guards stand before a lent slice, and behind it.
const GUARDS: usize = 8;

/// A lent slice between guards.
struct Lent<T> {
    all: Vec<T>,
    guard: T,
}

impl<T: Copy + PartialEq> Lent<T> {
    /// A slice of garbage between guards.
    fn new(length: usize, guard: T, garbage: T) -> Lent<T> {
        let mut all = vec![garbage; length + 2 * GUARDS];
        all[..GUARDS].fill(guard);
        all[length + GUARDS..].fill(guard);
        Lent { all, guard }
    }

    /// The slice that is lent.
    fn lent(&mut self) -> &mut [T] {
        let end = self.all.len() - GUARDS;
        &mut self.all[GUARDS..end]
    }

    /// What the slice holds, if all guards hold.
    fn back(mut self, name: &str) -> Result<Vec<T>, String> {
        let end = self.all.len() - GUARDS;
        let mut guards = self.all[..GUARDS].iter().chain(&self.all[end..]);
        if guards.any(|guard| *guard != self.guard) {
            return Err(format!("a number was written outside {name}"));
        }
        Ok(self.lent().to_vec())
    }
}

/// A lent table of signed numbers.
fn table(length: usize) -> Lent<i64> {
    Lent::new(length, 0x5a5a_5a5a_5a5a_5a5a, -7_777_777_777)
}

/// A lent output.
fn output(length: usize) -> Lent<u8> {
    Lent::new(length, 0x5a, 0xee)
}

/// A lent slice for the answer.
fn answers(length: usize) -> Lent<u64> {
    Lent::new(length, 0xa5a5_a5a5_a5a5_a5a5, 0xdead_beef_dead_beef)
}

/// What the library answers, with an answer of a length.
pub fn ask(question: &Question, answer_len: usize) -> Result<Outcome, String> {
    match question {
        Question::Read { file, site, rows_len, samples_len } => {
            read(file, site, *rows_len, *samples_len, answer_len)
        }
        Question::Restate { file, site, target, lengths } => {
            restate(file, site, *target, *lengths, answer_len)
        }
        Question::Expand { stored, num, edition, samples_len } => {
            expand(stored, *num, *edition, *samples_len, answer_len)
        }
        Question::Write { samples, edition, out_len } => {
            write(samples, *edition, *out_len, answer_len)
        }
        Question::Definition { file, site, key } => definition(file, site, key, answer_len),
        Question::Stored { file, site, id } => stored(file, site, *id, answer_len),
    }
}

/// Calls `pulseq_read`.
#[rustfmt::skip]
fn read(file: &[u8], site: &[u8], rows_len: usize, samples_len: usize, answer_len: usize) -> Result<Outcome, String> {
    let mut rows = table(rows_len);
    let mut samples = table(samples_len);
    let mut answer = answers(answer_len);
    unsafe {
        pulseq_read(
            file.as_ptr(), file.len(), site.as_ptr(), site.len(),
            rows.lent().as_mut_ptr(), rows_len, samples.lent().as_mut_ptr(), samples_len,
            answer.lent().as_mut_ptr(), answer_len,
        );
    }
    let [rows, samples] = [rows.back("rows")?, samples.back("samples")?];
    Ok(Outcome { answer: answer.back("answer")?, rows, samples, ..Outcome::default() })
}

/// Calls `pulseq_restate`.
#[rustfmt::skip]
fn restate(file: &[u8], site: &[u8], target: u64, lengths: [usize; 3], answer_len: usize) -> Result<Outcome, String> {
    let [rows_len, samples_len, out_len] = lengths;
    let mut rows = table(rows_len);
    let mut samples = table(samples_len);
    let mut out = output(out_len);
    let mut answer = answers(answer_len);
    unsafe {
        pulseq_restate(
            file.as_ptr(), file.len(), site.as_ptr(), site.len(), target,
            rows.lent().as_mut_ptr(), rows_len, samples.lent().as_mut_ptr(), samples_len,
            out.lent().as_mut_ptr(), out_len, answer.lent().as_mut_ptr(), answer_len,
        );
    }
    let [rows, samples] = [rows.back("rows")?, samples.back("samples")?];
    Ok(Outcome { answer: answer.back("answer")?, rows, samples, out: out.back("out")? })
}

/// Calls `pulseq_expand`.
#[rustfmt::skip]
fn expand(stored: &[u8], num: u64, edition: u64, samples_len: usize, answer_len: usize) -> Result<Outcome, String> {
    let mut samples = table(samples_len);
    let mut answer = answers(answer_len);
    unsafe {
        pulseq_expand(
            stored.as_ptr(), stored.len(), num, edition,
            samples.lent().as_mut_ptr(), samples_len, answer.lent().as_mut_ptr(), answer_len,
        );
    }
    let samples = samples.back("samples")?;
    Ok(Outcome { answer: answer.back("answer")?, samples, ..Outcome::default() })
}

/// Calls `pulseq_write`.
#[rustfmt::skip]
fn write(samples: &[i64], edition: u64, out_len: usize, answer_len: usize) -> Result<Outcome, String> {
    let mut out = output(out_len);
    let mut answer = answers(answer_len);
    unsafe {
        pulseq_write(
            samples.as_ptr(), samples.len(), edition,
            out.lent().as_mut_ptr(), out_len, answer.lent().as_mut_ptr(), answer_len,
        );
    }
    let out = out.back("out")?;
    Ok(Outcome { answer: answer.back("answer")?, out, ..Outcome::default() })
}

/// Calls `pulseq_definition`.
#[rustfmt::skip]
fn definition(file: &[u8], site: &[u8], key: &[u8], answer_len: usize) -> Result<Outcome, String> {
    let mut answer = answers(answer_len);
    unsafe {
        pulseq_definition(
            file.as_ptr(), file.len(), site.as_ptr(), site.len(), key.as_ptr(), key.len(),
            answer.lent().as_mut_ptr(), answer_len,
        );
    }
    Ok(Outcome { answer: answer.back("answer")?, ..Outcome::default() })
}

/// Calls `pulseq_stored`.
#[rustfmt::skip]
fn stored(file: &[u8], site: &[u8], id: i64, answer_len: usize) -> Result<Outcome, String> {
    let mut answer = answers(answer_len);
    unsafe {
        pulseq_stored(
            file.as_ptr(), file.len(), site.as_ptr(), site.len(), id,
            answer.lent().as_mut_ptr(), answer_len,
        );
    }
    Ok(Outcome { answer: answer.back("answer")?, ..Outcome::default() })
}
