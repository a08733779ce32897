// How fast the library reads and restates files that are made here, beside a plain reader in C.
// Modes:
//   realistic    files as toolboxes write them: MB/s at growing sizes, and ratios to the plain reader
//   hostile      files that would take long if reading were careless: seconds, and their growth
//   (no word)    both, one after the other
//   stack        how much of the stack the deepest inputs use
//   write KIND EDITION SIZE FILE    writes a file of a kind or a hostile case to disk
//   once FILE    reads a file once and prints the answer, for a profiler
// A call that is expected to take longer than BENCH_LONGEST seconds, or else 60, is not made.

mod depths;
mod disk;
mod hostile;
mod library;
mod measure;
mod plain;
mod random;
mod realistic;
mod sequence;
mod stack;
mod tables;

use std::process::ExitCode;

/// The longest call that is waited for, in seconds, if nothing else is said.
const LONGEST: f64 = 60.0;

/// What the modes are called with.
const USAGE: &str = "[realistic | hostile | stack | write KIND 1.3|1.4 SIZE FILE | once FILE]";

/// Runs a mode; the status is 2 if the words or the file are wrong.
fn main() -> ExitCode {
    let words: Vec<String> = std::env::args().skip(1).collect();
    let words: Vec<&str> = words.iter().map(String::as_str).collect();
    match ran(&words) {
        Ok(()) => ExitCode::SUCCESS,
        Err(words) => {
            eprintln!("{words}");
            ExitCode::from(2)
        }
    }
}

/// Runs the mode that the words name, or answers what is wrong with them.
fn ran(words: &[&str]) -> Result<(), String> {
    match *words {
        [] => {
            realistic::report::run(longest());
            hostile::report::run(longest());
        }
        ["realistic"] => realistic::report::run(longest()),
        ["hostile"] => hostile::report::run(longest()),
        ["stack"] => depths::run(),
        ["write", kind, edition, size, path] => return disk::write(kind, edition, size, path),
        ["once", path] => return disk::once(path),
        _ => return Err(USAGE.to_string()),
    }
    Ok(())
}

/// The longest call that is waited for, in seconds.
fn longest() -> f64 {
    let named = std::env::var("BENCH_LONGEST").ok();
    named.and_then(|seconds| seconds.parse().ok()).unwrap_or(LONGEST)
}
