// Measuring: one call at growing sizes, each foretold from those before it.

use std::time::Instant;

/// One measured size: bytes, and seconds for one call.
#[derive(Clone, Copy)]
pub struct Measure {
    pub bytes: usize,
    pub seconds: f64,
}

impl Measure {
    /// Millions of bytes a second.
    pub fn speed(&self) -> f64 {
        self.bytes as f64 / 1e6 / self.seconds
    }

    /// The time of one byte.
    pub fn each(&self) -> f64 {
        self.seconds / self.bytes as f64
    }
}

/// What came of a size: its measure, or the seconds foretold if they are too many.
#[derive(Clone, Copy)]
pub enum Outcome {
    Measured(Measure),
    Foretold(f64),
}

impl Outcome {
    /// The measure, if there is one.
    pub fn measure(&self) -> Option<Measure> {
        match self {
            Outcome::Measured(measure) => Some(*measure),
            Outcome::Foretold(_) => None,
        }
    }

    /// A measure in words of the caller's choice, or why there is none.
    pub fn words(&self, say: impl Fn(Measure) -> String) -> String {
        match self {
            Outcome::Measured(measure) => say(*measure),
            Outcome::Foretold(seconds) => format!("not run: about {seconds:.0} s expected"),
        }
    }
}

/// How often a call is made at most, and the seconds after which it is not made again.
const MOST_CALLS: usize = 25;
const ENOUGH: f64 = 2.0;

/// How often a call is made at least, unless it has taken so many seconds.
const FEWEST_CALLS: usize = 3;
const TOO_LONG: f64 = 10.0;

/// The measures of one call so far, and the longest call that is waited for, in seconds.
pub struct Series {
    longest: f64,
    measures: Vec<Measure>,
}

impl Series {
    /// A series without a measure.
    pub fn new(longest: f64) -> Series {
        Series { longest, measures: Vec::new() }
    }

    /// What comes of a size that would take too long.
    pub fn too_long(&self, bytes: usize) -> Option<Outcome> {
        let expected = foretold(&self.measures, bytes as f64);
        (expected > self.longest).then_some(Outcome::Foretold(expected))
    }

    /// Measures a file of a size by the shortest of several calls, unless it would take too long.
    pub fn attempt(&mut self, bytes: usize, mut call: impl FnMut()) -> Outcome {
        if let Some(outcome) = self.too_long(bytes) {
            return outcome;
        }
        let start = Instant::now();
        let mut seconds = f64::MAX;
        let mut calls = 0;
        while calls < 1 || is_wanted(calls, start.elapsed().as_secs_f64()) {
            let start = Instant::now();
            call();
            seconds = seconds.min(start.elapsed().as_secs_f64());
            calls += 1;
        }
        let measure = Measure { bytes, seconds };
        self.measures.push(measure);
        Outcome::Measured(measure)
    }
}

/// Whether a call is made once more, after so many calls that took so many seconds together.
fn is_wanted(calls: usize, seconds: f64) -> bool {
    let enough = if calls < FEWEST_CALLS { TOO_LONG } else { ENOUGH };
    calls < MOST_CALLS && seconds < enough
}

/// The seconds that a size will take, if time grows on as between the last two sizes, and by the
/// square if there is only one.
fn foretold(before: &[Measure], bytes: f64) -> f64 {
    match before {
        [] => 0.0,
        [only] => only.seconds * (bytes / only.bytes as f64).powi(2),
        [.., a, b] => {
            let growth = (b.seconds / a.seconds).ln() / (b.bytes as f64 / a.bytes as f64).ln();
            b.seconds * (bytes / b.bytes as f64).powf(growth.max(1.0))
        }
    }
}
