// Hostile files: those that would take long if reading took more than a look or so at each row.

pub mod chains;
mod lines;
mod orders;
pub mod report;
pub mod shapes;

use crate::library::Edition;
use crate::sequence::Sequence;

/// What a file is answered; all answers here give line 0.
#[derive(Clone, Copy)]
pub enum Verdict {
    Accepted = 0,
    Missing = 6,
}

impl Verdict {
    /// The answer's name.
    pub fn name(self) -> &'static str {
        match self {
            Verdict::Accepted => "ACCEPTED",
            Verdict::Missing => "MISSING",
        }
    }
}

/// A case: its name, its edition, what it is answered, and how it is made of about a size in bytes.
pub struct Case {
    pub name: &'static str,
    pub edition: Edition,
    pub verdict: Verdict,
    pub make: fn(usize) -> Sequence,
}

/// A case that is accepted.
const fn accepted(name: &'static str, edition: Edition, make: fn(usize) -> Sequence) -> Case {
    Case { name, edition, verdict: Verdict::Accepted, make }
}

/// A 1.4 case without a block.
const fn missing(name: &'static str, make: fn(usize) -> Sequence) -> Case {
    Case { name, edition: Edition::V14, verdict: Verdict::Missing, make }
}

/// All cases.
pub const CASES: [Case; 11] = [
    accepted("descending-ids", Edition::V14, orders::descending),
    accepted("shuffled-ids", Edition::V14, orders::shuffled),
    accepted("scattered-ids", Edition::V14, orders::scattered),
    accepted("definition-keys", Edition::V14, lines::keys),
    missing("comments", lines::comments),
    missing("blank-lines", lines::blank_lines),
    accepted("plain-shape", Edition::V14, shapes::plain_shape),
    accepted("run-length-shape", Edition::V13, shapes::run_length_shape),
    accepted("shared-shapes", Edition::V14, shapes::shared_shapes),
    accepted("chains", Edition::V14, chains::chains),
    accepted("long-lines", Edition::V14, lines::long_lines),
];
