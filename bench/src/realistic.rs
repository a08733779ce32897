// Realistic files: kinds of sequences as the toolboxes write them, of about a given size.

mod compression;
mod echo_planar;
mod gradient_echo;
pub mod layout;
pub mod numbering;
mod numerals;
mod pulses;
pub mod report;
pub mod scan;
mod spin_echo;
mod spiral;

use crate::library::Edition;
use crate::sequence::{of_size, Sequence};
use scan::Scan;

/// A kind of sequence: its name, and how it is made with a number of repetitions.
pub struct Kind {
    pub name: &'static str,
    make: fn(usize) -> Scan,
}

/// All kinds.
pub const KINDS: [Kind; 4] = [
    Kind { name: "gradient-echo", make: gradient_echo::gradient_echo },
    Kind { name: "echo-planar", make: echo_planar::echo_planar },
    Kind { name: "spin-echo", make: spin_echo::spin_echo },
    Kind { name: "spiral", make: spiral::spiral },
];

impl Kind {
    /// The file of this kind in an edition that is nearest to a size in bytes.
    pub fn file(&self, edition: Edition, size: usize) -> Sequence {
        of_size(size, |repetitions| {
            layout::written(&(self.make)(repetitions), edition, numbering::Order::Ascending)
        })
    }
}
