// Files whose IDs come in an unusual order, in every section. Each unit adds rows to every section,
// and its blocks refer to events of any unit.

use crate::library::Edition;
use crate::random::Random;
use crate::realistic::layout::written;
use crate::realistic::numbering::Order;
use crate::realistic::scan::Labeling::{Increment, Set};
use crate::realistic::scan::{Block, Gradient, Pulse, Readout, Scan};
use crate::sequence::{of_size, Sequence};

/// Blocks of a unit.
const BLOCKS: usize = 4;

/// IDs that descend in each section.
pub fn descending(size: usize) -> Sequence {
    of_size(size, |units| written(&mixed(units), Edition::V14, Order::Descending))
}

/// IDs from 1 on in a random order in each section.
pub fn shuffled(size: usize) -> Sequence {
    of_size(size, |units| written(&mixed(units), Edition::V14, Order::Shuffled))
}

/// IDs in a random order in each section, strewn over all that there are.
pub fn scattered(size: usize) -> Sequence {
    of_size(size, |units| written(&mixed(units), Edition::V14, Order::Scattered))
}

/// A sequence of a number of units.
fn mixed(units: usize) -> Scan {
    let mut scan = Scan::named("mixed");
    let mut random = Random::new();
    for unit in 0..units {
        let shape = scan.shape(vec![0.25, 0.5, 0.75, 1.0]);
        let [amplitude, frequency, phase] = [1000.0 + (unit % 9973) as f64, 0.0, 0.5];
        let [magnitude, phase_shape, delay] = [shape, 1 + random.below(shape), 100];
        scan.pulse(Pulse { amplitude, magnitude, phase_shape, delay, frequency, phase });
        scan.gradient(Gradient::Arbitrary { amplitude, shape, delay });
        scan.trap(-amplitude, 10, 100);
        scan.readout(Readout { count: 10, dwell: 1000, delay, frequency, phase });
        scan.chain(&[(Set, ("LIN", unit as i64)), (Increment, ("LIN", unit as i64))]);
    }
    for _ in 0..BLOCKS * units {
        let mut any = |count: usize| 1 + random.below(count);
        let gradients = [0; 3].map(|_| any(2 * units));
        let [pulse, readout, entry] = [any(units), any(units), any(2 * units)];
        scan.blocks.push(Block { delay: 0, pulse, gradients, readout, entry });
    }
    scan
}
