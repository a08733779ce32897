// IDs of a sequence's rows: in what order they come in their sections.

use crate::random::Random;
use crate::realistic::scan::Scan;

/// The order of IDs in each section.
#[derive(Clone, Copy)]
pub enum Order {
    /// 1, 2, 3 and so on.
    Ascending,
    /// Down to 1.
    Descending,
    /// All from 1 on, shuffled.
    Shuffled,
    /// Shuffled, and strewn over all IDs that there are.
    Scattered,
}

/// The greatest ID.
const GREATEST: usize = 2_147_483_647;

/// IDs of one class, by place from 1; place 0, which is none, has ID 0.
pub struct Ids(Vec<usize>);

impl Ids {
    /// IDs for a number of rows.
    pub fn new(order: Order, count: usize, random: &mut Random) -> Ids {
        let mut ids: Vec<usize> = (1..=count).collect();
        match order {
            Order::Ascending => {}
            Order::Descending => ids.reverse(),
            Order::Shuffled => random.shuffle(&mut ids),
            Order::Scattered => {
                random.shuffle(&mut ids);
                let gap = GREATEST / count.max(1);
                ids.iter_mut().for_each(|id| *id = *id * gap - random.below(gap));
            }
        }
        ids.insert(0, 0);
        Ids(ids)
    }

    /// The ID of a place.
    pub fn of(&self, place: usize) -> usize {
        self.0[place]
    }
}

/// IDs of all classes.
pub struct Numbering {
    pub blocks: Ids,
    pub pulses: Ids,
    pub gradients: Ids,
    pub readouts: Ids,
    pub delays: Ids,
    pub entries: Ids,
    pub sets: Ids,
    pub increments: Ids,
    pub shapes: Ids,
}

impl Numbering {
    /// IDs for a sequence with a number of delays, in an order.
    pub fn new(order: Order, scan: &Scan, delays: usize) -> Numbering {
        let random = &mut Random::new();
        let mut ids = |count| Ids::new(order, count, random);
        Numbering {
            blocks: ids(scan.blocks.len()),
            pulses: ids(scan.pulses.len()),
            gradients: ids(scan.gradients.len()),
            readouts: ids(scan.readouts.len()),
            delays: ids(delays),
            entries: ids(scan.entries.len()),
            sets: ids(scan.sets.len()),
            increments: ids(scan.increments.len()),
            shapes: ids(scan.shapes.len()),
        }
    }
}
