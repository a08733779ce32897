// A sequence before it is written: blocks, events, labels and shapes, each numbered from 1 in the
// order in which the toolboxes meet it. A reference of 0 is none.

use std::collections::HashMap;

/// The gradient raster, in us; that of RF events is 1 us.
const GRADIENT_RASTER: usize = 10;

/// A block: the events that play together, and a delay in us that it lasts at least, or 0.
#[derive(Clone, Copy, Default)]
pub struct Block {
    pub delay: usize,
    pub pulse: usize,
    pub gradients: [usize; 3],
    pub readout: usize,
    pub entry: usize,
}

/// An RF event; the delay in us.
pub struct Pulse {
    pub amplitude: f64,
    pub magnitude: usize,
    pub phase_shape: usize,
    pub delay: usize,
    pub frequency: f64,
    pub phase: f64,
}

/// A gradient of either section; both sections share one numbering. Times in us.
pub enum Gradient {
    Arbitrary { amplitude: f64, shape: usize, delay: usize },
    Trap { amplitude: f64, rise: usize, flat: usize, fall: usize, delay: usize },
}

/// An ADC event; dwell in ns, the delay in us.
pub struct Readout {
    pub count: usize,
    pub dwell: usize,
    pub delay: usize,
    pub frequency: f64,
    pub phase: f64,
}

/// The two label extensions, with the types that they have in all files made here.
#[derive(Clone, Copy, PartialEq, Eq, Hash)]
pub enum Labeling {
    Set = 1,
    Increment = 2,
}

/// A label that is set to a value or incremented by it.
pub type Label = (&'static str, i64);

/// An entry of the extension table.
#[derive(Clone, Copy, PartialEq, Eq, Hash)]
pub struct Entry {
    pub labeling: Labeling,
    pub label: usize,
    pub next: usize,
}

/// A whole sequence.
#[derive(Default)]
pub struct Scan {
    pub name: &'static str,
    pub blocks: Vec<Block>,
    pub pulses: Vec<Pulse>,
    pub gradients: Vec<Gradient>,
    pub readouts: Vec<Readout>,
    pub entries: Vec<Entry>,
    pub sets: Vec<Label>,
    pub increments: Vec<Label>,
    pub shapes: Vec<Vec<f64>>,
    known_entries: HashMap<Entry, usize>,
    known_labels: HashMap<(Labeling, Label), usize>,
}

impl Scan {
    /// A sequence with a name and nothing in it.
    pub fn named(name: &'static str) -> Scan {
        Scan { name, ..Scan::default() }
    }

    /// Adds a shape, and answers its ID.
    pub fn shape(&mut self, samples: Vec<f64>) -> usize {
        self.shapes.push(samples);
        self.shapes.len()
    }

    /// Adds an RF event, and answers its ID.
    pub fn pulse(&mut self, pulse: Pulse) -> usize {
        self.pulses.push(pulse);
        self.pulses.len()
    }

    /// Adds a gradient, and answers its ID.
    pub fn gradient(&mut self, gradient: Gradient) -> usize {
        self.gradients.push(gradient);
        self.gradients.len()
    }

    /// Adds a trapezoid whose ramps are alike, without a delay, and answers its ID.
    pub fn trap(&mut self, amplitude: f64, ramp: usize, flat: usize) -> usize {
        self.gradient(Gradient::Trap { amplitude, rise: ramp, flat, fall: ramp, delay: 0 })
    }

    /// Adds an ADC event, and answers its ID.
    pub fn readout(&mut self, readout: Readout) -> usize {
        self.readouts.push(readout);
        self.readouts.len()
    }

    /// The first entry of a chain that does what is listed; what is known already is used again,
    /// as the toolboxes do it.
    pub fn chain(&mut self, labels: &[(Labeling, Label)]) -> usize {
        labels.iter().rev().fold(0, |next, &(labeling, label)| {
            let label = self.label(labeling, label);
            self.entry(Entry { labeling, label, next })
        })
    }

    /// The ID of a label row, which is added if it is new.
    fn label(&mut self, labeling: Labeling, label: Label) -> usize {
        let rows = match labeling {
            Labeling::Set => &mut self.sets,
            Labeling::Increment => &mut self.increments,
        };
        *self.known_labels.entry((labeling, label)).or_insert_with(|| {
            rows.push(label);
            rows.len()
        })
    }

    /// The ID of an entry, which is added if it is new.
    fn entry(&mut self, entry: Entry) -> usize {
        *self.known_entries.entry(entry).or_insert_with(|| {
            self.entries.push(entry);
            self.entries.len()
        })
    }

    /// How long a block lasts in us: as long as its longest event, or its delay.
    pub fn length(&self, block: &Block) -> usize {
        let mut longest = block.delay;
        if let Some(pulse) = block.pulse.checked_sub(1).map(|place| &self.pulses[place]) {
            longest = longest.max(pulse.delay + self.shapes[pulse.magnitude - 1].len());
        }
        for gradient in block.gradients.into_iter().filter(|id| *id != 0) {
            longest = longest.max(self.gradient_length(&self.gradients[gradient - 1]));
        }
        if let Some(readout) = block.readout.checked_sub(1).map(|place| &self.readouts[place]) {
            longest = longest.max(readout.delay + (readout.count * readout.dwell).div_ceil(1000));
        }
        longest
    }

    /// How long a gradient lasts in us.
    fn gradient_length(&self, gradient: &Gradient) -> usize {
        match gradient {
            Gradient::Arbitrary { shape, delay, .. } => {
                delay + GRADIENT_RASTER * self.shapes[shape - 1].len()
            }
            Gradient::Trap { rise, flat, fall, delay, .. } => rise + flat + fall + delay,
        }
    }
}
