// A gradient echo in three dimensions: five blocks a repetition, phase encoding by trapezoids,
// shaped spoilers, and RF phases that spoil. Gradients are numbered by first use, so that those of
// the two sections interleave.

use crate::realistic::pulses::sinc;
use crate::realistic::scan::{Block, Gradient, Pulse, Readout, Scan};
use std::collections::HashMap;

/// Repetitions that share an encoding step.
const SHARING: usize = 4;

/// Encoding steps that share a spoiler.
const SPOILING: usize = 4;

/// Spoiler shapes.
const SPOILERS: usize = 8;

/// Repetitions of one slab, which has a frequency of its own.
const SLAB: usize = 512;

/// The events that all repetitions share.
struct Shared {
    pulse_shapes: [usize; 2],
    spoiler_shapes: Vec<usize>,
    slice: usize,
    slice_rephasing: usize,
    read: usize,
    read_dephasing: usize,
    slice_spoiling: usize,
}

/// The events of one encoding step.
#[derive(Clone, Copy)]
struct Step {
    encoding: usize,
    rewinding: usize,
    spoiler: usize,
}

/// A sequence of a number of repetitions.
pub fn gradient_echo(repetitions: usize) -> Scan {
    let mut scan = Scan::named("gre_3d");
    let shared = shared(&mut scan);
    let steps = repetitions.div_ceil(SHARING);
    let mut known = HashMap::new();
    let mut step = Step { encoding: 0, rewinding: 0, spoiler: 0 };
    for repetition in 0..repetitions {
        if repetition % SHARING == 0 {
            step = next_step(&mut scan, &shared, step, repetition / SHARING, steps);
        }
        let degrees = 117 * (repetition * (repetition + 1) / 2) % 360;
        let key = (degrees, repetition / SLAB);
        let event =
            *known.entry(key).or_insert_with(|| spoiled_events(&mut scan, &shared, key.0, key.1));
        push_repetition(&mut scan, &shared, step, event);
    }
    scan
}

/// Adds the shared events.
fn shared(scan: &mut Scan) -> Shared {
    let pulse_shapes = sinc(scan);
    let spoiler_shapes = (0..SPOILERS).map(|number| scan.shape(spoiler(number))).collect();
    Shared {
        pulse_shapes,
        spoiler_shapes,
        slice: scan.trap(333333.3, 100, 1100),
        slice_rephasing: scan.trap(-233333.3, 100, 800),
        read: scan.trap(312500.0, 100, 3200),
        read_dephasing: scan.trap(-556532.1, 100, 800),
        slice_spoiling: scan.trap(400000.0, 150, 1700),
    }
}

/// The shape of a spoiler: a ramp up, a plateau, and a round way down.
fn spoiler(number: usize) -> Vec<f64> {
    let ramp = 20 + number;
    let up = (1..=ramp).map(|place| place as f64 / ramp as f64);
    let plateau = std::iter::repeat_n(1.0, 100);
    let down = (0..80).map(|place| (std::f64::consts::FRAC_PI_2 * place as f64 / 79.0).cos());
    up.chain(plateau).chain(down).collect()
}

/// Adds the events of an encoding step; some steps have a spoiler of their own.
fn next_step(scan: &mut Scan, shared: &Shared, last: Step, number: usize, steps: usize) -> Step {
    let amplitude = 531250.0 * (1.0 - 2.0 * (number as f64 + 0.5) / steps as f64);
    let spoiler = match number % SPOILING {
        0 => {
            let shape = shared.spoiler_shapes[number / SPOILING % SPOILERS];
            let amplitude = 250000.0 + 100.0 * (number % 997) as f64;
            scan.gradient(Gradient::Arbitrary { amplitude, shape, delay: 0 })
        }
        _ => last.spoiler,
    };
    let encoding = scan.trap(amplitude, 100, 800);
    let rewinding = scan.trap(-amplitude, 100, 800);
    Step { encoding, rewinding, spoiler }
}

/// Adds the RF event and the ADC event of a phase in degrees and a slab; they have the same ID.
fn spoiled_events(scan: &mut Scan, shared: &Shared, degrees: usize, slab: usize) -> usize {
    let [magnitude, phase_shape] = shared.pulse_shapes;
    let phase = (degrees as f64).to_radians();
    let frequency = 1234.5 * slab as f64;
    let amplitude = 137.4392;
    scan.readout(Readout { count: 256, dwell: 12500, delay: 100, frequency: 0.0, phase });
    scan.pulse(Pulse { amplitude, magnitude, phase_shape, delay: 100, frequency, phase })
}

/// Excitation, encoding, the wait for the echo, readout, and spoiling to the end of the repetition.
fn push_repetition(scan: &mut Scan, shared: &Shared, step: Step, event: usize) {
    let none = Block::default();
    scan.blocks.extend([
        Block { pulse: event, gradients: [0, 0, shared.slice], ..none },
        Block { gradients: [shared.read_dephasing, step.encoding, shared.slice_rephasing], ..none },
        Block { delay: 2340, ..none },
        Block { gradients: [shared.read, 0, 0], readout: event, ..none },
        Block {
            delay: 4560,
            gradients: [step.spoiler, step.rewinding, shared.slice_spoiling],
            ..none
        },
    ]);
}
