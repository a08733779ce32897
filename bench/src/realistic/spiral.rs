// Spirals by arbitrary gradients: each interleaf has two long shapes of its own, so that shapes are
// most of the file. Every other interleaf is designed on a coarse raster, and its shapes are runs of
// equal differences; the rest have no runs, and 1.4 stores them plain.

use crate::realistic::pulses::sinc;
use crate::realistic::scan::{Block, Gradient, Pulse, Readout, Scan};
use std::f64::consts::PI;

/// Samples of an interleaf without runs, and its turns.
const FINE: (usize, f64) = (1000, 16.0);

/// Samples of an interleaf with runs, and its turns.
const COARSE: (usize, f64) = (4000, 24.0);

/// Samples of a run.
const RUN: usize = 8;

/// Steps of one in a shape with runs.
const STEPS: f64 = 1e7;

/// The angle between two interleaves.
const GOLDEN: f64 = 2.399963229728653;

/// A sequence of a number of interleaves.
pub fn spiral(interleaves: usize) -> Scan {
    let mut scan = Scan::named("spiral");
    let [magnitude, phase_shape] = sinc(&mut scan);
    let [amplitude, frequency, phase] = [274.8784, 0.0, 0.0];
    let pulse =
        scan.pulse(Pulse { amplitude, magnitude, phase_shape, delay: 100, frequency, phase });
    let slice = scan.trap(333333.3, 100, 1100);
    let rephasing = scan.trap(-233333.3, 100, 800);
    let spoiling = scan.trap(400000.0, 150, 1700);
    let readouts = [FINE, COARSE].map(|(count, _)| {
        scan.readout(Readout { count, dwell: 10000, delay: 0, frequency, phase })
    });
    for number in 0..interleaves {
        let [x, y] = interleaf(&mut scan, number);
        let readout = readouts[number % 2];
        let none = Block::default();
        scan.blocks.extend([
            Block { pulse, gradients: [0, 0, slice], ..none },
            Block { gradients: [0, 0, rephasing], ..none },
            Block { gradients: [x, y, 0], readout, ..none },
            Block { delay: 10000, gradients: [0, 0, spoiling], ..none },
        ]);
    }
    scan
}

/// Adds the two gradients of an interleaf.
fn interleaf(scan: &mut Scan, number: usize) -> [usize; 2] {
    let angle = GOLDEN * number as f64;
    [angle, angle - PI / 2.0].map(|angle| {
        let samples = if number % 2 == 1 { coarse(angle) } else { fine(angle) };
        let shape = scan.shape(samples);
        let amplitude = 850000.0 + 0.5 * (number % 1999) as f64;
        scan.gradient(Gradient::Arbitrary { amplitude, shape, delay: 0 })
    })
}

/// The gradient of a spiral from the middle outwards, at a time from 0 to 1; at most 1.
fn outwards(time: f64, turns: f64, angle: f64) -> f64 {
    let turned = 2.0 * PI * turns * time;
    ((turned + angle).cos() - turned * (turned + angle).sin()) / (1.0 + 2.0 * PI * turns)
}

/// Samples without runs.
fn fine(angle: f64) -> Vec<f64> {
    let (count, turns) = FINE;
    (0..count).map(|place| outwards((place as f64 + 0.5) / count as f64, turns, angle)).collect()
}

/// Samples with straight lines between the points of a coarse raster, in whole steps.
fn coarse(angle: f64) -> Vec<f64> {
    let (count, turns) = COARSE;
    let mut samples = Vec::with_capacity(count);
    let mut reached = 0.0;
    for point in 1..=count / RUN {
        let wanted = 0.99 * outwards(point as f64 * RUN as f64 / count as f64, turns, angle);
        let difference = ((wanted * STEPS - reached) / RUN as f64).round();
        for _ in 0..RUN {
            reached += difference;
            samples.push(reached / STEPS);
        }
    }
    samples
}
