// Shapes as the toolboxes store them: run-length differences in steps of 10^-7, or plain samples.

use crate::library::Edition;
use crate::realistic::numerals::general;

/// Steps of one; differences are whole steps, so that their sums are the rounded samples.
const STEPS: f64 = 1e7;

/// The stored lines of a shape: in 1.3 always differences, in 1.4 the plain samples unless the
/// differences are fewer values.
pub fn stored(samples: &[f64], edition: Edition) -> Vec<String> {
    let compressed = compressed(samples);
    if edition == Edition::V14 && compressed.len() >= samples.len() {
        return samples.iter().map(|sample| general(*sample, 9)).collect();
    }
    compressed
}

/// The differences of samples, each run of two and more as value, value, number of further ones.
fn compressed(samples: &[f64]) -> Vec<String> {
    let mut stored = Vec::new();
    let differences = differences(samples);
    for run in differences.chunk_by(|a, b| a == b) {
        let value = general(run[0] as f64 / STEPS, 9);
        if run.len() > 1 {
            stored.extend([value.clone(), value, (run.len() - 2).to_string()]);
        } else {
            stored.push(value);
        }
    }
    stored
}

/// The differences of the rounded samples, in steps.
fn differences(samples: &[f64]) -> Vec<i64> {
    let mut before = 0;
    let mut differences = Vec::with_capacity(samples.len());
    for sample in samples {
        let rounded = (sample * STEPS).round() as i64;
        differences.push(rounded - before);
        before = rounded;
    }
    differences
}
