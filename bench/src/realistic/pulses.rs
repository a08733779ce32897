// RF shapes that all kinds share.

use crate::realistic::scan::Scan;
use std::f64::consts::PI;

/// Samples of a pulse, one each us.
pub const PULSE_LENGTH: usize = 1000;

/// A sinc pulse without a phase of its own; answers the IDs of its magnitude and its phase.
pub fn sinc(scan: &mut Scan) -> [usize; 2] {
    let middle = PULSE_LENGTH as f64 / 2.0;
    let magnitude = (0..PULSE_LENGTH).map(|place| {
        let time = (place as f64 + 0.5 - middle) / middle;
        let lobes = 2.0 * PI * time;
        let window = 0.5 + 0.5 * (PI * time).cos();
        (window * lobes.sin() / lobes).abs()
    });
    let magnitude = scan.shape(magnitude.collect());
    let phase = scan.shape(vec![0.0; PULSE_LENGTH]);
    [magnitude, phase]
}
