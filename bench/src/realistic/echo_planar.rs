// Echo-planar imaging with labels: each shot sets its slice, repetition and first line, reads
// three navigators and a train of lines there and back, and says of each what it is.

use crate::realistic::pulses::sinc;
use crate::realistic::scan::Labeling::{Increment, Set};
use crate::realistic::scan::{Block, Label, Labeling, Pulse, Readout, Scan};

/// Slices; each has an RF event of its own frequency.
const SLICES: usize = 16;

/// Lines of a shot.
const LINES: usize = 12;

/// Shots of a slice that together give an image.
const SHOTS: usize = 8;

/// The events that all shots share.
struct Shared {
    pulses: Vec<usize>,
    slice: usize,
    slice_rephasing: usize,
    dephasing: [usize; 2],
    there: usize,
    back: usize,
    blip: usize,
    spoiling: usize,
    readout: usize,
}

/// A sequence of a number of shots.
pub fn echo_planar(shots: usize) -> Scan {
    let mut scan = Scan::named("epi_label");
    let shared = shared(&mut scan);
    for shot in 0..shots {
        excite(&mut scan, &shared, shot);
        navigate(&mut scan, &shared);
        read_lines(&mut scan, &shared);
        let none = Block::default();
        scan.blocks.push(Block { gradients: [0, 0, shared.spoiling], delay: 8000, ..none });
    }
    scan
}

/// Adds the shared events.
fn shared(scan: &mut Scan) -> Shared {
    let [magnitude, phase_shape] = sinc(scan);
    let slices = 0..SLICES;
    let pulses = slices.map(|slice| {
        let frequency = 2000.0 * (slice as f64 - (SLICES as f64 - 1.0) / 2.0);
        let amplitude = 549.7568;
        scan.pulse(Pulse { amplitude, magnitude, phase_shape, delay: 100, frequency, phase: 0.0 })
    });
    Shared {
        pulses: pulses.collect(),
        slice: scan.trap(1333333.3, 130, 1100),
        slice_rephasing: scan.trap(-1066666.6, 130, 700),
        dephasing: [scan.trap(-1110953.2, 130, 130), scan.trap(-982142.9, 130, 130)],
        there: scan.trap(1041666.7, 100, 320),
        back: scan.trap(-1041666.7, 100, 320),
        blip: scan.trap(130208.3, 30, 0),
        spoiling: scan.trap(1200000.0, 130, 2000),
        readout: scan.readout(Readout {
            count: 128,
            dwell: 2500,
            delay: 100,
            frequency: 0.0,
            phase: 0.0,
        }),
    }
}

/// Sets the labels of a shot in a block that takes no time, excites, and goes to the first line.
fn excite(scan: &mut Scan, shared: &Shared, shot: usize) {
    let slice = shot % SLICES;
    let first_line = (shot / SLICES % SHOTS) as i64;
    let repetition = (shot / SLICES / SHOTS) as i64;
    let average = (shot * 7 % 251) as i64;
    let entry = scan.chain(&[
        (Set, ("SLC", slice as i64)),
        (Set, ("AVG", average)),
        (Set, ("LIN", first_line)),
        (Set, ("REP", repetition)),
    ]);
    let none = Block::default();
    let [x, y] = shared.dephasing;
    scan.blocks.extend([
        Block { entry, ..none },
        Block { pulse: shared.pulses[slice], gradients: [0, 0, shared.slice], ..none },
        Block { gradients: [x, y, shared.slice_rephasing], ..none },
    ]);
}

/// Three lines through the middle, there, back and there.
fn navigate(scan: &mut Scan, shared: &Shared) {
    let middle = ("LIN", (LINES * SHOTS / 2) as i64);
    for number in 0..3 {
        push_line(scan, shared, number % 2 == 1, &[(Set, ("NAV", 1)), (Set, middle)]);
    }
}

/// The lines of a shot, with a blip between two.
fn read_lines(scan: &mut Scan, shared: &Shared) {
    for number in 0..LINES {
        let step = (Increment, ("LIN", SHOTS as i64));
        push_line(scan, shared, number % 2 == 1, &[(Set, ("NAV", 0)), step]);
        let none = Block::default();
        scan.blocks.push(Block { gradients: [0, shared.blip, 0], ..none });
    }
}

/// One line, there or back, with labels of its own besides those of its direction.
fn push_line(scan: &mut Scan, shared: &Shared, back: bool, labels: &[(Labeling, Label)]) {
    let direction = i64::from(back);
    let mut all = vec![(Set, ("REV", direction)), (Set, ("SEG", direction))];
    all.extend(labels);
    let entry = scan.chain(&all);
    let read = if back { shared.back } else { shared.there };
    let none = Block::default();
    scan.blocks.push(Block { gradients: [read, 0, 0], readout: shared.readout, entry, ..none });
}
