// Spin echo trains: one excitation and many refocusings, over few events that many blocks use.

use crate::realistic::pulses::sinc;
use crate::realistic::scan::{Block, Pulse, Readout, Scan};
use std::f64::consts::FRAC_PI_2;

/// Echoes of a train.
const ECHOES: usize = 16;

/// Encoding steps.
const STEPS: usize = 128;

/// Phases of pulses and readouts, each a quarter turn apart.
const PHASES: usize = 4;

/// Delays of pulses in us.
const DELAYS: [usize; 3] = [100, 150, 200];

/// The events that all trains share; pulses by phase and delay.
struct Shared {
    exciting: Vec<usize>,
    refocusing: Vec<usize>,
    readouts: Vec<usize>,
    encoding: Vec<[usize; 2]>,
    slice: usize,
    crushing: usize,
    read: usize,
    dephasing: usize,
}

/// A sequence of a number of trains.
pub fn spin_echo(trains: usize) -> Scan {
    let mut scan = Scan::named("tse");
    let shared = shared(&mut scan);
    for train in 0..trains {
        excite(&mut scan, &shared, train);
        for echo in 0..ECHOES {
            push_echo(&mut scan, &shared, train, echo);
        }
        scan.blocks.push(Block { delay: 120_000 + 10 * (train % 7), ..Block::default() });
    }
    scan
}

/// Adds the shared events.
fn shared(scan: &mut Scan) -> Shared {
    let shapes = sinc(scan);
    let exciting = pulses(scan, shapes, 274.8784);
    let refocusing = pulses(scan, shapes, 549.7568);
    let readouts = (0..PHASES).map(|number| {
        let phase = FRAC_PI_2 * number as f64;
        scan.readout(Readout { count: 256, dwell: 25000, delay: 50, frequency: 0.0, phase })
    });
    let readouts = readouts.collect();
    let encoding = (0..STEPS).map(|step| {
        let amplitude = 531250.0 * (1.0 - 2.0 * (step as f64 + 0.5) / STEPS as f64);
        [scan.trap(amplitude, 100, 300), scan.trap(-amplitude, 100, 300)]
    });
    Shared {
        exciting,
        refocusing,
        readouts,
        encoding: encoding.collect(),
        slice: scan.trap(333333.3, 100, 1200),
        crushing: scan.trap(766666.7, 150, 400),
        read: scan.trap(156250.0, 50, 6400),
        dephasing: scan.trap(566964.3, 100, 800),
    }
}

/// Adds a pulse for each phase and delay.
fn pulses(scan: &mut Scan, [magnitude, phase_shape]: [usize; 2], amplitude: f64) -> Vec<usize> {
    let mut ids = Vec::new();
    for number in 0..PHASES {
        for delay in DELAYS {
            let phase = FRAC_PI_2 * number as f64;
            let pulse = Pulse { amplitude, magnitude, phase_shape, delay, frequency: 0.0, phase };
            ids.push(scan.pulse(pulse));
        }
    }
    ids
}

/// The excitation of a train, and the way to its first refocusing.
fn excite(scan: &mut Scan, shared: &Shared, train: usize) {
    let none = Block::default();
    let pulse = shared.exciting[train % shared.exciting.len()];
    scan.blocks.extend([
        Block { pulse, gradients: [0, 0, shared.slice], ..none },
        Block { delay: 3280, gradients: [shared.dephasing, 0, shared.crushing], ..none },
    ]);
}

/// One echo: refocusing, encoding, readout, rewinding.
fn push_echo(scan: &mut Scan, shared: &Shared, train: usize, echo: usize) {
    let none = Block::default();
    let pulse = shared.refocusing[(train + echo) % shared.refocusing.len()];
    let [encoding, rewinding] = shared.encoding[(train * ECHOES + 37 * echo) % STEPS];
    let readout = shared.readouts[(train + echo) % PHASES];
    scan.blocks.extend([
        Block { pulse, gradients: [0, 0, shared.slice], ..none },
        Block { gradients: [0, encoding, shared.crushing], ..none },
        Block { gradients: [shared.read, 0, 0], readout, ..none },
        Block { gradients: [0, rewinding, shared.crushing], ..none },
    ]);
}
