// A sequence written as the toolboxes write it: comments above each section, columns of a width,
// blank lines between sections, decimals with six digits and shape values with nine.

use crate::library::Edition;
use crate::realistic::compression::stored;
use crate::realistic::numbering::{Ids, Numbering, Order};
use crate::realistic::numerals::general;
use crate::realistic::scan::{Gradient, Label, Labeling, Readout, Scan};
use crate::sequence::Sequence;
use std::collections::HashMap;
use std::fmt::Write;

/// The block raster, in us.
const BLOCK_RASTER: usize = 10;

/// What a 1.4 file must define.
const RASTERS: &str = "AdcRasterTime 1e-07 \nBlockDurationRaster 1e-05 \n\
GradientRasterTime 1e-05 \nRadiofrequencyRasterTime 1e-06 \n";

/// The comments above the sections whose columns differ by edition.
const RF_13: &str = "# id amplitude mag_id phase_id delay freq phase\n\
# ..        Hz   ....     ....    us   Hz   rad\n";
const RF_14: &str = "# id amplitude mag_id phase_id time_shape_id delay freq phase\n\
# ..        Hz   ....     ....          ....    us   Hz   rad\n";
const GRADIENTS_13: &str = "# id amplitude shape_id delay\n# ..      Hz/m     ....    us\n";
const GRADIENTS_14: &str = "# time_shape_id of 0 means default timing (stepping with grad_raster \
starting at 1/2 of grad_raster)\n# id amplitude amp_shape_id time_shape_id delay\n\
# ..      Hz/m       ..         ..          us\n";

/// The end of a 1.4 file.
const SIGNATURE: &str = "\n[SIGNATURE]\n\
# This is the hash of the Pulseq file, calculated right before the [SIGNATURE] section was added\n\
# It can be reproduced/verified with md5sum if the file trimmed to the position right above \
[SIGNATURE]\n\
# The new line character preceding [SIGNATURE] BELONGS to the signature (and needs to be stripped \
away for recalculating/verification)\n\
Type md5\nHash 237b85c2aa46ba98076359cde263d6ee\n";

/// Writes a line of a file.
macro_rules! line {
    ($text:expr, $($words:tt)*) => {
        writeln!($text, $($words)*).expect("a text takes every line")
    };
}

/// A sequence on its way into a text.
struct Writer<'a> {
    scan: &'a Scan,
    edition: Edition,
    ids: Numbering,
    delays: Vec<usize>,
    text: String,
    rows: usize,
}

/// The file of a sequence in an edition, with IDs in an order.
pub fn written(scan: &Scan, edition: Edition, order: Order) -> Sequence {
    let delays = if edition == Edition::V13 { delays(scan) } else { Vec::new() };
    let ids = Numbering::new(order, scan, delays.len());
    let mut writer = Writer { scan, edition, ids, delays, text: String::new(), rows: 0 };
    writer.head();
    writer.blocks();
    writer.pulses();
    writer.arbitrary_gradients();
    writer.traps();
    writer.readouts();
    writer.delay_rows();
    writer.extensions();
    writer.shapes();
    if edition == Edition::V14 {
        writer.text.push_str(SIGNATURE);
    }
    let samples = scan.shapes.iter().map(Vec::len).sum();
    Sequence { text: writer.text, rows: writer.rows, samples }
}

/// The delays of a sequence, each once, by first use.
fn delays(scan: &Scan) -> Vec<usize> {
    let mut known = HashMap::new();
    let mut delays = Vec::new();
    for delay in scan.blocks.iter().map(|block| block.delay).filter(|delay| *delay != 0) {
        known.entry(delay).or_insert_with(|| delays.push(delay));
    }
    delays
}

impl Writer<'_> {
    /// The version and the definitions.
    fn head(&mut self) {
        let (minor, rasters) = match self.edition {
            Edition::V13 => (3, ""),
            Edition::V14 => (4, RASTERS),
        };
        line!(self.text, "# Pulseq sequence file\n# Created by MATLAB mr toolbox\n");
        line!(self.text, "[VERSION]\nmajor 1\nminor {minor}\nrevision 1\n");
        let name = self.scan.name;
        line!(self.text, "[DEFINITIONS]\n{rasters}FOV 0.256 0.256 0.003 \nName {name} \n");
    }

    /// The blocks; the second column is a duration in 1.4 and a delay's ID in 1.3.
    fn blocks(&mut self) {
        self.text.push_str("# Format of blocks:\n");
        self.text.push_str(match self.edition {
            Edition::V13 => "#  #  D RF  GX  GY  GZ  ADC  EXT\n[BLOCKS]\n",
            Edition::V14 => "# NUM DUR RF  GX  GY  GZ  ADC  EXT\n[BLOCKS]\n",
        });
        let scan = self.scan;
        let width = scan.blocks.len().to_string().len();
        let places: HashMap<usize, usize> =
            self.delays.iter().zip(1..).map(|(delay, place)| (*delay, place)).collect();
        for (block, place) in scan.blocks.iter().zip(1..) {
            let duration = match self.edition {
                Edition::V13 => self.ids.delays.of(*places.get(&block.delay).unwrap_or(&0)),
                Edition::V14 => scan.length(block).div_ceil(BLOCK_RASTER),
            };
            let [x, y, z] = block.gradients.map(|place| self.ids.gradients.of(place));
            line!(
                self.text,
                "{:width$} {duration:3} {:3} {x:3} {y:3} {z:3} {:2} {:2}",
                self.ids.blocks.of(place),
                self.ids.pulses.of(block.pulse),
                self.ids.readouts.of(block.readout),
                self.ids.entries.of(block.entry)
            );
        }
        self.end_section(scan.blocks.len());
    }

    /// RF events.
    fn pulses(&mut self) {
        let scan = self.scan;
        if scan.pulses.is_empty() {
            return;
        }
        self.text.push_str("# Format of RF events:\n");
        self.text.push_str(if self.edition == Edition::V13 { RF_13 } else { RF_14 });
        self.text.push_str("[RF]\n");
        for (pulse, place) in scan.pulses.iter().zip(1..) {
            line!(
                self.text,
                "{} {:>12} {} {}{} {} {} {}",
                self.ids.pulses.of(place),
                general(pulse.amplitude, 6),
                self.ids.shapes.of(pulse.magnitude),
                self.ids.shapes.of(pulse.phase_shape),
                self.time_column(),
                pulse.delay,
                general(pulse.frequency, 6),
                general(pulse.phase, 6)
            );
        }
        self.end_section(scan.pulses.len());
    }

    /// Arbitrary gradients.
    fn arbitrary_gradients(&mut self) {
        let mut rows = 0;
        for (gradient, place) in self.scan.gradients.iter().zip(1..) {
            let Gradient::Arbitrary { amplitude, shape, delay } = gradient else { continue };
            if rows == 0 {
                self.text.push_str("# Format of arbitrary gradients:\n");
                let is_13 = self.edition == Edition::V13;
                self.text.push_str(if is_13 { GRADIENTS_13 } else { GRADIENTS_14 });
                self.text.push_str("[GRADIENTS]\n");
            }
            let [id, shape] = [self.ids.gradients.of(place), self.ids.shapes.of(*shape)];
            let amplitude = general(*amplitude, 6);
            line!(self.text, "{id} {amplitude:>12} {shape}{} {delay}", self.time_column());
            rows += 1;
        }
        self.end_section(rows);
    }

    /// Trapezoid gradients.
    fn traps(&mut self) {
        let mut rows = 0;
        for (gradient, place) in self.scan.gradients.iter().zip(1..) {
            let Gradient::Trap { amplitude, rise, flat, fall, delay } = gradient else { continue };
            if rows == 0 {
                self.text.push_str("# Format of trapezoid gradients:\n");
                self.text.push_str("# id amplitude rise flat fall delay\n");
                self.text.push_str("# ..      Hz/m   us   us   us    us\n[TRAP]\n");
            }
            let id = self.ids.gradients.of(place);
            let amplitude = general(*amplitude, 6);
            line!(self.text, "{id:2} {amplitude:>12} {rise:3} {flat:4} {fall:3} {delay:3}");
            rows += 1;
        }
        self.end_section(rows);
    }

    /// ADC events.
    fn readouts(&mut self) {
        let scan = self.scan;
        if scan.readouts.is_empty() {
            return;
        }
        self.text.push_str("# Format of ADC events:\n# id num dwell delay freq phase\n");
        self.text.push_str("# ..  ..    ns    us   Hz   rad\n[ADC]\n");
        for (readout, place) in scan.readouts.iter().zip(1..) {
            let id = self.ids.readouts.of(place);
            let [frequency, phase] = [readout.frequency, readout.phase].map(|v| general(v, 6));
            let Readout { count, dwell, delay, .. } = readout;
            line!(self.text, "{id} {count} {dwell} {delay} {frequency} {phase}");
        }
        self.end_section(scan.readouts.len());
    }

    /// The delays of a 1.3 file.
    fn delay_rows(&mut self) {
        if self.delays.is_empty() {
            return;
        }
        self.text.push_str("# Format of delays:\n# id delay (us)\n[DELAYS]\n");
        for (delay, place) in self.delays.iter().zip(1..) {
            line!(self.text, "{} {delay}", self.ids.delays.of(place));
        }
        self.end_section(self.delays.len());
    }

    /// The extension table and the labels.
    fn extensions(&mut self) {
        let scan = self.scan;
        if scan.entries.is_empty() {
            return;
        }
        self.text.push_str("# Format of extension lists:\n# id type ref next_id\n");
        self.text.push_str("# next_id of 0 terminates the list\n");
        self.text.push_str("# Extension list is followed by extension specifications\n");
        self.text.push_str("[EXTENSIONS]\n");
        let Numbering { entries, sets, increments, .. } = &self.ids;
        for (entry, place) in scan.entries.iter().zip(1..) {
            let labels = if entry.labeling == Labeling::Set { sets } else { increments };
            let [id, next] = [entries.of(place), entries.of(entry.next)];
            let label = labels.of(entry.label);
            line!(self.text, "{id} {} {label} {next}", entry.labeling as usize);
        }
        let mut rows = labels(&mut self.text, "LABELSET 1", &scan.sets, sets);
        rows += labels(&mut self.text, "LABELINC 2", &scan.increments, increments);
        self.end_section(scan.entries.len() + rows);
    }

    /// The shapes.
    fn shapes(&mut self) {
        let scan = self.scan;
        if scan.shapes.is_empty() {
            return;
        }
        self.text.push_str("# Sequence Shapes\n[SHAPES]\n\n");
        for (samples, place) in scan.shapes.iter().zip(1..) {
            let id = self.ids.shapes.of(place);
            line!(self.text, "shape_id {id}\nnum_samples {}", samples.len());
            for value in stored(samples, self.edition) {
                self.text.push_str(&value);
                self.text.push('\n');
            }
            self.text.push('\n');
        }
        self.rows += scan.shapes.len();
    }

    /// The column of a time shape, which 1.3 does not have.
    fn time_column(&self) -> &'static str {
        match self.edition {
            Edition::V13 => "",
            Edition::V14 => " 0",
        }
    }

    /// The blank line behind a section, unless it was empty; counts its rows.
    fn end_section(&mut self, rows: usize) {
        if rows > 0 {
            self.text.push('\n');
        }
        self.rows += rows;
    }
}

/// One label extension with its rows, unless there is none; answers how many rows that gives.
fn labels(text: &mut String, extension: &str, labels: &[Label], ids: &Ids) -> usize {
    if labels.is_empty() {
        return 0;
    }
    line!(text, "\n# Extension specification for setting labels:\n# id set labelstring");
    line!(text, "extension {extension}");
    for ((name, value), place) in labels.iter().zip(1..) {
        line!(text, "{} {value} {name}", ids.of(place));
    }
    1 + labels.len()
}
