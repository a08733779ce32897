// Files that keep every rule, as sections of lines of fields, before they are damaged and laid out.

use super::numerals::{integer, run_texts, scaled, seconds, value_text, whole, Value, ONE};
use crate::random::Random;
use std::collections::HashSet;

/// A line as its fields; a blank line has none.
pub type Line = Vec<String>;

/// A section: its name and its lines.
pub struct Section {
    pub name: String,
    pub lines: Vec<Line>,
}

/// A file as sections, VERSION first, beside the lines of a site's text.
pub struct Draft {
    pub new: bool,
    pub sections: Vec<Section>,
    pub site: Vec<Line>,
}

/// The names of the rasters: gradient, RF, ADC, block duration.
pub const RASTERS: [&str; 4] =
    ["GradientRasterTime", "RadiofrequencyRasterTime", "AdcRasterTime", "BlockDurationRaster"];

/// What a shape can be used for.
#[derive(Clone, Copy, PartialEq)]
enum Use {
    Amplitude,
    Phase,
    Time,
}

/// A shape that was made.
struct Shape {
    id: i64,
    fits: Use,
    count: usize,
    last: i64,
}

/// An event that was made, with its length in ns.
#[derive(Clone, Copy)]
struct Event {
    id: i64,
    ns: i64,
}

/// The making of one file.
struct Maker<'a> {
    random: &'a mut Random,
    new: bool,
    /// Whether both editions can say it, but for what only a timed file has.
    tidy: bool,
    /// Whether it may have what only 1.4 can say: time shapes and ONCE.
    timed: bool,
    size: usize,
    rasters: [i64; 4],
    shapes: Vec<Shape>,
    sections: Vec<Section>,
    rf: Vec<Event>,
    gradients: Vec<Event>,
    adc: Vec<Event>,
    delays: Vec<Event>,
    entries: Vec<Event>,
}

/// IDs that differ, in one of several orders.
fn distinct_ids(random: &mut Random, count: usize) -> Vec<i64> {
    let mut ids: Vec<i64> = match random.below(6) {
        0 => {
            let first = random.pick(&[1, 2, 100, 1_000_000, 2_147_483_647]);
            (0..count as i64).map(|i| first.min(2_147_483_648 - count as i64) + i).collect()
        }
        1 => {
            let mut seen = HashSet::new();
            while seen.len() < count {
                let high = random.pick(&[2 * count as i64 + 1, 1000 + count as i64, 2_147_483_647]);
                seen.insert(random.between(1, high));
            }
            let mut ids: Vec<i64> = seen.into_iter().collect();
            ids.sort();
            ids
        }
        _ => (1..=count as i64).collect(),
    };
    match random.below(8) {
        0 => random.shuffle(&mut ids),
        1 => ids.reverse(),
        _ => {}
    }
    ids
}

/// Makes a file that keeps every rule; `size` is about how many blocks it has at most.
pub fn sound(random: &mut Random, size: usize) -> Draft {
    let new = random.once_in(2);
    let tidy = !random.once_in(3);
    let timed = new && random.once_in(if tidy { 4 } else { 2 });
    let rasters = match tidy {
        true => tidy_rasters(random, new),
        false => [
            random.pick(&[10_000, 10_000, 1_000, 20_000, 4_000, 1_500, 1_000_000]),
            random.pick(&[1_000, 1_000, 2_000, 500, 10_000, 7_000, 100]),
            random.pick(&[100, 100, 1_000, 50, 12_500, 3]),
            random.pick(&[10_000, 10_000, 1_000, 1, 100_000, 333]),
        ],
    };
    let mut maker = Maker {
        random,
        new,
        tidy,
        timed,
        size,
        rasters,
        shapes: Vec::new(),
        sections: Vec::new(),
        rf: Vec::new(),
        gradients: Vec::new(),
        adc: Vec::new(),
        delays: Vec::new(),
        entries: Vec::new(),
    };
    maker.make()
}

/// Rasters with which events and blocks last whole microseconds, and mostly whole block rasters.
fn tidy_rasters(random: &mut Random, new: bool) -> [i64; 4] {
    let blocks: &[i64] =
        if new { &[10_000, 1_000, 100_000] } else { &[1_000, 1_000, 500, 1, 10_000] };
    [
        random.pick(&[10_000, 10_000, 1_000, 20_000, 4_000, 1_000_000]),
        random.pick(&[1_000, 1_000, 2_000, 10_000, 7_000]),
        random.pick(&[100, 100, 1_000, 50, 12_500]),
        random.pick(blocks),
    ]
}

impl Maker<'_> {
    /// Makes all sections and brings them into an order.
    fn make(&mut self) -> Draft {
        let site = self.definitions();
        self.shape_section();
        self.rf_section();
        self.gradient_section();
        self.trap_section();
        self.adc_section();
        if !self.new {
            self.delay_section();
        }
        self.extension_section();
        self.block_section();
        let keep = self.random.once_in(4);
        let kept = |section: &Section| keep || section.name == "DEFINITIONS";
        self.sections.retain(|section| !section.lines.is_empty() || kept(section));
        if self.random.once_in(4) {
            self.random.shuffle(&mut self.sections);
        } else {
            let order =
                ["DEFINITIONS", "BLOCKS", "RF", "GRADIENTS", "TRAP", "ADC", "DELAYS", "EXTENSIONS"];
            let place = |section: &Section| order.iter().position(|name| *name == section.name);
            self.sections.sort_by_key(|section| place(section).unwrap_or(order.len()));
        }
        let version = self.version();
        self.sections.insert(0, version);
        if self.new && self.random.once_in(4) {
            let lines =
                vec![words(&["Type", "md5"]), words(&["Hash", "237b85c2aa46ba98076359cde263d6ee"])];
            self.add("SIGNATURE", lines);
        }
        Draft { new: self.new, sections: std::mem::take(&mut self.sections), site }
    }

    /// Adds a section.
    fn add(&mut self, name: &str, lines: Vec<Line>) {
        self.sections.push(Section { name: name.to_string(), lines });
    }

    /// The section VERSION.
    fn version(&mut self) -> Section {
        let minor = if self.new { "4" } else { "3" };
        let revision = self.random.pick(&["0", "1", "1", "01", "0000000001"]);
        let lines =
            vec![words(&["major", "1"]), words(&["minor", minor]), words(&["revision", revision])];
        Section { name: "VERSION".to_string(), lines }
    }

    /// The definitions of the file, and those of the site.
    fn definitions(&mut self) -> Vec<Line> {
        let mut file = Vec::new();
        let mut site = Vec::new();
        let full_site = !self.random.once_in(5);
        for (number, name) in RASTERS.iter().enumerate() {
            let text = seconds(self.random, self.rasters[number]);
            let other = seconds(self.random, self.rasters[number]);
            let in_file = self.new || self.random.once_in(2);
            if in_file {
                file.push(words(&[name, &text]));
            }
            if !in_file || full_site || self.random.once_in(3) {
                site.push(words(&[name, &other]));
            }
        }
        let extras = [
            ["Name", "fid"],
            ["FOV", "0.256 0.256 0.004"],
            ["TE", "0.005"],
            ["name", "µ  [x] # y"],
            ["TotalDuration", "0.04268"],
            ["Note", "a\t b   c"],
            ["1", "1"],
        ];
        for extra in extras {
            if self.random.once_in(4) {
                file.push(words(&extra));
            }
            if self.random.once_in(12) {
                site.push(words(&extra));
            }
        }
        self.random.shuffle(&mut file);
        self.random.shuffle(&mut site);
        if self.new || !file.is_empty() {
            self.add("DEFINITIONS", file);
        }
        site
    }

    /// A few shapes of equal counts: amplitudes, a phase and times.
    fn shape_section(&mut self) {
        let mut lines = Vec::new();
        let groups = self.random.below(3);
        let ids = distinct_ids(self.random, groups * 4);
        for group in ids.chunks(4) {
            let count = match self.random.below(40) {
                0 => 20 + self.random.below(300),
                1..=4 => 1,
                _ => 1 + self.random.below(14),
            };
            let count = if self.random.once_in(1500) { 1_000_000 } else { count };
            for (id, fits) in
                group.iter().zip([Use::Amplitude, Use::Phase, Use::Time, Use::Amplitude])
            {
                if count > 1000 && fits != Use::Phase && fits != Use::Amplitude {
                    continue;
                }
                lines.extend(self.shape(*id, fits, count));
                for _ in 0..=self.random.below(2) {
                    lines.push(Vec::new());
                }
            }
        }
        self.add("SHAPES", lines);
    }

    /// The lines of one shape.
    fn shape(&mut self, id: i64, fits: Use, count: usize) -> Vec<Line> {
        let samples = if count > 1000 { vec![ONE; count] } else { self.samples(fits, count) };
        let last = samples[count - 1] / ONE;
        self.shapes.push(Shape { id, fits, count, last });
        let noisy = count < 1000 && self.random.once_in(5);
        let mut before = 0;
        let mut differences = Vec::new();
        for sample in &samples {
            differences.push(self.value(sample - before, noisy));
            before = *sample;
        }
        let mut texts = run_texts(self.random, &differences);
        if self.new && count < 1000 && (texts.len() == count || self.random.once_in(4)) {
            let plain: Vec<Value> =
                samples.iter().map(|sample| self.value(*sample, noisy)).collect();
            texts = plain.into_iter().map(|value| value_text(self.random, value)).collect();
        }
        let id = integer(self.random, id);
        let mut lines =
            vec![words(&["shape_id", &id]), words(&["num_samples", &count.to_string()])];
        lines.extend(texts.into_iter().map(|text| vec![text]));
        lines
    }

    /// A stored value, now and then with digits that round away.
    fn value(&mut self, steps: i64, noisy: bool) -> Value {
        let most = if steps == 0 { 3 } else { 5 };
        let noise =
            if noisy && steps.abs() < 1000 * ONE { self.random.below(most) as u8 } else { 0 };
        Value { steps, noise }
    }

    /// Samples that fit a use.
    fn samples(&mut self, fits: Use, count: usize) -> Vec<i64> {
        let grain = self.random.pick(&[ONE / 10, ONE / 4, ONE / 1000, 1, ONE / 2, ONE]);
        let mut samples = Vec::new();
        let mut now: i64 = 0;
        for _ in 0..count {
            now = match fits {
                Use::Time => now + ONE * self.random.between(i64::from(!samples.is_empty()), 3),
                _ if self.random.once_in(3) => now,
                Use::Amplitude => grain * self.random.between(-(ONE / grain), ONE / grain),
                Use::Phase if self.random.once_in(200) => {
                    self.random.pick(&[100_000 * ONE, -100_000 * ONE])
                }
                Use::Phase => grain * self.random.between(-8, 8),
            };
            samples.push(now);
        }
        samples
    }

    /// A shape of a use and, if given, of a count.
    fn find(&mut self, fits: Use, count: Option<usize>) -> Option<(i64, usize, i64)> {
        let wanted = |shape: &&Shape| shape.fits == fits && count.is_none_or(|n| n == shape.count);
        let found: Vec<&Shape> = self.shapes.iter().filter(wanted).collect();
        if found.is_empty() {
            return None;
        }
        let shape = self.random.pick(&found);
        Some((shape.id, shape.count, shape.last))
    }

    /// Microseconds that are a multiple of a raster.
    fn aligned(&mut self, raster: usize) -> i64 {
        let raster = if self.new || self.tidy { self.rasters[raster] } else { 1 };
        let step = (1..=raster).find(|step| step * 1000 % raster == 0).unwrap_or(raster);
        step * self.random.between(0, 12)
    }

    /// An amplitude, frequency or phase.
    fn decimal(&mut self) -> String {
        let value = self.random.between(-99_999, 999_999);
        match self.random.below(8) {
            0..=2 => "0".to_string(),
            3 => random_border_decimal(self.random),
            4 => format!("{}.{:03}", value / 1000, value.abs() % 1000),
            5 => scaled(self.random, value, -3),
            _ => value.to_string(),
        }
    }

    /// How many rows a section of events has.
    fn some(&mut self) -> usize {
        if self.size > 20 {
            self.random.below(self.size / 6)
        } else {
            self.random.below(4)
        }
    }

    /// A time shape's ID for a count, or 0, with the length in rasters.
    fn timing(&mut self, count: usize) -> (i64, i64) {
        match self.find(Use::Time, Some(count)) {
            Some((id, _, last)) if self.timed && self.random.once_in(2) => (id, last),
            _ => (0, count as i64),
        }
    }

    /// The section RF.
    fn rf_section(&mut self) {
        let mut lines = Vec::new();
        let count = self.some();
        for id in distinct_ids(self.random, count) {
            let Some((magnitude, count, _)) = self.find(Use::Amplitude, None) else {
                continue;
            };
            let Some((phase, _, _)) = self.find(Use::Phase, Some(count)) else {
                continue;
            };
            let (time, rasters) = self.timing(count);
            let delay = self.aligned(1);
            let mut line = vec![integer(self.random, id), self.decimal()];
            line.extend([magnitude.to_string(), phase.to_string()]);
            if self.new {
                line.push(time.to_string());
            }
            line.extend([delay.to_string(), self.decimal(), self.decimal()]);
            self.rf.push(Event { id, ns: delay * 1000 + rasters * self.rasters[1] });
            lines.push(line);
        }
        self.add("RF", lines);
    }

    /// The section GRADIENTS, with even IDs taken from one list and odd ones left to TRAP.
    fn gradient_section(&mut self) {
        let mut lines = Vec::new();
        let count = self.some();
        for id in distinct_ids(self.random, count) {
            let id = if id > 1_000_000_000 { id } else { 2 * id };
            let Some((shape, count, _)) = self.find(Use::Amplitude, None) else {
                continue;
            };
            let (time, rasters) = self.timing(count);
            let delay = self.aligned(0);
            let mut line = vec![integer(self.random, id), self.decimal(), shape.to_string()];
            if self.new {
                line.push(time.to_string());
            }
            line.push(delay.to_string());
            self.gradients.push(Event { id, ns: delay * 1000 + rasters * self.rasters[0] });
            lines.push(line);
        }
        self.add("GRADIENTS", lines);
    }

    /// The section TRAP.
    fn trap_section(&mut self) {
        let mut lines = Vec::new();
        let count = self.some();
        for id in distinct_ids(self.random, count) {
            let id = if id > 1_000_000_000 { id / 2 + 7 } else { 2 * id - 1 };
            if self.gradients.iter().any(|gradient| gradient.id == id) {
                continue;
            }
            let times = [0; 4].map(|_| self.aligned(0));
            let mut line = vec![integer(self.random, id), self.decimal()];
            line.extend(times.map(|time| integer(self.random, time)));
            self.gradients.push(Event { id, ns: times.iter().sum::<i64>() * 1000 });
            lines.push(line);
        }
        self.add("TRAP", lines);
    }

    /// The section ADC.
    fn adc_section(&mut self) {
        let mut lines = Vec::new();
        let count = self.some();
        for id in distinct_ids(self.random, count) {
            let dwell = self.dwell();
            let num = self.random.between(1, 600);
            let delay = self.random.between(0, 150);
            let line = vec![
                integer(self.random, id),
                integer(self.random, num),
                whole(self.random, dwell),
                integer(self.random, delay),
                self.decimal(),
                self.decimal(),
            ];
            self.adc.push(Event { id, ns: delay * 1000 + num * dwell });
            lines.push(line);
        }
        self.add("ADC", lines);
    }

    /// A dwell time; a tidy one is whole microseconds.
    fn dwell(&mut self) -> i64 {
        let raster = if self.new || self.tidy { self.rasters[2] } else { 1 };
        let step = match self.tidy {
            true => (1..=1000).find(|step| step * raster % 1000 == 0).unwrap_or(1000),
            false => 1,
        };
        step * raster * self.random.between(1, 60)
    }

    /// The section DELAYS.
    fn delay_section(&mut self) {
        let mut lines = Vec::new();
        let count = self.some();
        for id in distinct_ids(self.random, count) {
            let delay = match self.random.once_in(20) {
                true => 1_000_000_000,
                false if self.tidy => 10 * self.random.between(0, 900),
                false => self.random.between(0, 9000),
            };
            lines.push(vec![integer(self.random, id), integer(self.random, delay)]);
            self.delays.push(Event { id, ns: delay * 1000 });
        }
        self.add("DELAYS", lines);
    }

    /// The section EXTENSIONS: entries, then the rows of each extension.
    fn extension_section(&mut self) {
        if self.random.once_in(3) {
            return self.add("EXTENSIONS", Vec::new());
        }
        let mut names = vec!["TRIGGERS", "LABELSET", "LABELINC"];
        if !self.tidy || self.random.once_in(12) {
            names.extend(["ROTATIONS", "labelset_2"]);
        }
        self.random.shuffle(&mut names);
        names.truncate(1 + self.random.below(names.len()));
        let types = distinct_ids(self.random, names.len());
        let mut tail = Vec::new();
        let mut objects = Vec::new();
        for (name, number) in names.iter().zip(&types) {
            tail.push(words(&["extension", name, &number.to_string()]));
            let rows = self.extension_rows(name, &mut tail);
            objects.push((*number, rows));
        }
        let mut lines = self.entry_lines(&objects);
        lines.extend(tail);
        self.add("EXTENSIONS", lines);
    }

    /// The rows of one extension.
    fn extension_rows(&mut self, name: &str, lines: &mut Vec<Line>) -> Vec<Event> {
        let count = self.random.below(5);
        let ids = distinct_ids(self.random, count);
        let mut events = Vec::new();
        for id in ids {
            let mut line = vec![integer(self.random, id)];
            let mut ns = 0;
            match name {
                "TRIGGERS" => {
                    let times = [self.random.between(0, 90), self.random.between(0, 900)];
                    let numbers = [self.random.between(0, 9), self.random.between(0, 9)];
                    line.extend(numbers.iter().chain(&times).map(|number| number.to_string()));
                    ns = times.iter().sum::<i64>() * 1000;
                }
                "LABELSET" | "LABELINC" => line.extend(self.label(name == "LABELSET")),
                _ => line = self.foreign_line(),
            }
            lines.push(line);
            events.push(Event { id, ns });
        }
        events
    }

    /// The value and the name of a label.
    fn label(&mut self, set: bool) -> [String; 2] {
        let counters = ["LIN", "PAR", "SLC", "SEG", "REP", "AVG", "SET", "ECO", "PHS"];
        let big = self.random.pick(&[2_147_483_647, 3, 3, 3]);
        match self.random.below(4) {
            0 if set => {
                let flag = self.random.pick(&["NAV", "REV", "SMS"]);
                [self.random.between(0, 1).to_string(), flag.to_string()]
            }
            1 if set && self.timed => [self.random.between(0, big).to_string(), "ONCE".to_string()],
            2 if self.random.once_in(8) => ["-0".to_string(), "LIN".to_string()],
            _ => {
                let name = self.random.pick(&counters);
                [self.random.between(-big, big).to_string(), name.to_string()]
            }
        }
    }

    /// A line of an unknown extension, which is skipped.
    fn foreign_line(&mut self) -> Line {
        let line = ["1 2", "x y z", "0 0 0 0 0 0 0 0 0", "-5", "shape_id 1", "Extension", "µ ] ["];
        self.random.pick(&line).split(' ').map(str::to_string).collect()
    }

    /// Entries over the rows of extensions, each chain short or, rarely, near 256.
    fn entry_lines(&mut self, objects: &[(i64, Vec<Event>)]) -> Vec<Line> {
        let long = self.random.once_in(200);
        let count = if long { 254 + self.random.below(5) } else { self.random.below(7) };
        let ids = distinct_ids(self.random, count);
        let mut lines = Vec::new();
        for id in ids {
            let (number, rows) = &objects[self.random.below(objects.len())];
            if rows.is_empty() {
                continue;
            }
            let object = self.random.pick(rows);
            let before = match self.entries.last() {
                Some(last) if long => Some(*last),
                _ if self.random.once_in(2) || self.entries.is_empty() => None,
                _ => Some(self.random.pick(&self.entries)),
            };
            let next = before.map_or(0, |entry| entry.id);
            let longest = before.map_or(0, |entry| entry.ns).max(object.ns);
            lines.push([id, *number, object.id, next].map(|n| integer(self.random, n)).to_vec());
            self.entries.push(Event { id, ns: longest });
        }
        if self.random.once_in(3) {
            self.random.shuffle(&mut lines);
        }
        lines
    }

    /// One of a list of events, or none.
    fn event(random: &mut Random, events: &[Event]) -> Event {
        match events.is_empty() || random.once_in(2) {
            true => Event { id: 0, ns: 0 },
            false => random.pick(events),
        }
    }

    /// The section BLOCKS, each block long enough.
    fn block_section(&mut self) {
        let mut lines = Vec::new();
        let count = if self.size > 20 { self.size } else { 1 + self.random.below(self.size) };
        for id in distinct_ids(self.random, count) {
            let mut events = vec![Self::event(self.random, &self.rf)];
            for _ in 0..3 {
                events.push(Self::event(self.random, &self.gradients));
            }
            events.push(Self::event(self.random, &self.adc));
            events.push(Self::event(self.random, &self.entries));
            let second = if self.new {
                let longest = events.iter().map(|event| event.ns).max().unwrap_or(0);
                let raster = self.rasters[3];
                (longest + raster - 1) / raster + self.random.pick(&[0, 0, 1, 50])
            } else {
                Self::event(self.random, &self.delays).id
            };
            let mut line = vec![integer(self.random, id), second.to_string()];
            line.extend(events.iter().map(|event| integer(self.random, event.id)));
            lines.push(line);
        }
        self.add("BLOCKS", lines);
    }
}

/// A line of fields.
pub fn words(fields: &[&str]) -> Line {
    fields.iter().map(|field| field.to_string()).collect()
}

/// A decimal at a border of what is kept.
pub fn random_border_decimal(random: &mut Random) -> String {
    let list = [
        "999999999999999999",
        "-999999999999999999",
        "0.123456789012345678e-81",
        "1e99",
        "-1E-99",
        "1.0e-99",
        "00000000000000000000000000000001",
        "1000000000000000000000000000e-27",
        "0.0e-99",
        "-0",
        ".5",
        "5.",
        "+1.5E+01",
        "123456789012345678000000e-5",
    ];
    random.pick(&list).to_string()
}
