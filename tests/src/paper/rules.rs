// The rules over a whole file, from DUPLICATE to OUTLASTS: each answers the first line concerned.

use super::lookup::Rasters;
use super::numbers::ONE;
use super::rows::*;
use super::syntax::{Row, Sheet};
use super::Edition;
use std::collections::{HashMap, HashSet};

/// A class whose members are unique: a kind of rows, or words.
#[derive(Clone, Copy, PartialEq, Eq, Hash)]
pub enum Class {
    Of(i64),
    Increments,
    Names,
    Keys,
}

/// A number or a word of a class.
#[derive(PartialEq, Eq, Hash)]
enum Member<'a> {
    Number(i64),
    Word(&'a [u8]),
}

/// The class of a row's ID; an extension's type is its ID.
fn class_of(numbers: &[i64]) -> Class {
    match numbers[0] {
        TRAP => Class::Of(GRADIENT),
        LABEL if numbers[2] == 1 => Class::Increments,
        kind => Class::Of(kind),
    }
}

/// The first line at which something is met again in its class.
pub fn duplicate(file: &[u8], sheet: &Sheet) -> Option<u64> {
    let mut met = Vec::new();
    for row in &sheet.rows {
        met.push((row.line, class_of(&row.numbers), Member::Number(row.numbers[1])));
    }
    for (line, name) in &sheet.names {
        met.push((*line, Class::Names, Member::Word(name)));
    }
    for definition in &sheet.definitions {
        let key = &file[definition.key[0]..definition.key[1]];
        met.push((definition.line, Class::Keys, Member::Word(key)));
    }
    met.sort_by_key(|(line, _, _)| *line);
    let mut seen = HashSet::new();
    met.into_iter()
        .find_map(|(line, class, member)| (!seen.insert((class, member))).then_some(line))
}

/// Rows found by class and ID, samples by shape, and the rasters: what the rules ask.
pub struct Checked<'a> {
    pub sheet: &'a Sheet,
    pub rasters: Rasters,
    pub samples: HashMap<i64, &'a [i64]>,
    found: HashMap<(Class, i64), &'a Row>,
}

impl<'a> Checked<'a> {
    /// Takes a file's rows and the samples of its shapes, in the order of the shapes.
    pub fn new(sheet: &'a Sheet, rasters: Rasters, expanded: &'a [Vec<i64>]) -> Checked<'a> {
        let of = |row: &'a Row| ((class_of(&row.numbers), row.numbers[1]), row);
        let found = sheet.rows.iter().map(of).collect();
        let shapes = sheet.shapes.iter().zip(expanded);
        let samples = shapes.map(|(shape, samples)| (shape.id, &samples[..])).collect();
        Checked { sheet, rasters, samples, found }
    }

    /// The line of the first row that breaks a rule.
    fn first(&self, breaks: impl Fn(&[i64]) -> bool) -> Option<u64> {
        self.sheet.rows.iter().find(|row| breaks(&row.numbers)).map(|row| row.line)
    }

    /// The row of a class with an ID.
    pub fn row(&self, class: Class, id: i64) -> Option<&[i64]> {
        self.found.get(&(class, id)).map(|row| &row.numbers[..])
    }

    /// REFERENCE: the first row with an ID or type that meets no row.
    pub fn reference(&self) -> Option<u64> {
        self.first(|row| {
            let wanted = self.references(row);
            wanted.into_iter().any(|(class, id)| id != 0 && self.row(class, id).is_none())
        })
    }

    /// The IDs that a row refers to, with their classes.
    fn references(&self, row: &[i64]) -> Vec<(Class, i64)> {
        let gradient = Class::Of(GRADIENT);
        let shape = Class::Of(SHAPE);
        match row[0] {
            BLOCK => {
                let mut wanted = vec![
                    (Class::Of(RF), row[3]),
                    (gradient, row[4]),
                    (gradient, row[5]),
                    (gradient, row[6]),
                    (Class::Of(ADC), row[7]),
                    (Class::Of(ENTRY), row[8]),
                ];
                if self.sheet.edition == Edition::V13 {
                    wanted.push((Class::Of(DELAY), row[2]));
                }
                wanted
            }
            RF => vec![(shape, row[4]), (shape, row[5]), (shape, row[6])],
            GRADIENT => vec![(shape, row[4]), (shape, row[5])],
            ENTRY => {
                let mut wanted = vec![(Class::Of(EXTENSION), row[2]), (Class::Of(ENTRY), row[4])];
                wanted.extend(self.entry_class(row).map(|class| (class, row[3])));
                wanted
            }
            _ => Vec::new(),
        }
    }

    /// The class that an entry's ref is sought in; none for an unknown extension.
    pub fn entry_class(&self, entry: &[i64]) -> Option<Class> {
        match self.row(Class::Of(EXTENSION), entry[2])?[2] {
            TRIGGERS => Some(Class::Of(TRIGGER)),
            LABELSET => Some(Class::Of(LABEL)),
            LABELINC => Some(Class::Increments),
            _ => None,
        }
    }

    /// The entries of a chain, as far as the 257th.
    pub fn chain(&self, first: i64) -> Vec<&[i64]> {
        let mut entries = Vec::new();
        let mut id = first;
        while let Some(entry) = self.row(Class::Of(ENTRY), id) {
            entries.push(entry);
            id = entry[4];
            if entries.len() > 256 {
                break;
            }
        }
        entries
    }

    /// LOOP: the first entry whose chain is over 256 entries.
    pub fn looping(&self) -> Option<u64> {
        self.first(|row| row[0] == ENTRY && self.chain(row[1]).len() > 256)
    }

    /// USE: the first event whose shapes do not fit it.
    pub fn misuse(&self) -> Option<u64> {
        self.first(|row| match row[0] {
            RF => {
                let counts_differ = self.samples[&row[4]].len() != self.samples[&row[5]].len();
                counts_differ || !self.is_amplitude(row[4]) || !self.is_timed(row[4], row[6])
            }
            GRADIENT => !self.is_amplitude(row[4]) || !self.is_timed(row[4], row[5]),
            _ => false,
        })
    }

    /// Whether the samples of a shape lie in -1 to 1.
    fn is_amplitude(&self, shape: i64) -> bool {
        self.samples[&shape].iter().all(|sample| (-ONE..=ONE).contains(sample))
    }

    /// Whether a time shape, if there is one, fits an amplitude shape.
    fn is_timed(&self, shape: i64, time: i64) -> bool {
        if time == 0 {
            return true;
        }
        let times = self.samples[&time];
        times.len() == self.samples[&shape].len()
            && times.iter().all(|time| *time >= 0 && time % ONE == 0)
            && times.windows(2).all(|pair| pair[0] < pair[1])
    }

    /// A raster that RASTER has found there.
    fn raster(&self, number: usize) -> i64 {
        self.rasters[number].expect("a needed raster")
    }

    /// ALIGN: the first event that is off its raster.
    pub fn misaligned(&self) -> Option<u64> {
        let off =
            |microseconds: &i64, raster: usize| microseconds * 1000 % self.raster(raster) != 0;
        self.first(|row| match row[0] {
            RF => off(&row[7], 1),
            GRADIENT => off(&row[6], 0),
            TRAP => row[4..8].iter().any(|time| off(time, 0)),
            ADC => row[3] % self.raster(2) != 0,
            _ => false,
        })
    }

    /// How long an event lasts with its delay, in ns.
    fn length(&self, event: &[i64]) -> i128 {
        let sampled = |shape: i64, time: i64, raster: usize| {
            let steps = match time {
                0 => self.samples[&shape].len() as i64,
                _ => self.samples[&time].last().expect("a sample") / ONE,
            };
            i128::from(steps) * i128::from(self.raster(raster))
        };
        let ns = |microseconds: i64| i128::from(microseconds) * 1000;
        match event[0] {
            RF => ns(event[7]) + sampled(event[4], event[6], 1),
            GRADIENT => ns(event[6]) + sampled(event[4], event[5], 0),
            TRAP => ns(event[4]) + ns(event[5]) + ns(event[6]) + ns(event[7]),
            ADC => ns(event[4]) + i128::from(event[2]) * i128::from(event[3]),
            DELAY => ns(event[2]),
            TRIGGER => ns(event[4]) + ns(event[5]),
            _ => 0,
        }
    }

    /// How long the longest event of a block lasts, in ns.
    fn longest(&self, block: &[i64]) -> i128 {
        let events =
            self.references(block).into_iter().filter(|(class, _)| *class != Class::Of(ENTRY));
        let mut lengths: Vec<i128> = Vec::new();
        for (class, id) in events {
            lengths.extend(self.row(class, id).map(|event| self.length(event)));
        }
        for entry in self.chain(block[8]) {
            let object = self.entry_class(entry).and_then(|class| self.row(class, entry[3]));
            lengths.extend(object.map(|object| self.length(object)));
        }
        lengths.into_iter().max().unwrap_or(0)
    }

    /// How long a block lasts, in ns.
    pub fn block_length(&self, block: &[i64]) -> i128 {
        match self.sheet.edition {
            Edition::V13 => self.longest(block),
            Edition::V14 => i128::from(block[2]) * i128::from(self.raster(3)),
        }
    }

    /// LONG: the first block over 10^12 ns.
    pub fn too_long(&self) -> Option<u64> {
        self.first(|row| row[0] == BLOCK && self.block_length(row) > 1_000_000_000_000)
    }

    /// OUTLASTS: the first block of a 1.4 file with an event longer than it.
    pub fn outlasted(&self) -> Option<u64> {
        if self.sheet.edition == Edition::V13 {
            return None;
        }
        self.first(|row| row[0] == BLOCK && self.longest(row) > self.block_length(row))
    }
}
