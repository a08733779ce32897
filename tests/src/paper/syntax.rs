// A whole file line by line: its rows, definitions and shapes, or the first fault of 2 to 5.

use super::lines::{breaks_line, definition_of, fields_of, kind_of, lines_of, trimmed, Kind, Line};
use super::numbers::{integer, Decimal, M};
use super::rows::{self, extension_code, label_of, row_of};
use super::shapes::{headed, value_of, COUNT_MOST};
use super::{Edition, Fault, FIELD, LINE, SECTION, VERSION};

/// One row with its line.
pub struct Row {
    pub line: u64,
    pub numbers: Vec<i64>,
}

/// A shape's values, and where its stored lines stand in the file.
pub struct Shape {
    pub id: i64,
    pub line: u64,
    pub num: usize,
    pub values: Vec<Decimal>,
    pub from: usize,
    pub to: usize,
}

/// A definition's key and value as places in the text.
pub struct Definition {
    pub line: u64,
    pub key: [usize; 2],
    pub value: [usize; 2],
}

/// What the lines of a file give.
pub struct Sheet {
    pub edition: Edition,
    pub has_definitions: bool,
    pub rows: Vec<Row>,
    pub definitions: Vec<Definition>,
    pub shapes: Vec<Shape>,
    /// The sum of num_samples.
    pub samples: usize,
    /// Each `extension` line's number and name.
    pub names: Vec<(u64, Vec<u8>)>,
}

/// Where the reading of lines stands.
#[derive(Clone, Copy, PartialEq)]
enum Place {
    Start,
    Version,
    Definitions,
    Rows(i64),
    Entries,
    ExtensionRows(i64),
    Shapes,
    ShapeCount(i64, u64),
    ShapeValues,
    Signature,
}

/// The section lines behind VERSION and the place that each leads to.
const SECTIONS: [(&str, Place); 10] = [
    ("[DEFINITIONS]", Place::Definitions),
    ("[BLOCKS]", Place::Rows(rows::BLOCK)),
    ("[RF]", Place::Rows(rows::RF)),
    ("[GRADIENTS]", Place::Rows(rows::GRADIENT)),
    ("[TRAP]", Place::Rows(rows::TRAP)),
    ("[ADC]", Place::Rows(rows::ADC)),
    ("[EXTENSIONS]", Place::Entries),
    ("[SHAPES]", Place::Shapes),
    ("[DELAYS]", Place::Rows(rows::DELAY)),
    ("[SIGNATURE]", Place::Signature),
];

/// The four versions that are read.
const VERSIONS: [[i64; 3]; 4] = [[1, 3, 0], [1, 3, 1], [1, 4, 0], [1, 4, 1]];

/// The words of VERSION's rows.
const VERSION_WORDS: [&[u8]; 3] = [b"major", b"minor", b"revision"];

/// The reading of lines: what was given so far, and where it stands.
struct Reader {
    sheet: Sheet,
    place: Place,
    version: Vec<i64>,
    seen: Vec<usize>,
}

/// Reads all lines of a file.
pub fn parsed(file: &[u8]) -> Result<Sheet, Fault> {
    let mut reader = Reader::new();
    for line in lines_of(file) {
        if let Err(number) = reader.step(&line) {
            return Err(Fault { number, line: line.number });
        }
    }
    match reader.place {
        Place::Start => Err(Fault { number: VERSION, line: 0 }),
        Place::Version if reader.version.len() < 3 => Err(Fault { number: VERSION, line: 0 }),
        Place::ShapeCount(..) => Err(Fault { number: FIELD, line: 0 }),
        _ => Ok(reader.sheet),
    }
}

impl Reader {
    /// The reading before the first line.
    fn new() -> Reader {
        let sheet = Sheet {
            edition: Edition::V13,
            has_definitions: false,
            rows: Vec::new(),
            definitions: Vec::new(),
            shapes: Vec::new(),
            samples: 0,
            names: Vec::new(),
        };
        Reader { sheet, place: Place::Start, version: Vec::new(), seen: Vec::new() }
    }

    /// One line of any kind, or the number of its fault.
    fn step(&mut self, line: &Line) -> Result<(), u64> {
        if breaks_line(line.content) {
            return Err(LINE);
        }
        let result = match kind_of(line.content) {
            Kind::Comment => Ok(()),
            Kind::Blank => self.blank(),
            Kind::Section => self.section(line),
            Kind::Other => self.other(line),
        };
        if self.place == Place::ShapeValues {
            self.sheet.shapes.last_mut().expect("a shape is open").to = line.next;
        }
        result
    }

    /// A blank line, which counts only in shapes.
    fn blank(&mut self) -> Result<(), u64> {
        match self.place {
            Place::ShapeCount(..) => return Err(FIELD),
            Place::ShapeValues => self.place = Place::Shapes,
            _ => {}
        }
        Ok(())
    }

    /// A section line.
    fn section(&mut self, line: &Line) -> Result<(), u64> {
        let name = trimmed(line.content);
        if self.place == Place::Start {
            self.place = Place::Version;
            return if name == b"[VERSION]" { Ok(()) } else { Err(VERSION) };
        }
        if self.version.len() < 3 {
            return Err(VERSION);
        }
        let known = SECTIONS.iter().position(|(section, _)| section.as_bytes() == name);
        let number = known.ok_or(SECTION)?;
        let place = SECTIONS[number].1;
        let foreign = match self.sheet.edition {
            Edition::V13 => place == Place::Signature,
            Edition::V14 => place == Place::Rows(rows::DELAY),
        };
        if foreign || self.seen.contains(&number) || self.place == Place::Signature {
            return Err(SECTION);
        }
        if matches!(self.place, Place::ShapeCount(..)) {
            return Err(FIELD);
        }
        self.seen.push(number);
        self.place = place;
        self.sheet.has_definitions |= place == Place::Definitions;
        Ok(())
    }

    /// A line that is no comment, not blank and no section line.
    fn other(&mut self, line: &Line) -> Result<(), u64> {
        match self.place {
            Place::Start => Err(VERSION),
            Place::Version => self.version_row(line).ok_or(VERSION),
            Place::Definitions => self.definition(line).ok_or(FIELD),
            Place::Rows(kind) => self.row(kind, line).ok_or(FIELD),
            Place::Entries | Place::ExtensionRows(_) => self.extensions(line).ok_or(FIELD),
            Place::Shapes => self.shape_id(line).ok_or(FIELD),
            Place::ShapeCount(id, head) => self.shape_count(id, head, line).ok_or(FIELD),
            Place::ShapeValues => self.shape_value(line).ok_or(FIELD),
            Place::Signature => Ok(()),
        }
    }

    /// A row of VERSION: the one that is due, and not ruling out all four versions.
    fn version_row(&mut self, line: &Line) -> Option<()> {
        let word = VERSION_WORDS.get(self.version.len())?;
        let fields = fields_of(line.content);
        if fields.len() != 2 || fields[0] != *word {
            return None;
        }
        self.version.push(integer(fields[1], 0, 9_999_999_999)?);
        if !VERSIONS.iter().any(|version| version.starts_with(&self.version)) {
            return None;
        }
        if self.version.get(1) == Some(&4) {
            self.sheet.edition = Edition::V14;
        }
        Some(())
    }

    /// A definition.
    fn definition(&mut self, line: &Line) -> Option<()> {
        let (key, value) = definition_of(line.content)?;
        self.sheet.definitions.push(Definition {
            line: line.number,
            key: key.map(|at| at + line.start),
            value: value.map(|at| at + line.start),
        });
        Some(())
    }

    /// A line with the columns of a kind of row.
    fn row(&mut self, kind: i64, line: &Line) -> Option<()> {
        let numbers = row_of(kind, self.sheet.edition, &fields_of(line.content))?;
        self.sheet.rows.push(Row { line: line.number, numbers });
        Some(())
    }

    /// A line of EXTENSIONS: an entry, an `extension` line, or a row of the extension named last.
    fn extensions(&mut self, line: &Line) -> Option<()> {
        let fields = fields_of(line.content);
        if fields[0] == b"extension" {
            return self.extension_head(&fields, line.number);
        }
        match self.place {
            Place::ExtensionRows(0) => Some(()),
            Place::ExtensionRows(rows::TRIGGERS) => self.row(rows::TRIGGER, line),
            Place::ExtensionRows(code) => {
                let numbers = label_of(code, self.sheet.edition, &fields)?;
                self.sheet.rows.push(Row { line: line.number, numbers });
                Some(())
            }
            _ => self.row(rows::ENTRY, line),
        }
    }

    /// A line `extension NAME type`.
    fn extension_head(&mut self, fields: &[&[u8]], line: u64) -> Option<()> {
        let [_, name, number] = fields[..] else {
            return None;
        };
        let code = extension_code(name)?;
        let number = integer(number, 1, M)?;
        self.sheet.rows.push(Row { line, numbers: vec![rows::EXTENSION, number, code] });
        self.sheet.names.push((line, name.to_vec()));
        self.place = Place::ExtensionRows(code);
        Some(())
    }

    /// The line `shape_id N`.
    fn shape_id(&mut self, line: &Line) -> Option<()> {
        let id = headed(line.content, b"shape_id", M)?;
        self.place = Place::ShapeCount(id, line.number);
        Some(())
    }

    /// The line `num_samples N`, with which the shape has its row.
    fn shape_count(&mut self, id: i64, head: u64, line: &Line) -> Option<()> {
        let num = headed(line.content, b"num_samples", COUNT_MOST)?;
        let numbers = vec![rows::SHAPE, id, num, self.sheet.samples as i64];
        self.sheet.samples += num as usize;
        self.sheet.rows.push(Row { line: head, numbers });
        self.sheet.shapes.push(Shape {
            id,
            line: head,
            num: num as usize,
            values: Vec::new(),
            from: line.next,
            to: line.next,
        });
        self.place = Place::ShapeValues;
        Some(())
    }

    /// A stored value.
    fn shape_value(&mut self, line: &Line) -> Option<()> {
        let value = value_of(line.content)?;
        self.sheet.shapes.last_mut()?.values.push(value);
        Some(())
    }
}
