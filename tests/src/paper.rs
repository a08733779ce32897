// A plain reading of the paper, apart from the library: what it answers for a file, a site's
// text and the room lent, read or restated, and for shapes alone.

pub mod lines;
pub mod lookup;
pub mod numbers;
pub mod plays;
pub mod restating;
mod rows;
mod rules;
pub mod shapes;
mod syntax;

use lookup::Rasters;
use rules::Checked;
use syntax::Sheet;

/// The refusals, by the paper's numbers.
pub const BIG: u64 = 1;
pub const LINE: u64 = 2;
pub const VERSION: u64 = 3;
pub const SECTION: u64 = 4;
pub const FIELD: u64 = 5;
pub const MISSING: u64 = 6;
pub const ROOM: u64 = 7;
pub const SITE: u64 = 8;
pub const DUPLICATE: u64 = 9;
pub const RASTER: u64 = 10;
pub const SHAPE: u64 = 11;
pub const REFERENCE: u64 = 12;
pub const LOOP: u64 = 13;
pub const USE: u64 = 14;
pub const ALIGN: u64 = 15;
pub const LONG: u64 = 16;
pub const OUTLASTS: u64 = 17;
pub const UNSAYABLE: u64 = 18;
pub const OUTPUT: u64 = 19;

/// The edition of a file: 1.3 or 1.4.
#[derive(Clone, Copy, PartialEq, Debug)]
pub enum Edition {
    V13,
    V14,
}

/// A refusal with its line.
#[derive(Clone, Copy, PartialEq, Debug)]
pub struct Fault {
    pub number: u64,
    pub line: u64,
}

/// An accepted file: what its lines give, its rasters, and what the tables hold.
pub struct Accepted {
    pub sheet: Sheet,
    pub rasters: Rasters,
    /// The rows, each block with its ns.
    pub rows: Vec<Vec<i64>>,
    /// The samples of each shape.
    pub shapes: Vec<Vec<i64>>,
}

impl Accepted {
    /// The file as the rules ask it.
    fn checked(&self) -> Checked<'_> {
        Checked::new(&self.sheet, self.rasters, &self.shapes)
    }
}

/// Whether the file or the site's text is BIG.
pub fn is_big(file: &[u8], site: &[u8]) -> bool {
    file.len() > 1 << 24 || site.len() > 4096
}

/// The edition that a number names.
pub fn edition_of(number: u64) -> Option<Edition> {
    match number {
        103 => Some(Edition::V13),
        104 => Some(Edition::V14),
        _ => None,
    }
}

/// Reads a file with room for `rows_len` and `samples_len` numbers, alone or to be restated to a
/// target: asks every rule from BIG to OUTLASTS in the paper's order.
pub fn read(
    file: &[u8],
    site: &[u8],
    rows_len: usize,
    samples_len: usize,
    target: Option<Edition>,
) -> Result<Accepted, Fault> {
    refuse(BIG, is_big(file, site).then_some(0))?;
    let sheet = syntax::parsed(file)?;
    refuse(MISSING, is_missing(&sheet).then_some(0))?;
    let exceeds = sheet.rows.len() > rows_len / 12 || sheet.samples > samples_len;
    refuse(ROOM, exceeds.then_some(0))?;
    let site_asked = sheet.edition == Edition::V13 || target.is_some();
    refuse(SITE, (site_asked && lookup::site_definitions(site).is_none()).then_some(0))?;
    refuse(DUPLICATE, rules::duplicate(file, &sheet))?;
    let rasters = lookup::rasters(file, site, &sheet);
    let lacks = lacks_raster(&sheet, &rasters) || restating::lacks_raster(target, &rasters, site);
    refuse(RASTER, lacks.then_some(0))?;
    let shapes = expanded_shapes(&sheet)?;
    let checked = Checked::new(&sheet, rasters, &shapes);
    refuse(REFERENCE, checked.reference())?;
    refuse(LOOP, checked.looping())?;
    refuse(USE, checked.misuse())?;
    if sheet.edition == Edition::V14 {
        refuse(ALIGN, checked.misaligned())?;
    }
    refuse(LONG, checked.too_long())?;
    refuse(OUTLASTS, checked.outlasted())?;
    let rows = finished_rows(&checked);
    Ok(Accepted { sheet, rasters, rows, shapes })
}

/// A refusal, if there is a line for it.
fn refuse(number: u64, line: Option<u64>) -> Result<(), Fault> {
    match line {
        Some(line) => Err(Fault { number, line }),
        None => Ok(()),
    }
}

/// MISSING: no block row, or in 1.4 no `[DEFINITIONS]`.
fn is_missing(sheet: &Sheet) -> bool {
    let no_block = !sheet.rows.iter().any(|row| row.numbers[0] == rows::BLOCK);
    no_block || (sheet.edition == Edition::V14 && !sheet.has_definitions)
}

/// RASTER: 1.4 needs all four, 1.3 the first two.
fn lacks_raster(sheet: &Sheet, rasters: &Rasters) -> bool {
    let needed = if sheet.edition == Edition::V14 { 4 } else { 2 };
    rasters[..needed].iter().any(Option::is_none)
}

/// SHAPE: the samples of every shape, or the header line of the first that does not expand.
fn expanded_shapes(sheet: &Sheet) -> Result<Vec<Vec<i64>>, Fault> {
    let mut all = Vec::new();
    for shape in &sheet.shapes {
        let samples = shapes::expanded(&shape.values, shape.num, sheet.edition);
        all.push(samples.ok_or(Fault { number: SHAPE, line: shape.line })?);
    }
    Ok(all)
}

/// The rows as they are handed back, each block with its ns.
fn finished_rows(checked: &Checked) -> Vec<Vec<i64>> {
    let finished = |row: &syntax::Row| {
        let mut numbers = row.numbers.clone();
        if numbers[0] == rows::BLOCK {
            numbers[9] = checked.block_length(&numbers) as i64;
        }
        numbers
    };
    checked.sheet.rows.iter().map(finished).collect()
}
