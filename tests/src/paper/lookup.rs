// Definitions of a file beside those of a site, the rasters, and the stored lines of a shape.

use super::lines::{breaks_line, definition_of, kind_of, lines_of, Kind};
use super::numbers::{decimal, whole};
use super::rules::duplicate;
use super::syntax::{parsed, Sheet};
use super::{is_big, Edition};

/// A part of the file's text or of the site's, as start and length.
#[derive(Clone, Copy, PartialEq, Debug)]
pub enum Part {
    None,
    File(usize, usize),
    Site(usize, usize),
}

/// The four rasters in the order of their names, in ns.
pub type Rasters = [Option<i64>; 4];

/// The names of the rasters: gradient, RF, ADC, block duration.
pub const RASTER_NAMES: [&str; 4] =
    ["GradientRasterTime", "RadiofrequencyRasterTime", "AdcRasterTime", "BlockDurationRaster"];

/// The keys and values of a site's text as places in it, or nothing where it is at fault.
pub fn site_definitions(site: &[u8]) -> Option<Vec<([usize; 2], [usize; 2])>> {
    let mut found: Vec<([usize; 2], [usize; 2])> = Vec::new();
    for line in lines_of(site) {
        if breaks_line(line.content) {
            return None;
        }
        match kind_of(line.content) {
            Kind::Blank | Kind::Comment => {}
            Kind::Section => return None,
            Kind::Other => {
                let (key, value) = definition_of(line.content)?;
                let moved = |place: [usize; 2]| place.map(|at| at + line.start);
                found.push((moved(key), moved(value)));
            }
        }
    }
    let mut keys: Vec<&[u8]> = found.iter().map(|(key, _)| &site[key[0]..key[1]]).collect();
    keys.sort();
    keys.dedup();
    (keys.len() == found.len()).then_some(found)
}

/// The value of a key in the file.
fn in_file(file: &[u8], sheet: &Sheet, key: &[u8]) -> Part {
    let found = sheet.definitions.iter().find(|d| &file[d.key[0]..d.key[1]] == key);
    found.map_or(Part::None, |d| Part::File(d.value[0], d.value[1] - d.value[0]))
}

/// The value of a key in the site's text.
fn in_site(site: &[u8], key: &[u8]) -> Part {
    let definitions = site_definitions(site).unwrap_or_default();
    let found = definitions.iter().find(|(named, _)| &site[named[0]..named[1]] == key);
    found.map_or(Part::None, |(_, value)| Part::Site(value[0], value[1] - value[0]))
}

/// The file read as far as a lookup asks: nothing on a fault of 1 to 5, 8 or 9.
fn searchable(file: &[u8], site: &[u8]) -> Option<Sheet> {
    if is_big(file, site) {
        return None;
    }
    let sheet = parsed(file).ok()?;
    site_definitions(site)?;
    match duplicate(file, &sheet) {
        Some(_) => None,
        None => Some(sheet),
    }
}

/// The value sought by key: the file's, else the site's.
pub fn definition(file: &[u8], site: &[u8], key: &[u8]) -> Part {
    match searchable(file, site) {
        Some(sheet) => match in_file(file, &sheet, key) {
            Part::None => in_site(site, key),
            part => part,
        },
        None => Part::None,
    }
}

/// The stored lines of a shape; nothing where it has none.
pub fn stored(file: &[u8], site: &[u8], id: i64) -> Part {
    let Some(sheet) = searchable(file, site) else {
        return Part::None;
    };
    let found = sheet.shapes.iter().find(|shape| shape.id == id);
    match found {
        Some(shape) if shape.from < shape.to => Part::File(shape.from, shape.to - shape.from),
        _ => Part::None,
    }
}

/// The four rasters of a file that is read: 1.4 from the file alone, 1.3 else from the site.
pub fn rasters(file: &[u8], site: &[u8], sheet: &Sheet) -> Rasters {
    RASTER_NAMES.map(|name| {
        let text = match in_file(file, sheet, name.as_bytes()) {
            Part::None if sheet.edition == Edition::V13 => in_site(site, name.as_bytes()),
            part => part,
        };
        match text {
            Part::None => None,
            Part::File(from, length) => raster_of(&file[from..from + length]),
            Part::Site(from, length) => raster_of(&site[from..from + length]),
        }
    })
}

/// The four rasters of a site's text alone.
pub fn site_rasters(site: &[u8]) -> Rasters {
    RASTER_NAMES.map(|name| raster_of(site_value(site, name)?))
}

/// The value of a key in the site's text, as it stands there.
pub fn site_value<'a>(site: &'a [u8], key: &str) -> Option<&'a [u8]> {
    match in_site(site, key.as_bytes()) {
        Part::Site(from, length) => Some(&site[from..from + length]),
        _ => None,
    }
}

/// A raster's text in ns: a decimal in seconds worth a whole 1 to 10^6 ns.
fn raster_of(text: &[u8]) -> Option<i64> {
    whole(decimal(text)?, 9, 1, 1_000_000)
}
