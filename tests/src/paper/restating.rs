// Restating: an accepted file said in 1.3.1 or 1.4.1, or UNSAYABLE.

use super::lookup::{self, Rasters, RASTER_NAMES};
use super::rows::*;
use super::shapes::stored_text;
use super::{refuse, Accepted, Edition, Fault, OUTPUT, UNSAYABLE};

/// The sections whose rows are written as they are, before DELAYS.
const EVENTS: [(&str, i64); 4] =
    [("RF", RF), ("GRADIENTS", GRADIENT), ("TRAP", TRAP), ("ADC", ADC)];

/// Restates a file with room for numbers and, in the output, for `out_len` bytes.
pub fn restate(
    file: &[u8],
    site: &[u8],
    target: Edition,
    [rows_len, samples_len, out_len]: [usize; 3],
) -> Result<(Accepted, Vec<u8>), Fault> {
    let accepted = super::read(file, site, rows_len, samples_len, Some(target))?;
    refuse(UNSAYABLE, is_unsayable(&accepted, target, site).then_some(0))?;
    let text = text_of(&accepted, target, file, site);
    refuse(OUTPUT, (text.len() > out_len || text.len() > 1 << 24).then_some(0))?;
    Ok((accepted, text))
}

/// RASTER, besides what reading needs: to 1.4.1 all four, to 1.3.1 the site's first two.
pub fn lacks_raster(target: Option<Edition>, rasters: &Rasters, site: &[u8]) -> bool {
    match target {
        None => false,
        Some(Edition::V13) => lookup::site_rasters(site)[..2].contains(&None),
        Some(Edition::V14) => rasters.contains(&None),
    }
}

/// UNSAYABLE: an unknown extension, or what the target has no way to say.
fn is_unsayable(accepted: &Accepted, target: Edition, site: &[u8]) -> bool {
    let any = |breaks: &dyn Fn(&[i64]) -> bool| accepted.rows.iter().any(|row| breaks(row));
    if any(&|row| row[0] == EXTENSION && row[2] == 0) {
        return true;
    }
    match target {
        Edition::V13 => {
            let unsaid = |row: &[i64]| match row[0] {
                RF => row[6] != 0,
                GRADIENT => row[5] != 0,
                BLOCK => row[9] % 1000 != 0,
                LABEL => row[4] == ONCE,
                _ => false,
            };
            any(&unsaid) || accepted.rasters[..2] != lookup::site_rasters(site)[..2]
        }
        Edition::V14 => {
            let raster = block_raster(accepted);
            let off = |ns: i64| ns % raster != 0 || ns / raster > 1_000_000_000;
            accepted.checked().misaligned().is_some() || any(&|row| row[0] == BLOCK && off(row[9]))
        }
    }
}

/// BlockDurationRaster, which restating to 1.4.1 needs.
fn block_raster(accepted: &Accepted) -> i64 {
    accepted.rasters[3].expect("a needed raster")
}

/// The whole text: VERSION, then the other sections that are not empty.
fn text_of(accepted: &Accepted, target: Edition, file: &[u8], site: &[u8]) -> Vec<u8> {
    let minor = if target == Edition::V13 { 3 } else { 4 };
    let version = format!("major 1\nminor {minor}\nrevision 1\n");
    let (blocks, delays) = blocks_and_delays(accepted, target);
    let mut sections = vec![
        ("VERSION", version.into_bytes()),
        ("DEFINITIONS", definition_lines(accepted, target, file, site)),
        ("BLOCKS", row_lines(&blocks, target, BLOCK..=BLOCK)),
    ];
    for (name, kind) in EVENTS {
        sections.push((name, row_lines(&accepted.rows, target, kind..=kind)));
    }
    sections.push(("DELAYS", row_lines(&delays, target, DELAY..=DELAY)));
    sections.push(("EXTENSIONS", row_lines(&accepted.rows, target, ENTRY..=LABEL)));
    sections.push(("SHAPES", shape_lines(accepted, target)));
    let mut text = Vec::new();
    for (name, lines) in sections.iter().filter(|(_, lines)| !lines.is_empty()) {
        text.extend_from_slice(format!("[{name}]\n").as_bytes());
        text.extend_from_slice(lines);
        text.push(b'\n');
    }
    text
}

/// The definitions as read; for 1.4.1 the rasters that are absent, with the site's values.
fn definition_lines(accepted: &Accepted, target: Edition, file: &[u8], site: &[u8]) -> Vec<u8> {
    let part = |place: [usize; 2]| &file[place[0]..place[1]];
    let definitions = accepted.sheet.definitions.iter();
    let mut all: Vec<[&[u8]; 2]> = definitions.map(|d| [part(d.key), part(d.value)]).collect();
    if target == Edition::V14 {
        for name in RASTER_NAMES {
            if !all.iter().any(|[key, _]| *key == name.as_bytes()) {
                let value = lookup::site_value(site, name).expect("a needed raster");
                all.push([name.as_bytes(), value]);
            }
        }
    }
    all.iter().flat_map(|[key, value]| [key, &b" "[..], value, b"\n"].concat()).collect()
}

/// The rows of the kinds of a section, in file order.
fn row_lines(rows: &[Vec<i64>], target: Edition, kinds: std::ops::RangeInclusive<i64>) -> Vec<u8> {
    let wanted = rows.iter().filter(|row| kinds.contains(&row[0]));
    wanted.flat_map(|row| line_text(target, row).into_bytes()).collect()
}

/// The blocks with their durations as the target says them: for 1.4.1 in BlockDurationRasters, for
/// 1.3.1 as IDs of delay rows, one for each nonzero duration, numbered from 1 by first use.
fn blocks_and_delays(accepted: &Accepted, target: Edition) -> (Vec<Vec<i64>>, Vec<Vec<i64>>) {
    let mut blocks = Vec::new();
    let mut durations: Vec<i64> = Vec::new();
    for row in accepted.rows.iter().filter(|row| row[0] == BLOCK) {
        let mut block = row.clone();
        let ns = row[9];
        if target == Edition::V13 && ns != 0 && !durations.contains(&ns) {
            durations.push(ns);
        }
        block[2] = match target {
            Edition::V13 => durations.iter().position(|d| *d == ns).map_or(0, |at| at as i64 + 1),
            Edition::V14 => ns / block_raster(accepted),
        };
        blocks.push(block);
    }
    let delay = |(at, ns): (usize, &i64)| vec![DELAY, at as i64 + 1, ns / 1000];
    (blocks, durations.iter().enumerate().map(delay).collect())
}

/// The shapes, written anew from their samples, with a blank line between one and the next.
fn shape_lines(accepted: &Accepted, target: Edition) -> Vec<u8> {
    let text = |(shape, samples): (&super::syntax::Shape, &Vec<i64>)| {
        let head = format!("shape_id {}\nnum_samples {}\n", shape.id, shape.num);
        [head.into_bytes(), stored_text(samples, target)].concat()
    };
    let shapes = accepted.sheet.shapes.iter().zip(&accepted.shapes);
    shapes.map(text).collect::<Vec<_>>().join(&b'\n')
}
