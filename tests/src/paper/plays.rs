// What a file plays: "'Plays the same' compares blocks with their resolved events, expanded samples,
// RF and gradient rasters, durations and extension rows, apart from event IDs and delay rows".

use super::rows::*;
use super::rules::{Checked, Class};
use super::{Accepted, Edition};

/// What is compared of a file.
#[derive(PartialEq)]
struct Played {
    /// Gradient and RF.
    rasters: [Option<i64>; 2],
    /// The samples of each shape, in file order.
    samples: Vec<Vec<i64>>,
    /// The rows of extensions and the lines that declare them, in file order.
    extension_rows: Vec<Vec<i64>>,
    blocks: Vec<Block>,
}

/// One block with all that its references meet.
#[derive(PartialEq)]
struct Block {
    id: i64,
    ns: i64,
    /// RF, gx, gy, gz and ADC.
    events: [Option<Event>; 5],
    /// Each entry's extension and row, in the order of the chain.
    chain: Vec<(i64, Vec<i64>)>,
}

/// An event without its ID: its kind and other numbers, and the samples of the shapes it names.
#[derive(PartialEq)]
struct Event {
    numbers: Vec<i64>,
    shapes: Vec<Vec<i64>>,
}

/// What an accepted file plays.
fn played(accepted: &Accepted) -> Played {
    let checked = accepted.checked();
    let of_kinds = |least: i64, most: i64| {
        accepted.rows.iter().filter(move |row| (least..=most).contains(&row[0]))
    };
    Played {
        rasters: [accepted.rasters[0], accepted.rasters[1]],
        samples: accepted.shapes.clone(),
        extension_rows: of_kinds(EXTENSION, LABEL).cloned().collect(),
        blocks: of_kinds(BLOCK, BLOCK).map(|row| block(&checked, row)).collect(),
    }
}

/// A block's row resolved.
fn block(checked: &Checked, row: &[i64]) -> Block {
    let classes = [RF, GRADIENT, GRADIENT, GRADIENT, ADC];
    let event = |place: usize| {
        let found = checked.row(Class::Of(classes[place]), row[3 + place])?;
        Some(event(checked, found))
    };
    let linked = |entry: &&[i64]| {
        let class = checked.entry_class(entry).expect("a known extension");
        let object = checked.row(class, entry[3]).expect("a row of the extension");
        (object[0], object[2..].to_vec())
    };
    Block {
        id: row[1],
        ns: row[9],
        events: [0, 1, 2, 3, 4].map(event),
        chain: checked.chain(row[8]).iter().map(linked).collect(),
    }
}

/// An event's row resolved: which of its numbers are IDs of shapes goes by its kind.
fn event(checked: &Checked, row: &[i64]) -> Event {
    let shapes = match row[0] {
        RF => 4..7,
        GRADIENT => 4..6,
        _ => 4..4,
    };
    let samples = |id: &i64| checked.samples.get(id).map_or(Vec::new(), |list| list.to_vec());
    let numbers = [&row[..1], &row[2..shapes.start], &row[shapes.end..]].concat();
    Event { numbers, shapes: row[shapes].iter().map(samples).collect() }
}

/// Whether a file's restated text, read again with ample room, is accepted by the target's rules and
/// plays the same; else what is wrong with it.
pub fn plays_the_same(
    file: &[u8],
    site: &[u8],
    target: Edition,
    text: &[u8],
) -> Result<(), String> {
    let ample = usize::MAX;
    let read = |text: &[u8]| super::read(text, site, ample, ample, None);
    let again = read(text).map_err(|fault| format!("the restated text has the fault {fault:?}"))?;
    if again.sheet.edition != target {
        return Err("the restated text is of another edition".to_string());
    }
    let source = read(file).map_err(|fault| format!("the file has the fault {fault:?}"))?;
    match played(&source) == played(&again) {
        true => Ok(()),
        false => Err("the restated text does not play the same".to_string()),
    }
}
