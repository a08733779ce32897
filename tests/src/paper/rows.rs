// Lines with columns, read into the numbers of a row.

use super::numbers::{counter, decimal, decimal_text, integer, whole, M};
use super::Edition;

/// The kinds of rows, by the number that comes first in them.
pub const BLOCK: i64 = 1;
pub const RF: i64 = 2;
pub const GRADIENT: i64 = 3;
pub const TRAP: i64 = 4;
pub const ADC: i64 = 5;
pub const DELAY: i64 = 6;
pub const ENTRY: i64 = 7;
pub const EXTENSION: i64 = 8;
pub const TRIGGER: i64 = 9;
pub const LABEL: i64 = 10;
pub const SHAPE: i64 = 11;

/// The known extensions, by their codes.
pub const TRIGGERS: i64 = 1;
pub const LABELSET: i64 = 2;
pub const LABELINC: i64 = 3;

/// Their names, in the order of the codes.
const EXTENSION_NAMES: [&str; 3] = ["TRIGGERS", "LABELSET", "LABELINC"];

/// The labels, numbered from 1 in this order: nine counters, three flags, ONCE.
const LABELS: [&str; 13] =
    ["LIN", "PAR", "SLC", "SEG", "REP", "AVG", "SET", "ECO", "PHS", "NAV", "REV", "SMS", "ONCE"];

/// The number of ONCE among them.
pub const ONCE: i64 = 13;

/// What a column holds.
#[derive(Clone, Copy)]
enum Column {
    /// An ID, a type, or a reference that may not be 0.
    Id,
    /// A reference that may be 0, or a trigger's type or channel.
    Reference,
    /// Microseconds, or a block's duration.
    Time,
    /// A number of samples.
    Count,
    /// A decimal as two numbers.
    Decimal,
    /// A decimal worth whole nanoseconds.
    Dwell,
    /// No field of the line, and 0 in the row.
    Absent,
}

/// The columns of the lines of a kind of row.
fn columns_of(kind: i64, edition: Edition) -> Vec<Column> {
    use Column::*;
    let time = if edition == Edition::V14 { Reference } else { Absent };
    let length = if edition == Edition::V14 { Time } else { Reference };
    match kind {
        BLOCK => vec![
            Id, length, Reference, Reference, Reference, Reference, Reference, Reference, Absent,
        ],
        RF => vec![Id, Decimal, Id, Id, time, Time, Decimal, Decimal],
        GRADIENT => vec![Id, Decimal, Id, time, Time],
        TRAP => vec![Id, Decimal, Time, Time, Time, Time],
        ADC => vec![Id, Count, Dwell, Time, Decimal, Decimal],
        DELAY => vec![Id, Time],
        ENTRY => vec![Id, Id, Id, Reference],
        TRIGGER => vec![Id, Reference, Reference, Time, Time],
        _ => unreachable!("no columns for kind {kind}"),
    }
}

/// Reads one field by its column into the numbers of a row.
fn field_into(numbers: &mut Vec<i64>, column: Column, field: &[u8]) -> Option<()> {
    match column {
        Column::Id => numbers.push(integer(field, 1, M)?),
        Column::Reference => numbers.push(integer(field, 0, M)?),
        Column::Time => numbers.push(integer(field, 0, 1_000_000_000)?),
        Column::Count => numbers.push(integer(field, 1, 1_000_000)?),
        Column::Dwell => numbers.push(whole(decimal(field)?, 0, 1, 1_000_000_000)?),
        Column::Decimal => {
            let value = decimal(field)?;
            numbers.extend([value.mantissa, value.exponent]);
        }
        Column::Absent => numbers.push(0),
    }
    Some(())
}

/// The numbers of a row of a kind, from the fields of its line.
pub fn row_of(kind: i64, edition: Edition, fields: &[&[u8]]) -> Option<Vec<i64>> {
    let mut numbers = vec![kind];
    let mut fields = fields.iter();
    for column in columns_of(kind, edition) {
        match column {
            Column::Absent => numbers.push(0),
            _ => field_into(&mut numbers, column, fields.next()?)?,
        }
    }
    fields.next().is_none().then_some(numbers)
}

/// The numbers of a label's row: id, 0 set or 1 increment, value, label.
pub fn label_of(code: i64, edition: Edition, fields: &[&[u8]]) -> Option<Vec<i64>> {
    let [id, value, name] = fields[..] else {
        return None;
    };
    let id = integer(id, 1, M)?;
    let label = 1 + LABELS.iter().position(|label| label.as_bytes() == name)? as i64;
    let set = code == LABELSET;
    let value = match label {
        1..=9 => counter(value)?,
        10..=12 if set => integer(value, 0, 1)?,
        ONCE if set && edition == Edition::V14 => integer(value, 0, M)?,
        _ => return None,
    };
    Some(vec![LABEL, id, i64::from(!set), value, label])
}

/// The code of an extension's name, if it is a name.
pub fn extension_code(name: &[u8]) -> Option<i64> {
    let letter = |b: &u8| b.is_ascii_alphanumeric() || *b == b'_';
    if name.is_empty() || name.len() > 32 || !name.iter().all(letter) {
        return None;
    }
    let known = EXTENSION_NAMES.iter().position(|known| known.as_bytes() == name);
    Some(known.map_or(0, |place| place as i64 + 1))
}

/// A row's line as an edition writes it: its columns with single spaces, or a form of its own.
pub fn line_text(edition: Edition, numbers: &[i64]) -> String {
    let fields = match numbers[0] {
        EXTENSION => {
            let name = EXTENSION_NAMES[numbers[2] as usize - 1];
            vec!["extension".to_string(), name.to_string(), numbers[1].to_string()]
        }
        LABEL => {
            let name = LABELS[numbers[4] as usize - 1];
            vec![numbers[1].to_string(), numbers[3].to_string(), name.to_string()]
        }
        kind => fields_text(&columns_of(kind, edition), &numbers[1..]),
    };
    fields.join(" ") + "\n"
}

/// The fields of columns: a decimal from two numbers, any other from one, an absent one left out.
fn fields_text(columns: &[Column], numbers: &[i64]) -> Vec<String> {
    let mut fields = Vec::new();
    let mut numbers = numbers.iter();
    let mut next = || *numbers.next().expect("a number for each column");
    for column in columns {
        let number = next();
        match column {
            Column::Absent => {}
            Column::Decimal => fields.push(decimal_text(number, next())),
            _ => fields.push(number.to_string()),
        }
    }
    fields
}
