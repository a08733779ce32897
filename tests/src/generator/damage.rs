// Faults: one for each refusal from 3 to 18 among the lines of a draft, and damage among bytes.

use super::draft::{words, Draft, Line, Section, RASTERS};
use crate::random::Random;

/// Fields at borders and of wrong forms.
const FIELDS: [&str; 64] = [
    "0",
    "1",
    "2",
    "00",
    "-0",
    "-1",
    "+1",
    "256",
    "257",
    "2147483647",
    "2147483648",
    "-2147483647",
    "-2147483648",
    "1000000000",
    "1000000001",
    "1000000",
    "1000001",
    "9999999999",
    "0000000001",
    "00000000001",
    "10000000000",
    "99999999999999999999",
    "100000",
    "100000.000000000001",
    "-100000",
    "200000",
    "-200000",
    "200000.000000000001",
    "1e5",
    "1e6",
    "1e-9",
    "1e99",
    "1e100",
    "10e99",
    "1e-99",
    "0.1e-99",
    "1e-100",
    "1e",
    "e5",
    "1e+",
    "1e005",
    ".",
    "1.",
    ".1",
    "1.1.1",
    "--1",
    "+-1",
    "1-",
    "999999999999999999",
    "9999999999999999991",
    "1234567890123456789",
    "-1000000000000000001",
    "0.5",
    "0.0000000000005",
    "-0.0000000000005",
    "00000000000000000000000000000001",
    "000000000000000000000000000000001",
    "NaN",
    "0x1",
    "1,5",
    "\u{b5}",
    "1#",
    "ONCE",
    "PMC",
];

/// Version numbers and words of VERSION.
const VERSION_FIELDS: [&str; 12] =
    ["0", "1", "2", "3", "4", "5", "01", "-1", "1.", "major", "minor", "9999999999"];

/// The section with a name.
fn section<'a>(draft: &'a mut Draft, name: &str) -> Option<&'a mut Section> {
    draft.sections.iter_mut().find(|section| section.name == name)
}

/// Puts a field into a line that has its column.
fn set(line: &mut Line, column: usize, field: &str) {
    if let Some(place) = line.get_mut(column) {
        *place = field.to_string();
    }
}

/// Puts a field into a random row of a section.
fn put(random: &mut Random, draft: &mut Draft, name: &str, column: usize, field: &str) {
    if let Some(section) = section(draft, name) {
        let rows: Vec<usize> = (0..section.lines.len())
            .filter(|row| {
                section.lines[*row].len() > column && section.lines[*row][0] != "extension"
            })
            .collect();
        if !rows.is_empty() {
            let row = random.pick(&rows);
            section.lines[row][column] = field.to_string();
        }
    }
}

/// Gives a raster another value, where it is defined.
fn set_raster(lines: &mut [Line], name: &str, value: &str) {
    let named = lines.iter_mut().filter(|line| line.first().is_some_and(|key| key == name));
    named.for_each(|line| set(line, 1, value));
}

/// A fault that is meant to end in a refusal.
pub fn spoil(random: &mut Random, draft: &mut Draft, refusal: u64) {
    if draft.sections.is_empty() {
        return;
    }
    match refusal {
        3 => spoil_version(random, draft),
        4 => spoil_sections(random, draft),
        6 => spoil_presence(random, draft),
        8 => spoil_site(random, draft),
        9 => spoil_uniqueness(random, draft),
        10 => spoil_rasters(random, draft),
        11 => spoil_shapes(random, draft),
        12 => spoil_references(random, draft),
        13 => spoil_chains(random, draft),
        14 => spoil_uses(random, draft),
        15 => spoil_alignment(random, draft),
        16 => spoil_lengths(random, draft),
        17 => spoil_durations(random, draft),
        18 => spoil_saying(random, draft),
        _ => spoil_fields(random, draft),
    }
}

/// VERSION: a wrong number or word, a row too many or too few, or no VERSION at all.
fn spoil_version(random: &mut Random, draft: &mut Draft) {
    let lines = &mut draft.sections[0].lines;
    match random.below(9) {
        0..=2 => {
            let row = random.below(lines.len());
            let column = random.below(2);
            if let Some(line) = lines.get_mut(row) {
                set(line, column, random.pick(&VERSION_FIELDS));
            }
        }
        3 => lines.truncate(random.below(3)),
        4 => lines.push(words(&[random.pick(&["revision", "x"]), "1"])),
        5 => lines.iter_mut().for_each(|line| line.push("1".to_string())),
        6 if lines.len() > 1 => lines.swap(0, 1),
        7 => {
            let name = random.pick(&["version", "Version", "VERSION ", "VERSIONS", "VERSION] # x"]);
            draft.sections[0].name = name.to_string();
        }
        _ => {
            draft.sections.remove(0);
        }
    }
}

/// SECTION: a section again, unknown, of the other edition, or after SIGNATURE.
fn spoil_sections(random: &mut Random, draft: &mut Draft) {
    let foreign = if draft.new { "DELAYS" } else { "SIGNATURE" };
    let names = [
        foreign,
        foreign,
        "rf",
        " RF ",
        "VERSION",
        "BLOCK",
        "",
        "SIGNATURE",
        "ADC",
        "SHAPES",
        "TRAP",
        "RF]",
        "DELAYS",
        "EXTENSIONS] # x",
    ];
    let again = draft.sections[random.below(draft.sections.len())].name.clone();
    let name = if random.once_in(3) { again } else { random.pick(&names).to_string() };
    let at = 1 + random.below(draft.sections.len());
    draft.sections.insert(at.min(draft.sections.len()), Section { name, lines: Vec::new() });
}

/// FIELD: a field changed, dropped, added or split anywhere.
fn spoil_fields(random: &mut Random, draft: &mut Draft) {
    let number = random.below(draft.sections.len());
    let lines = &mut draft.sections[number].lines;
    let row = random.below(lines.len());
    let Some(line) = lines.get_mut(row) else {
        return;
    };
    match random.below(12) {
        0 => line.push(random.pick(&FIELDS).to_string()),
        1 => {
            line.pop();
        }
        2 if !line.is_empty() => line[0] = "extension".to_string(),
        3 => *line = words(&["extension", random.pick(&["A", "TRIGGERS", "a-b", "LABELSET"]), "9"]),
        4 => *line = words(&[random.pick(&["shape_id", "num_samples", "Shape_ID"]), "3"]),
        5 => line.clear(),
        _ if !line.is_empty() => {
            let column = random.below(line.len());
            line[column] = random.pick(&FIELDS).to_string();
        }
        _ => line.push("0".to_string()),
    }
}

/// MISSING: no block, or no DEFINITIONS.
fn spoil_presence(random: &mut Random, draft: &mut Draft) {
    match random.below(4) {
        0 => draft.sections.retain(|section| section.name != "BLOCKS"),
        1 => section(draft, "BLOCKS").into_iter().for_each(|section| section.lines.clear()),
        2 => section(draft, "DEFINITIONS").into_iter().for_each(|section| section.lines.clear()),
        _ => draft.sections.retain(|section| section.name != "DEFINITIONS"),
    }
}

/// SITE: a bad line in the site's text.
fn spoil_site(random: &mut Random, draft: &mut Draft) {
    let bad: [&[&str]; 7] = [
        &["Name"],
        &["[DEFINITIONS]"],
        &["GradientRasterTime"],
        &["Name", "a\u{1}b"],
        &["Name", "a\rb"],
        &["\u{7f}"],
        &["\u{1}#"],
    ];
    let line = match draft.site.first() {
        Some(first) if random.once_in(3) => words(&[&first[0], "1e-5"]),
        _ => words(random.pick(&bad)),
    };
    let at = random.below(draft.site.len() + 1);
    draft.site.insert(at, line);
}

/// DUPLICATE: an ID, type, name or key used again.
fn spoil_uniqueness(random: &mut Random, draft: &mut Draft) {
    if random.once_in(5) {
        let name = random.pick(&["TRIGGERS", "LABELSET", "OTHER", "LABELINC"]);
        let number = random.pick(&["1", "2", "77"]);
        let section = section(draft, "EXTENSIONS");
        section
            .into_iter()
            .for_each(|section| section.lines.push(words(&["extension", name, number])));
        return;
    }
    if random.once_in(6) {
        let trap = section(draft, "TRAP").and_then(|section| section.lines.first().cloned());
        if let Some(line) = trap {
            put(random, draft, "GRADIENTS", 0, line.first().map_or("1", |id| id));
        }
        return;
    }
    let number = random.below(draft.sections.len());
    let lines = &mut draft.sections[number].lines;
    let from = random.below(lines.len());
    let to = random.below(lines.len());
    if lines.len() > 1 && !lines[from].is_empty() && !lines[to].is_empty() {
        let column = usize::from(lines[from][0] == lines[to][0]);
        let field = lines[from].get(column).cloned();
        match (field, lines[to].get_mut(column)) {
            (Some(field), Some(place)) => *place = field,
            _ => lines[to] = lines[from].clone(),
        }
    }
}

/// RASTER: a raster dropped or changed, in the file and the site.
fn spoil_rasters(random: &mut Random, draft: &mut Draft) {
    let name = random.pick(&RASTERS);
    let values = [
        "0",
        "1e-3",
        "0.001",
        "0.0010000001",
        "1e-9",
        "1e-10",
        "-1e-5",
        "x",
        "1e-5 s",
        "1.5e-9",
        "1e-5#",
        "1000001e-9",
        "999999e-9",
        "00.00001",
        "0.000010",
        "+1e-5",
        "1e-005",
    ];
    let value = random.pick(&values).to_string();
    let drop = random.once_in(3);
    let change = |lines: &mut Vec<Line>| {
        if drop {
            lines.retain(|line| line.first().is_none_or(|key| key != name));
        }
        set_raster(lines, name, &value);
    };
    if let Some(section) = section(draft, "DEFINITIONS") {
        change(&mut section.lines);
    }
    if !random.once_in(4) {
        change(&mut draft.site);
    }
}

/// SHAPE: a value, count or num_samples changed, or a value dropped or doubled.
fn spoil_shapes(random: &mut Random, draft: &mut Draft) {
    let Some(section) = section(draft, "SHAPES") else {
        return;
    };
    let lines = &mut section.lines;
    if lines.is_empty() {
        return;
    }
    if random.once_in(8) {
        return empty_shape(random, lines);
    }
    let row = random.below(lines.len());
    let values =
        ["0", "1", "0.5", "1e6", "1000001", "1.5", "-1", "100000", "1e5", "2e5", "-2e5", "2", "3"];
    match (lines[row].len(), random.below(4)) {
        (1, 0) => {
            lines.remove(row);
        }
        (1, 1) => {
            let line = lines[row].clone();
            lines.insert(row, line);
        }
        (1, _) => lines[row][0] = random.pick(&values).to_string(),
        (2, _) => lines[row][1] = random.pick(&["1", "2", "3", "5", "7", "1000000"]).to_string(),
        _ => lines.insert(row, vec![random.pick(&values).to_string()]),
    }
}

/// Takes all values of one shape away.
fn empty_shape(random: &mut Random, lines: &mut Vec<Line>) {
    let is_head = |row: &usize| lines[*row].first().is_some_and(|word| word == "num_samples");
    let heads: Vec<usize> = (0..lines.len()).filter(is_head).collect();
    if !heads.is_empty() {
        let head = random.pick(&heads);
        let values = lines[head + 1..].iter().take_while(|line| line.len() == 1).count();
        lines.drain(head + 1..head + 1 + values);
    }
}

/// The sections and columns that refer to something.
fn reference_column(random: &mut Random, draft: &Draft) -> (&'static str, usize) {
    let time = usize::from(draft.new);
    let list = [
        ("BLOCKS", 2),
        ("BLOCKS", 3),
        ("BLOCKS", 4),
        ("BLOCKS", 5),
        ("BLOCKS", 6),
        ("BLOCKS", 7),
        ("BLOCKS", 1),
        ("RF", 2),
        ("RF", 3),
        ("RF", 3 + time),
        ("GRADIENTS", 2),
        ("GRADIENTS", 2 + time),
        ("EXTENSIONS", 1),
        ("EXTENSIONS", 2),
        ("EXTENSIONS", 3),
    ];
    random.pick(&list)
}

/// REFERENCE: an ID that meets no row.
fn spoil_references(random: &mut Random, draft: &mut Draft) {
    let (name, column) = reference_column(random, draft);
    let id = random.pick(&["0", "1", "2", "8", "99", "2147483647", "31337", "4711"]);
    put(random, draft, name, column, id);
}

/// LOOP: the next of an entry leads back, or the chain is long.
fn spoil_chains(random: &mut Random, draft: &mut Draft) {
    let Some(section) = section(draft, "EXTENSIONS") else {
        return;
    };
    let is_entry = |line: &&Line| line.len() == 4;
    let head =
        section.lines.iter().position(|line| line.first().is_some_and(|word| word == "extension"));
    let entries = head.unwrap_or(0);
    let Some(first) = section.lines[..entries].iter().find(is_entry).cloned() else {
        return;
    };
    if random.once_in(12) {
        let count = random.pick(&[254, 255, 256, 257, 300]);
        let chain = (0..count).map(|i| {
            let next = if i + 1 < count { 500_001 + i } else { 0 };
            vec![(500_000 + i).to_string(), first[1].clone(), first[2].clone(), next.to_string()]
        });
        section.lines.splice(entries..entries, chain);
        return;
    }
    let ids: Vec<String> =
        section.lines[..entries].iter().filter_map(|line| line.first().cloned()).collect();
    for _ in 0..2 {
        let row = random.below(entries);
        if let Some(next) = section.lines[row].get_mut(3) {
            *next = ids[random.below(ids.len())].clone();
        }
    }
}

/// USE: an event given another shape, or a value out of its range.
fn spoil_uses(random: &mut Random, draft: &mut Draft) {
    let shapes = section(draft, "SHAPES").map_or(Vec::new(), |section| {
        let heads = section.lines.iter().filter(|line| line.len() == 2 && line[0] == "shape_id");
        heads.map(|line| line[1].clone()).collect()
    });
    if shapes.is_empty() {
        return;
    }
    let id = shapes[random.below(shapes.len())].clone();
    let time = usize::from(draft.new);
    let places =
        [("RF", 2), ("RF", 3), ("RF", 3 + time), ("GRADIENTS", 2), ("GRADIENTS", 2 + time)];
    let (name, column) = random.pick(&places);
    put(random, draft, name, column, &id);
}

/// ALIGN: a time that is likely to be off its raster.
fn spoil_alignment(random: &mut Random, draft: &mut Draft) {
    let time = usize::from(draft.new);
    let places = [
        ("RF", 4 + time),
        ("GRADIENTS", 3 + time),
        ("TRAP", 2),
        ("TRAP", 3),
        ("TRAP", 4),
        ("TRAP", 5),
        ("ADC", 2),
    ];
    let (name, column) = random.pick(&places);
    let value = random.pick(&["1", "3", "7", "11", "13", "101"]);
    put(random, draft, name, column, value);
}

/// LONG: a time near or beyond 10^12 ns.
fn spoil_lengths(random: &mut Random, draft: &mut Draft) {
    let value = random.pick(&["1000000000", "999999000", "100000000", "999999999"]).to_string();
    let raster = random.pick(&["1e-3", "1e-6", "1.001e-6", "1e-5", "0.000000999"]).to_string();
    if draft.new && random.once_in(2) {
        put(random, draft, "BLOCKS", 1, &value);
        if let Some(section) = section(draft, "DEFINITIONS") {
            set_raster(&mut section.lines, RASTERS[3], &raster);
        }
        return;
    }
    let places = [
        ("TRAP", 3),
        ("TRAP", 5),
        ("ADC", 3),
        ("DELAYS", 1),
        ("RF", 4 + usize::from(draft.new)),
        ("TRAP", 2),
    ];
    let (name, column) = random.pick(&places);
    put(random, draft, name, column, &value);
    if name == "ADC" || random.once_in(3) {
        put(random, draft, "ADC", 1, "1000000");
        let dwell = random.pick(&["1000000", "1e6", "1000000000", "900000"]);
        put(random, draft, "ADC", 2, dwell);
    }
}

/// OUTLASTS: a block of a shorter duration, or a longer event.
fn spoil_durations(random: &mut Random, draft: &mut Draft) {
    if random.once_in(3) {
        let places = [("EXTENSIONS", 4), ("ADC", 3), ("ADC", 1), ("EXTENSIONS", 3)];
        let (name, column) = random.pick(&places);
        let value = random.pick(&["1000", "9000", "100000"]);
        put(random, draft, name, column, value);
        return;
    }
    let Some(section) = section(draft, "BLOCKS") else {
        return;
    };
    for line in &mut section.lines {
        let duration = line.get(1).and_then(|field| field.parse::<i64>().ok()).unwrap_or(0);
        let less = random.between(1, 3).min(duration);
        if line.len() > 1 && random.once_in(2) {
            line[1] = (duration - less).to_string();
        }
    }
}

/// UNSAYABLE: an unknown extension, another raster at the site, or blocks off their raster.
fn spoil_saying(random: &mut Random, draft: &mut Draft) {
    match random.below(5) {
        0 => {
            let line = words(&["extension", random.pick(&["ROTATIONS", "labelinc"]), "4711"]);
            match section(draft, "EXTENSIONS") {
                Some(section) => section.lines.push(line),
                None => {
                    let lines = vec![line];
                    draft.sections.insert(1, Section { name: "EXTENSIONS".to_string(), lines });
                }
            }
        }
        1 | 2 => {
            let value = random.pick(&["1e-5", "1e-6", "2e-6", "0.00001", "1e-3"]);
            set_raster(&mut draft.site, RASTERS[random.below(2)], value);
        }
        number => {
            let value =
                if number == 3 { random.pick(&["7e-6", "3.33e-7", "1e-3"]) } else { "1e-9" };
            set_raster(&mut draft.site, RASTERS[3], value);
            if let Some(section) = section(draft, "DEFINITIONS") {
                set_raster(&mut section.lines, RASTERS[3], value);
            }
            let delay = random.pick(&["1000000", "1000001", "1000000000"]);
            put(random, draft, "DELAYS", 1, delay);
        }
    }
}

/// Where the lines of a text begin, and its end.
fn line_starts(text: &[u8]) -> Vec<usize> {
    let mut starts = vec![0];
    starts.extend(text.iter().enumerate().filter(|(_, b)| **b == b'\n').map(|(at, _)| at + 1));
    starts
}

/// Damage among the bytes of a text.
pub fn damage(random: &mut Random, text: &mut Vec<u8>) {
    let bytes = b"\x00\x01\x09\x0a\x0b\x0d\x1f\x20\x23\x2b\x2d\x2e\x300129[]eE\x7f\x80\xff";
    let at = random.below(text.len() + 1);
    let byte = if random.once_in(4) { random.next() as u8 } else { random.pick(bytes) };
    match random.below(11) {
        0 | 1 if at < text.len() => text[at] = byte,
        2 | 3 => text.insert(at, byte),
        4 if at < text.len() => {
            text.remove(at);
        }
        5 => text.truncate(at),
        6 => text.push(random.pick(b"\r\n0 #[")),
        _ => damage_lines(random, text),
    }
}

/// Lines dropped, doubled, swapped, or brought to the longest length and beyond.
fn damage_lines(random: &mut Random, text: &mut Vec<u8>) {
    let starts = line_starts(text);
    let line = random.below(starts.len() - 1);
    let [from, to] = [starts[line], starts.get(line + 1).copied().unwrap_or(text.len())];
    let copy = text[from..to].to_vec();
    match random.below(5) {
        0 => {
            text.drain(from..to);
        }
        1 => {
            text.splice(from..from, copy);
        }
        2 => {
            let other = random.pick(&starts);
            text.splice(other..other, copy);
        }
        3 if to < text.len() => {
            text.drain(from..to);
            let end =
                text[from..].iter().position(|b| *b == b'\n').map_or(text.len(), |n| from + n + 1);
            text.splice(end..end, copy);
        }
        _ => lengthen(random, text, from, to),
    }
}

/// Brings one line, or a comment before it, to 1,023 to 1,026 bytes.
fn lengthen(random: &mut Random, text: &mut Vec<u8>, from: usize, to: usize) {
    let content = text[from..to].iter().take_while(|b| **b != b'\n' && **b != b'\r').count();
    let length = random.pick(&[1023, 1024, 1024, 1025, 1025, 1026]);
    match random.below(3) {
        0 => {
            let mut comment = vec![b'#'; length];
            comment.push(b'\n');
            text.splice(from..from, comment);
        }
        1 => {
            let at = from + content;
            text.splice(at..at, vec![b' '; length.saturating_sub(content)]);
        }
        _ => {
            text.splice(from..from, vec![b'\t'; length.saturating_sub(content)]);
        }
    }
}
