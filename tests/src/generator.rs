// Cases from a seed: files of both editions, sound and damaged, with a site's text and the room
// that is lent; and stored lines and samples for shapes alone.

mod damage;
mod draft;
mod layout;
mod numerals;

use crate::random::Random;
use draft::Draft;

/// One case: a file, a site's text, and the lengths of the lent tables.
pub struct Case {
    pub file: Vec<u8>,
    pub site: Vec<u8>,
    pub rows_len: usize,
    pub samples_len: usize,
}

/// A file as the documents of the format show it.
const DOCUMENT: &str = "# Pulseq sequence file\n\n[VERSION]\nmajor 1\nminor 3\nrevision 1\n\n\
[DEFINITIONS]\nName fid\n\n[BLOCKS]\n1 0 1 0 0 0 0 0\n2 1 0 0 0 0 0 0\n3 0 0 0 0 0 1 0\n\n[RF]\n\
1          2500 1 2 100 0 0\n\n[ADC]\n1 1024 312500 20 0 0\n\n[DELAYS]\n1 5000\n\n[SHAPES]\n\n\
shape_id 1\nnum_samples 120\n1\n0\n0\n97\n-1\n0\n0\n17\n\nshape_id 2\nnum_samples 120\n0\n0\n118\n";

/// The site's text that goes with it.
const DOCUMENT_SITE: &str = "GradientRasterTime 1e-05\nRadiofrequencyRasterTime 1e-06\n";

/// The case of a seed with a number.
pub fn case(seed: u64, number: u64) -> Case {
    let random = &mut Random::new(seed, number);
    if number % 25_000 == 24_999 {
        return big_case(random, [0, 1, 0, 77][(number / 25_000 % 4) as usize]);
    }
    if number % 25_000 == 12_499 {
        return long_case((number / 25_000 % 2) as usize);
    }
    match random.below(100) {
        0 => soup_case(random),
        1 => {
            let mut file = DOCUMENT.as_bytes().to_vec();
            let mut site = DOCUMENT_SITE.as_bytes().to_vec();
            for _ in 0..random.below(4) {
                damage::damage(random, &mut file);
            }
            if random.once_in(3) {
                damage::damage(random, &mut site);
            }
            Case { file, site, rows_len: 96 + random.below(24), samples_len: 240 + random.below(3) }
        }
        2 => noise_case(random),
        _ => drafted_case(random),
    }
}

/// A drafted file with no, one or several faults.
fn drafted_case(random: &mut Random) -> Case {
    let size = if random.once_in(400) { 100 + random.below(1500) } else { 8 };
    let mut draft = draft::sound(random, size);
    let faults = random.pick(&[0, 0, 1, 1, 1, 1, 1, 2]);
    for _ in 0..faults {
        let refusal = 3 + random.below(16) as u64;
        damage::spoil(random, &mut draft, refusal);
    }
    let (rows, samples) = sizes(&draft);
    let mut file = layout::file_text(random, &draft);
    let mut site = layout::site_text(random, &draft);
    if random.once_in(6) {
        for _ in 0..=random.below(3) {
            damage::damage(random, &mut file);
        }
    }
    if random.once_in(25) {
        damage::damage(random, &mut site);
    }
    if random.once_in(120) {
        lengthen_site(random, &mut site);
    }
    let (rows_len, samples_len) = room(random, rows, samples);
    Case { file, site, rows_len, samples_len }
}

/// How many rows and samples a draft is likely to give.
fn sizes(draft: &Draft) -> (usize, usize) {
    let mut rows = 0;
    let mut samples = 0;
    for section in &draft.sections {
        let mut skipped = false;
        for line in section.lines.iter().filter(|line| !line.is_empty()) {
            match section.name.as_str() {
                "VERSION" | "DEFINITIONS" | "SIGNATURE" => {}
                "SHAPES" if line[0] == "num_samples" => {
                    rows += 1;
                    samples += line.get(1).and_then(|n| n.parse::<usize>().ok()).unwrap_or(0);
                }
                "SHAPES" => {}
                _ if line[0] == "extension" => {
                    let known = ["TRIGGERS", "LABELSET", "LABELINC"];
                    skipped = !line.get(1).is_some_and(|name| known.contains(&name.as_str()));
                    rows += 1;
                }
                _ => rows += usize::from(!skipped),
            }
        }
    }
    (rows, samples.min(3_000_000))
}

/// Room that is enough, just enough, one too little, none, or no multiple of 12.
fn room(random: &mut Random, rows: usize, samples: usize) -> (usize, usize) {
    let rows_len = match random.below(36) {
        0 => (12 * rows).saturating_sub(1),
        1 => 12 * rows.saturating_sub(1) + random.below(12),
        2 => random.below(30),
        3..=13 => 12 * rows + random.below(12),
        _ => 12 * rows + random.below(60),
    };
    let samples_len = match random.below(36) {
        0 => samples.saturating_sub(1),
        1 => random.below(10),
        2..=13 => samples,
        _ => samples + random.below(30),
    };
    (rows_len, samples_len)
}

/// Brings a site's text to 4,095 to 4,098 bytes, with comments.
fn lengthen_site(random: &mut Random, site: &mut Vec<u8>) {
    let length = random.pick(&[4095, 4096, 4096, 4097, 4098]);
    if !site.is_empty() && !site.ends_with(b"\n") {
        site.push(b'\n');
    }
    while site.len() < length {
        let left = length - site.len();
        site.extend(std::iter::repeat_n(b'#', (left - 1).min(700)));
        site.push(b'\n');
    }
}

/// A file of lines drawn from two drafts, in any order.
fn soup_case(random: &mut Random) -> Case {
    let mut lines: Vec<Vec<u8>> = Vec::new();
    for _ in 0..2 {
        let draft = draft::sound(random, 4);
        let text = layout::file_text(random, &draft);
        lines.extend(text.split_inclusive(|b| *b == b'\n').map(<[u8]>::to_vec));
    }
    let sorted = random.once_in(2);
    let mut file = b"[VERSION]\nmajor 1\nminor 4\nrevision 1\n".to_vec();
    let count = random.below(lines.len());
    for number in 0..count {
        let line = &lines[if sorted { number } else { random.below(lines.len()) }];
        if !line.starts_with(b"[VERSION]") && !random.once_in(5) {
            file.extend_from_slice(line);
        }
    }
    Case { file, site: Vec::new(), rows_len: 600, samples_len: 900 }
}

/// A file of random bytes, or an empty one.
fn noise_case(random: &mut Random) -> Case {
    let letters = b"[]VERSION major1\n\n 0123456789#e.-\t\r\x01\xfe";
    let length = if random.once_in(4) { 0 } else { random.below(300) };
    let any = random.once_in(3);
    let mut byte = || if any { random.next() as u8 } else { random.pick(letters) };
    let file = (0..length).map(|_| byte()).collect();
    let site = (0..length % 40).map(|_| byte()).collect();
    Case { file, site, rows_len: length % 30, samples_len: length % 7 }
}

/// A file of 2^24 bytes and some over, filled with comments.
fn big_case(random: &mut Random, over: usize) -> Case {
    let draft = draft::sound(random, 8);
    let (rows, samples) = sizes(&draft);
    let mut file = layout::file_text(random, &draft);
    file.extend_from_slice(b"\n#");
    let length = (1 << 24) + over;
    let mut line = vec![b'.'; 1000];
    line.extend_from_slice(b"\n#");
    while file.len() < length {
        let left = (length - file.len()).min(line.len());
        file.extend_from_slice(&line[..left]);
    }
    let site = layout::site_text(random, &draft);
    Case { file, site, rows_len: 12 * rows, samples_len: samples }
}

/// A file that, restated to 1.4.1, is one byte longer: 2^24 bytes and some over.
fn long_case(over: usize) -> Case {
    let count = ((1 << 24) - 800) / 23;
    let head = |name: &str| {
        format!(
            "[VERSION]\nmajor 1\nminor 4\nrevision 1\n\n[DEFINITIONS]\n{DOCUMENT_SITE}\
             AdcRasterTime 1e-07\nBlockDurationRaster 1e-05\nName {name}\n\n\
             [BLOCKS]\n1 10 0 0 0 0 1 0\n\n[ADC]\n1 10 1e3 0 0 0\n\n\
             [SHAPES]\nshape_id 1\nnum_samples {count}\n"
        )
    };
    let left = (1 << 24) - 1 + over - head("").len() - 23 * count - 1;
    let mut file = head(&"x".repeat(left)).into_bytes();
    for number in 0..count {
        let value = ["-99999123456789011e-12\n", "-99999123456789013e-12\n"][number % 2];
        file.extend_from_slice(value.as_bytes());
    }
    file.push(b'\n');
    Case { file, site: DOCUMENT_SITE.as_bytes().to_vec(), rows_len: 36, samples_len: count }
}

/// Stored lines alone, with a count that is mostly theirs.
pub fn stored_lines(random: &mut Random) -> (Vec<u8>, u64) {
    let count = random.below(12);
    let values =
        ["0", "0", "1", "0.5", "-0.5", "2", "1e-13", "2e-13", "5e-13", "1.0", "100000", "-2e5"];
    let palette: Vec<&str> = (0..2).map(|_| random.pick(&values)).collect();
    let mut text = Vec::new();
    for _ in 0..count {
        let value = if random.once_in(4) { random.pick(&values) } else { random.pick(&palette) };
        text.extend_from_slice(value.as_bytes());
        text.extend_from_slice(if random.once_in(20) { b"\r\n" } else { b"\n" });
        if random.once_in(30) {
            text.extend_from_slice(b" # comment \x07\n");
        }
    }
    if random.once_in(4) {
        damage::damage(random, &mut text);
    }
    let num = match random.below(20) {
        0 => 0,
        1 => 1_000_000 + random.below(2) as u64,
        2 => random.next(),
        3..=9 => count as u64,
        _ => random.below(2 * count + 2) as u64,
    };
    (text, num)
}

/// Samples alone, with runs, now and then at a border.
pub fn sample_list(random: &mut Random) -> Vec<i64> {
    let count = if random.once_in(50) { random.below(400) } else { random.below(12) };
    let grain = random.pick(&[1, numerals::ONE, numerals::ONE / 4, 1_000, 123_456_789]);
    let border = 100_000 * numerals::ONE;
    let mut samples: Vec<i64> = Vec::new();
    let mut step = 0;
    for _ in 0..count {
        if random.once_in(3) {
            step = grain * random.between(-3, 3);
        }
        let next = samples.last().copied().unwrap_or(0).saturating_add(step);
        samples.push(match random.below(400) {
            0 => border + random.between(-1, 1),
            1 => -border - random.between(-1, 1),
            2 => random.next() as i64,
            _ => next.clamp(-border, border),
        });
    }
    samples
}
