// The questions that are asked of one generated case.

use crate::generator::{case, sample_list, stored_lines, Case};
use crate::paper::edition_of;
use crate::paper::lookup::RASTER_NAMES;
use crate::paper::restating::restate;
use crate::questions::{by_the_paper, Outcome, Question};
use crate::random::Random;

/// A case and what is asked of it.
pub struct Asked {
    case: Case,
    random: Random,
}

impl Asked {
    /// The case of a seed with a number.
    pub fn new(seed: u64, number: u64) -> Asked {
        Asked { case: case(seed, number), random: Random::new(!seed, number) }
    }

    /// All questions, reading and restating first.
    pub fn questions(&mut self) -> Vec<Question<'_>> {
        let case = &self.case;
        let random = &mut self.random;
        let read = Question::Read {
            file: (&case.file).into(),
            site: (&case.site).into(),
            rows_len: case.rows_len,
            samples_len: case.samples_len,
        };
        let mut questions = vec![read];
        let other = random.once_in(20).then(|| edition_for(random));
        for target in [103, 104].into_iter().chain(other) {
            questions.push(restate_question(random, case, target));
        }
        if random.once_in(2) {
            let key = key_for(random, case);
            questions.push(Question::Definition {
                file: (&case.file).into(),
                site: (&case.site).into(),
                key,
            });
        }
        if random.once_in(2) {
            let id = id_for(random, case);
            questions.push(Question::Stored {
                file: (&case.file).into(),
                site: (&case.site).into(),
                id,
            });
        }
        if random.once_in(2) {
            questions.push(expand_question(random, case));
        }
        if random.once_in(2) {
            questions.push(write_question(random));
        }
        questions
    }
}

/// Restating to a target, with an output that is enough, just enough, or one byte too little.
fn restate_question<'a>(random: &mut Random, case: &'a Case, target: u64) -> Question<'a> {
    let [rows_len, samples_len] = [case.rows_len, case.samples_len];
    let most = 1 << 24;
    let wide = [rows_len, samples_len, most];
    let restated = edition_of(target).and_then(|t| restate(&case.file, &case.site, t, wide).ok());
    let length = match restated {
        Some((_, text)) => text.len(),
        None if case.file.len() > most / 2 => most,
        None => 0,
    };
    let out_len = match random.below(6) {
        0 => length,
        1 => length.saturating_sub(1),
        2 => random.below(length.min(300)),
        _ => length + random.below(60),
    };
    let lengths = [rows_len, samples_len, out_len];
    Question::Restate { file: (&case.file).into(), site: (&case.site).into(), target, lengths }
}

/// The first field of a random line of a text.
fn some_word(random: &mut Random, text: &[u8]) -> Vec<u8> {
    let at = random.below(text.len() + 1);
    let from = text[..at].iter().rposition(|b| *b == b'\n').map_or(0, |lf| lf + 1);
    let line = &text[from..];
    let word = line.split(|b| b" \t\r\n".contains(b)).find(|word| !word.is_empty());
    word.unwrap_or(b"").to_vec()
}

/// A key that is likely to be there, or almost.
fn key_for(random: &mut Random, case: &Case) -> Vec<u8> {
    let mut key = match random.below(8) {
        0 => Vec::new(),
        1 => some_word(random, &case.file[..case.file.len().min(400)]),
        2 => some_word(random, &case.site),
        3 => random.pick(&["Name", "FOV", "TE", "name", "1"]).as_bytes().to_vec(),
        _ => random.pick(&RASTER_NAMES).as_bytes().to_vec(),
    };
    match random.below(20) {
        0 => key.truncate(key.len().saturating_sub(1)),
        1 => key.push(b'x'),
        2 => key.insert(0, b' '),
        _ => {}
    }
    key
}

/// The ID of a shape of the file, or a number near or far from it.
fn id_for(random: &mut Random, case: &Case) -> i64 {
    let short = &case.file[..case.file.len().min(200_000)];
    let lines = short.split(|b| *b == b'\n').map(String::from_utf8_lossy);
    let heads =
        lines.filter_map(|line| Some(line.trim().strip_prefix("shape_id")?.trim().to_string()));
    let ids: Vec<i64> = heads.filter_map(|text| text.parse().ok()).collect();
    let id = if ids.is_empty() { 1 } else { random.pick(&ids) };
    match random.below(20) {
        0 => id + 1,
        1 => -id,
        2 => random.pick(&[0, -1, i64::MIN, i64::MAX, 2_147_483_648, 4_294_967_297]),
        _ => id,
    }
}

/// The number of an edition, rarely of none.
fn edition_for(random: &mut Random) -> u64 {
    match random.below(15) {
        0 => random.pick(&[0, 1, 102, 105, 131, 141, u64::MAX, (1 << 32) + 103]),
        number => 103 + (number % 2) as u64,
    }
}

/// Stored lines of the case's file, or others, to be expanded.
fn expand_question(random: &mut Random, case: &Case) -> Question<'static> {
    let edition = edition_for(random);
    let (mut stored, mut num) = stored_lines(random);
    if random.once_in(2) && case.file.len() < 200_000 {
        let id = id_for(random, case);
        let question =
            Question::Stored { file: (&case.file).into(), site: (&case.site).into(), id };
        let [_, start, length] = by_the_paper(&question).answer[..] else { unreachable!() };
        stored = case.file[start as usize..(start + length) as usize].to_vec();
        num = declared(case, start as usize).unwrap_or(num);
    }
    let samples_len = match random.below(4) {
        0 => num.min(1000) as usize,
        1 => num.min(1000).saturating_sub(1) as usize,
        _ => num.min(1000) as usize + random.below(9),
    };
    Question::Expand { stored, num, edition, samples_len }
}

/// The number at the end of the line before a place.
fn declared(case: &Case, place: usize) -> Option<u64> {
    let before = String::from_utf8_lossy(&case.file[..place]).into_owned();
    before.split_whitespace().last()?.parse().ok()
}

/// Samples to be written, with room that is enough, just enough, or one too little.
fn write_question(random: &mut Random) -> Question<'static> {
    let edition = edition_for(random);
    let samples = sample_list(random);
    let wide = Question::Write { samples: samples.clone(), edition, out_len: 40 * samples.len() };
    let Outcome { answer, .. } = by_the_paper(&wide);
    let length = answer[1] as usize;
    let out_len = match random.below(5) {
        0 => length,
        1 => length.saturating_sub(1),
        2 => random.below(20),
        _ => length + random.below(30),
    };
    Question::Write { samples, edition, out_len }
}
