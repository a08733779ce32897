// The report on realistic files: reading and restating beside the plain reader, at growing sizes.

use crate::library::{read, restate, Answer, Edition, Lent, LONGEST_TEXT};
use crate::measure::{Measure, Outcome, Series};
use crate::plain::{assert_alike, Plain};
use crate::realistic::{Kind, KINDS};
use crate::sequence::Sequence;
use crate::{plain, tables};

/// A size that is measured only to foretell the others.
const FIRST: usize = 50_000;

/// The sizes that are reported; restated texts of the last still have at most 2^24 bytes.
const SIZES: [(&str, usize); 4] =
    [("100 KB", 100_000), ("1 MB", 1_000_000), ("4 MB", 4_000_000), ("16 MB", 15_500_000)];

/// The calls that are measured, in the order of their measures.
const CALLS: [&str; 4] = ["reading", "to 1.3.1", "to 1.4.1", "plain"];
const READING: usize = 0;
const PLAIN: usize = 3;

/// What came of all sizes of one kind in one edition, call by call.
struct Report {
    kind: &'static str,
    edition: &'static str,
    sizes: Vec<[Outcome; CALLS.len()]>,
}

/// Measures all kinds in both editions, and prints what came of it; no call may be expected to
/// take longer than so many seconds.
pub fn run(longest: f64) {
    let mut reports = Vec::new();
    for kind in &KINDS {
        for (name, edition) in [("1.3", Edition::V13), ("1.4", Edition::V14)] {
            eprintln!("measuring {} {name}", kind.name);
            reports.push(report(kind, name, edition, longest));
        }
    }
    print_ratios(&reports);
    print_speeds(&reports);
}

/// Measures one kind in one edition.
fn report(kind: &Kind, name: &'static str, edition: Edition, longest: f64) -> Report {
    let mut series = CALLS.map(|_| Series::new(longest));
    measured(&kind.file(edition, FIRST), &mut series);
    let sizes = SIZES.iter().map(|(_, size)| measured(&kind.file(edition, *size), &mut series));
    Report { kind: kind.name, edition: name, sizes: sizes.collect() }
}

/// Measures all calls of one file, and sees to it that both readers give the same.
fn measured(file: &Sequence, series: &mut [Series; CALLS.len()]) -> [Outcome; CALLS.len()] {
    let [reading_series, to_13_series, to_14_series, plain_series] = series;
    let bytes = file.text.len();
    let mut lent = Lent::new(file.rows, file.samples, 0);
    let reading = reading_series.attempt(bytes, || {
        assert_accepted(file, read(file.text.as_bytes(), &mut lent));
    });
    let mut tables = Plain::new(file.rows, file.samples);
    let ended = [file.text.as_bytes(), &[0]].concat();
    let plain = plain_series.attempt(bytes, || {
        assert_eq!(plain::read(&ended, &mut tables), [file.rows, file.samples]);
    });
    if reading.measure().is_some() && plain.measure().is_some() {
        assert_alike(&tables, &lent);
    }
    let to_13 = restated(file, Edition::V13, to_13_series, &mut lent);
    let to_14 = restated(file, Edition::V14, to_14_series, &mut lent);
    [reading, to_13, to_14, plain]
}

/// Measures restating; the output lent is as long as the text, once its length is known.
fn restated(file: &Sequence, target: Edition, series: &mut Series, lent: &mut Lent) -> Outcome {
    lent.out = vec![0xff; LONGEST_TEXT];
    series.attempt(file.text.len(), || {
        let answer = restate(file.text.as_bytes(), target, lent);
        assert_accepted(file, answer);
        lent.out.truncate(answer.length);
    })
}

/// Stops the program unless the file was accepted with all its rows and samples.
fn assert_accepted(file: &Sequence, answer: Answer) {
    let Answer { number, line, rows, samples, .. } = answer;
    let wanted = (0, 0, file.rows, file.samples);
    assert_eq!((number, line, rows, samples), wanted, "a file made here must be accepted");
}

/// Prints how many times as long as the plain reader the library takes, and how many times as long
/// a byte of the largest size takes as one of the smallest.
fn print_ratios(reports: &[Report]) {
    let mut head = vec!["file".to_string(), "edition".to_string()];
    head.extend(SIZES.map(|(size, _)| format!("reading ÷ plain, {size}")));
    let (smallest, largest) = (SIZES[0].0, SIZES[SIZES.len() - 1].0);
    head.extend(CALLS.map(|call| format!("time per byte, {largest} ÷ {smallest}: {call}")));
    println!("## Realistic files: ratios of times\n");
    println!("Each file can be said in both editions, and is restated to both.\n");
    tables::print_head(&head);
    for report in reports {
        let mut cells = vec![report.kind.to_string(), report.edition.to_string()];
        cells.extend(report.sizes.iter().map(|calls| tables::ratio(calls[READING], calls[PLAIN])));
        let last = report.sizes.len() - 1;
        let grown = |call: usize| tables::ratio(report.sizes[last][call], report.sizes[0][call]);
        cells.extend((0..CALLS.len()).map(grown));
        tables::print_row(&cells);
    }
    println!();
}

/// Prints how fast each call is.
fn print_speeds(reports: &[Report]) {
    let mut head = ["file", "edition", "size", "bytes"].map(str::to_string).to_vec();
    head.extend(CALLS.map(str::to_string));
    println!("## Realistic files: MB/s\n");
    tables::print_head(&head);
    for report in reports {
        for (calls, (size, _)) in report.sizes.iter().zip(SIZES) {
            let bytes = calls[PLAIN].words(|measure| measure.bytes.to_string());
            let mut cells =
                vec![report.kind.to_string(), report.edition.to_string(), size.to_string(), bytes];
            cells.extend(calls.map(|call| call.words(|m: Measure| format!("{:.2}", m.speed()))));
            tables::print_row(&cells);
        }
    }
    println!();
}
