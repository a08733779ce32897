// Sections of lines laid out as bytes, in the many ways that a file may look.

use super::draft::{Draft, Line};
use crate::random::Random;

/// How one text looks.
struct Style {
    return_in: usize,
    wide_in: usize,
    indent_in: usize,
    trail_in: usize,
    comment_in: usize,
    blank_in: usize,
}

/// A chance that is never met.
const NEVER: usize = usize::MAX;

/// A random look; most are plain.
fn style(random: &mut Random) -> Style {
    let mut some = |list: &[usize]| random.pick(list);
    Style {
        return_in: some(&[NEVER, NEVER, NEVER, 1, 3]),
        wide_in: some(&[NEVER, NEVER, 2, 10]),
        indent_in: some(&[NEVER, NEVER, NEVER, 2, 10]),
        trail_in: some(&[NEVER, NEVER, NEVER, 4]),
        comment_in: some(&[NEVER, NEVER, 4, 12]),
        blank_in: some(&[NEVER, NEVER, 3, 12]),
    }
}

/// One or more blanks.
fn blanks(random: &mut Random) -> &'static str {
    random.pick(&[" ", "\t", "  ", " \t ", "     "])
}

/// One line with its end.
fn line_into(random: &mut Random, style: &Style, text: &mut Vec<u8>, fields: &[String]) {
    if random.once_in(style.indent_in) {
        text.extend_from_slice(blanks(random).as_bytes());
    }
    for (number, field) in fields.iter().enumerate() {
        if number > 0 {
            let wide = random.once_in(style.wide_in);
            text.extend_from_slice(if wide { blanks(random) } else { " " }.as_bytes());
        }
        text.extend_from_slice(field.as_bytes());
    }
    if random.once_in(style.trail_in) {
        text.extend_from_slice(blanks(random).as_bytes());
    }
    if random.once_in(style.return_in) {
        text.push(b'\r');
    }
    text.push(b'\n');
}

/// Comments, which may hold any byte but LF.
fn comment_into(random: &mut Random, style: &Style, text: &mut Vec<u8>) {
    if random.once_in(style.comment_in) {
        let comments: [&[u8]; 6] =
            [b"# text", b"#", b"  # [RF]", b"\t#1 2 3", b"# \x00\x07\x7f\r.", b"# \xff\xc3"];
        text.extend_from_slice(random.pick(&comments));
        text.push(b'\n');
    }
}

/// A list of lines; blank lines are added where they mean nothing.
fn lines_into(random: &mut Random, style: &Style, text: &mut Vec<u8>, lines: &[Line], dense: bool) {
    for line in lines {
        comment_into(random, style, text);
        if (!dense || line.is_empty()) && random.once_in(style.blank_in) {
            line_into(random, style, text, &[]);
        }
        line_into(random, style, text, line);
    }
}

/// The bytes of a file.
pub fn file_text(random: &mut Random, draft: &Draft) -> Vec<u8> {
    let style = style(random);
    let mut text = Vec::new();
    for section in &draft.sections {
        comment_into(random, &style, &mut text);
        line_into(random, &style, &mut text, &[format!("[{}]", section.name)]);
        lines_into(random, &style, &mut text, &section.lines, section.name == "SHAPES");
        let ended = section.lines.last().is_some_and(Vec::is_empty);
        if !ended && random.once_in(2) {
            line_into(random, &style, &mut text, &[]);
        }
    }
    cut_end(random, &mut text);
    text
}

/// The bytes of a site's text.
pub fn site_text(random: &mut Random, draft: &Draft) -> Vec<u8> {
    let style = style(random);
    let mut text = Vec::new();
    lines_into(random, &style, &mut text, &draft.site, false);
    cut_end(random, &mut text);
    text
}

/// Takes off the last LF, now and then.
fn cut_end(random: &mut Random, text: &mut Vec<u8>) {
    if random.once_in(6) && text.ends_with(b"\n") && !text.ends_with(b"\r\n") {
        text.pop();
    }
}
