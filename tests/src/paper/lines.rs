// Lines and fields of a text, and the rule LINE.

/// One line of a text: its number from 1, its content, and where it and the next line start.
pub struct Line<'a> {
    pub number: u64,
    pub content: &'a [u8],
    pub start: usize,
    pub next: usize,
}

/// What a line is by its first nonblank byte.
#[derive(PartialEq)]
pub enum Kind {
    Blank,
    Comment,
    Section,
    Other,
}

/// Cuts a text into its lines; nothing behind the last LF is no line.
pub fn lines_of(text: &[u8]) -> Vec<Line<'_>> {
    let mut lines = Vec::new();
    let mut start = 0;
    while start < text.len() {
        let rest = &text[start..];
        let number = lines.len() as u64 + 1;
        match rest.iter().position(|&b| b == b'\n') {
            Some(length) => {
                let line = &rest[..length];
                let content = line.strip_suffix(b"\r").unwrap_or(line);
                let next = start + length + 1;
                lines.push(Line { number, content, start, next });
                start = next;
            }
            None => {
                lines.push(Line { number, content: rest, start, next: text.len() });
                start = text.len();
            }
        }
    }
    lines
}

/// Space and tab are blanks.
pub fn is_blank(byte: u8) -> bool {
    byte == b' ' || byte == b'\t'
}

/// What kind of line it is.
pub fn kind_of(content: &[u8]) -> Kind {
    match content.iter().find(|&&b| !is_blank(b)) {
        None => Kind::Blank,
        Some(b'#') => Kind::Comment,
        Some(b'[') => Kind::Section,
        Some(_) => Kind::Other,
    }
}

/// Whether a line breaks the rule LINE.
pub fn breaks_line(content: &[u8]) -> bool {
    let control = |b: &u8| (*b < 32 && *b != b'\t') || *b == 127;
    content.len() > 1024 || (kind_of(content) != Kind::Comment && content.iter().any(control))
}

/// The runs of nonblank bytes of a line.
pub fn fields_of(content: &[u8]) -> Vec<&[u8]> {
    content.split(|&b| is_blank(b)).filter(|field| !field.is_empty()).collect()
}

/// A text without the blanks around it.
pub fn trimmed(text: &[u8]) -> &[u8] {
    let from = text.iter().position(|&b| !is_blank(b)).unwrap_or(text.len());
    let to = text.iter().rposition(|&b| !is_blank(b)).map_or(from, |last| last + 1);
    &text[from..to]
}

/// A definition: the first field, and all that stands behind it, trimmed, as ranges of the content.
pub fn definition_of(content: &[u8]) -> Option<([usize; 2], [usize; 2])> {
    let key_from = content.iter().position(|&b| !is_blank(b))?;
    let behind = &content[key_from..];
    let key_to = key_from + behind.iter().position(|&b| is_blank(b))?;
    let rest = &content[key_to..];
    let value_from = key_to + rest.iter().position(|&b| !is_blank(b))?;
    let value_to = value_from + trimmed(&content[value_from..]).len();
    Some(([key_from, key_to], [value_from, value_to]))
}
