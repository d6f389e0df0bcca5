//! FASTA text, from 02's rules: the text cut into lines, the lines told apart, the letters filtered out of them.

/// A part of the text: where it begins, and its length.
#[derive(Clone, Copy, Debug, PartialEq, Eq)]
pub struct Span {
    pub offset: usize,
    pub size: usize,
}

/// A part that is empty at the front of the text.
pub const NONE: Span = Span { offset: 0, size: 0 };

/// The first record of a text; its letters are not judged yet.
#[derive(Clone, Debug, PartialEq, Eq)]
pub struct Record {
    /// The header line behind its mark.
    pub header: Span,
    /// The letters kept.
    pub letters: Vec<u8>,
    /// The text from the next header line on.
    pub rest: Span,
}

/// A line: where it begins in the text, and its bytes without its line end.
struct Line<'a> {
    from: usize,
    bytes: &'a [u8],
}

fn is_blank(byte: &u8) -> bool {
    matches!(byte, b' ' | b'\t')
}

impl Line<'_> {
    fn is_header(&self) -> bool {
        self.bytes.starts_with(b">")
    }

    fn is_empty(&self) -> bool {
        self.bytes.iter().all(is_blank)
    }

    /// The letters of a line that is no header.
    fn letters(&self) -> impl Iterator<Item = u8> + '_ {
        self.bytes.iter().filter(|byte| !is_blank(byte)).map(u8::to_ascii_uppercase)
    }
}

/// A line ends in LF or in CR LF, the last one perhaps in neither; any other CR is a byte of its line.
fn without_end(line: &[u8]) -> &[u8] {
    line.strip_suffix(b"\r\n").or_else(|| line.strip_suffix(b"\n")).unwrap_or(line)
}

fn lines(text: &[u8]) -> impl Iterator<Item = Line<'_>> {
    let mut end = 0;
    text.split_inclusive(|&byte| byte == b'\n').map(move |line| {
        let from = end;
        end += line.len();
        Line { from, bytes: without_end(line) }
    })
}

/// The first record, none where 8 is given: a letter line before the first header line, or no header line.
pub fn record(text: &[u8]) -> Option<Record> {
    let mut headers = lines(text).filter(Line::is_header);
    let first = headers.next()?;
    if !lines(&text[..first.from]).all(|line| line.is_empty()) {
        return None;
    }
    let end = headers.next().map_or(text.len(), |next| next.from);
    let mut letters = Vec::new();
    for line in lines(&text[..end]).filter(|line| line.from > first.from) {
        letters.extend(line.letters());
    }
    let header = Span { offset: first.from + 1, size: first.bytes.len() - 1 };
    Some(Record { header, letters, rest: Span { offset: end, size: text.len() - end } })
}
