//! Plain Rust for the benchmark: the first record of a FASTA text by a byte loop, with checked indexing. One pass judges and the
//! next writes, since a refused record leaves the room as it was. It is compared with the second program's reader, so that what is
//! timed does the whole job.
use crate::fasta::{Span, NONE};
use crate::rules::MOST;

/// The answer, with the fields of the library's.
#[derive(Clone, Copy, Debug, PartialEq, Eq)]
pub struct Answer {
    pub number: u8,
    pub place: usize,
    pub n: usize,
    pub header: Span,
    pub rest: Span,
}

const OTHER: u8 = 0;
const BLANK: u8 = 1;

/// The letter that a byte stands for; a blank, or any other byte.
const SORTS: [u8; 256] = {
    let mut sorts = [OTHER; 256];
    let mut i = 0;
    while i < 4 {
        let letter = b"ACGT"[i];
        sorts[letter as usize] = letter;
        sorts[letter.to_ascii_lowercase() as usize] = letter;
        i += 1;
    }
    sorts[b' ' as usize] = BLANK;
    sorts[b'\t' as usize] = BLANK;
    sorts
};

fn sort(byte: u8) -> u8 {
    SORTS[byte as usize]
}

/// Whether the byte at `i` is the CR of a line end.
fn carriage(text: &[u8], i: usize) -> bool {
    text[i] == b'\r' && text.get(i + 1) == Some(&b'\n')
}

/// Where the first header line begins, if only empty lines stand before it.
fn mark(text: &[u8]) -> Option<usize> {
    let mut front = true;
    for (i, &byte) in text.iter().enumerate() {
        match byte {
            b'>' if front => return Some(i),
            b'\n' => front = true,
            b' ' | b'\t' => front = false,
            _ if carriage(text, i) => {}
            _ => return None,
        }
    }
    None
}

/// The line that begins at `from`: where its bytes end, and where the next line begins.
fn line(text: &[u8], from: usize) -> (usize, usize) {
    match text[from..].iter().position(|&byte| byte == b'\n') {
        Some(size) if size > 0 && text[from + size - 1] == b'\r' => (from + size - 1, from + size + 1),
        Some(size) => (from + size, from + size + 1),
        None => (text.len(), text.len()),
    }
}

/// The letter lines from `from` on: how many letters are kept, the place of the first wrong one, and where the lines end.
fn scan(text: &[u8], from: usize) -> (usize, Option<usize>, usize) {
    let (mut kept, mut wrong, mut i) = (0, None, from);
    while i < text.len() && text[i] != b'>' {
        while i < text.len() && text[i] != b'\n' {
            match sort(text[i]) {
                BLANK => {}
                OTHER if carriage(text, i) => {}
                OTHER => {
                    wrong = wrong.or(Some(kept));
                    kept += 1;
                }
                _ => kept += 1,
            }
            i += 1;
        }
        i += 1;
    }
    (kept, wrong, i.min(text.len()))
}

/// The first record, its letters written to the room.
pub fn record(text: &[u8], room: &mut [u8]) -> Answer {
    let refused = |number, place, rest| Answer { number, place, n: 0, header: NONE, rest };
    let Some(mark) = mark(text) else {
        return refused(8, 0, NONE);
    };
    let (header_end, from) = line(text, mark);
    let (n, wrong, end) = scan(text, from);
    let rest = Span { offset: end, size: text.len() - end };
    match (n, wrong) {
        (0, _) => return refused(1, 0, rest),
        (n, _) if n > MOST => return refused(2, 0, rest),
        (_, Some(place)) => return refused(3, place, rest),
        (n, _) if n > room.len() => return refused(4, 0, rest),
        _ => {}
    }
    let letters = text[from..end].iter().map(|&byte| sort(byte)).filter(|&letter| letter > BLANK);
    room.iter_mut().zip(letters).for_each(|(place, letter)| *place = letter);
    Answer { number: 0, place: 0, n, header: Span { offset: mark + 1, size: header_end - mark - 1 }, rest }
}

/// The text from the second header line on.
pub fn rest(text: &[u8]) -> Span {
    let Some(mark) = mark(text) else {
        return NONE;
    };
    let next = text[mark..].windows(2).position(|two| two == b"\n>");
    let offset = next.map_or(text.len(), |i| mark + i + 1);
    Span { offset, size: text.len() - offset }
}
