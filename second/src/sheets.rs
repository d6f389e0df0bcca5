//! The catalogue sheet and the book, from the format's table.
use crate::keys::{self, Key, Marks};
use crate::rules;
use crate::rules::{refusal, Refusal, MOST};

/// The tag in the last two bytes of a trailer.
pub const TAG: [u8; 2] = [0x52, 0x47];

/// A sheet read.
#[derive(Clone, Debug, PartialEq, Eq)]
pub struct Sheet {
    pub letters: Vec<u8>,
    pub start: usize,
    pub strand: u8,
    pub kind: u8,
    pub before: usize,
    /// The deposit's original letters.
    pub deposit: Vec<u8>,
}

/// The bytes of the sheet for a key.
pub fn bytes(kind: u8, key: &Key) -> Vec<u8> {
    let mut sheet = key.letters.clone();
    sheet.extend((key.letters.len() as u16).to_le_bytes());
    sheet.extend((key.start as u16).to_le_bytes());
    sheet.extend([key.strand, kind]);
    sheet.extend(TAG);
    sheet
}

/// The sheet at the end of the bytes: 5 for fewer than 8, 6, 1, 2, 5 for the way back, 3, 7.
pub fn read(bytes: &[u8]) -> Result<Sheet, Refusal> {
    let Some((front, trailer)) = bytes.split_last_chunk::<8>() else {
        return Err(refusal(5));
    };
    let [n0, n1, s0, s1, strand, kind, tag @ ..] = *trailer;
    if tag != TAG || rules::letters(kind).is_none() || strand > 1 || (strand == 1 && !rules::stranded(kind)) {
        return Err(refusal(6));
    }
    let n = u16::from_le_bytes([n0, n1]) as usize;
    let start = u16::from_le_bytes([s0, s1]) as usize;
    match n {
        0 => return Err(refusal(1)),
        n if n > MOST => return Err(refusal(2)),
        n if n > front.len() => return Err(refusal(5)),
        _ => {}
    }
    let before = front.len() - n;
    let letters = front[before..].to_vec();
    rules::judge(kind, &letters, false)?;
    let Some(deposit) = keys::owner(Marks { kind, start, strand }, &letters) else {
        return Err(refusal(7));
    };
    Ok(Sheet { letters, start, strand, kind, before, deposit })
}

/// How many sheets a book holds; the one nearest the end is read first.
pub fn walk(book: &[u8]) -> Result<usize, Refusal> {
    if book.is_empty() {
        return Ok(0);
    }
    let sheet = read(book)?;
    Ok(walk(&book[..sheet.before])? + 1)
}
