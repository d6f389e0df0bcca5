//! The kinds of rings, and the numbers given when a call declines, in their order for rings: 6, 1, 2, 3, 4.

/// The most letters that a ring has.
pub const MOST: usize = 8192;

/// The kind of a feature ring, of a base ring, and of a base ring that may have uncertain letters.
pub const FEATURES: u8 = 0;
pub const BASES: u8 = 1;
pub const UNCERTAIN: u8 = 2;

/// The letters for a base and for a choice of bases.
pub const IUPAC: &[u8] = b"ACGTRYSWKMBDHVN";

/// The letters of each kind.
const LETTERS: [&[u8]; 3] = [&every_byte(), b"ACGT", IUPAC];

/// Which bytes are letters, for each kind.
static TAKEN: [[bool; 256]; 3] = [taken(LETTERS[0]), taken(LETTERS[1]), taken(LETTERS[2])];

const fn every_byte() -> [u8; 256] {
    let mut bytes = [0; 256];
    let mut i = 0;
    while i < 256 {
        bytes[i] = i as u8;
        i += 1;
    }
    bytes
}

const fn taken(letters: &[u8]) -> [bool; 256] {
    let mut taken = [false; 256];
    let mut i = 0;
    while i < letters.len() {
        taken[letters[i] as usize] = true;
        i += 1;
    }
    taken
}

/// The letters of a kind; none for a byte that is no kind.
pub fn letters(kind: u8) -> Option<&'static [u8]> {
    LETTERS.get(kind as usize).copied()
}

/// The kinds that have letters.
pub fn kinds() -> impl Iterator<Item = u8> + Clone {
    (0..=255).filter(|&kind| letters(kind).is_some())
}

/// Whether a ring of the kind has an opposite strand.
pub fn stranded(kind: u8) -> bool {
    matches!(kind, BASES | UNCERTAIN)
}

/// A refusal: the number, and the place of a wrong letter.
#[derive(Clone, Copy, Debug, PartialEq, Eq)]
pub struct Refusal {
    pub number: u8,
    pub place: usize,
}

pub fn refusal(number: u8) -> Refusal {
    Refusal { number, place: 0 }
}

/// A ring judged; `short` says that a needed table or room has too few entries.
pub fn judge(kind: u8, ring: &[u8], short: bool) -> Result<(), Refusal> {
    let taken = TAKEN.get(kind as usize).ok_or(refusal(6))?;
    if ring.is_empty() {
        return Err(refusal(1));
    }
    if ring.len() > MOST {
        return Err(refusal(2));
    }
    if let Some(place) = ring.iter().position(|&letter| !taken[letter as usize]) {
        return Err(Refusal { number: 3, place });
    }
    if short {
        return Err(refusal(4));
    }
    Ok(())
}
