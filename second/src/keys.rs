//! The key of a ring: of all readings, on both strands where its kind has two, the least.
use crate::facts::SHORT;
use crate::{long, rules, words};

#[derive(Clone, Debug, PartialEq, Eq)]
pub struct Key {
    pub letters: Vec<u8>,
    pub start: usize,
    pub strand: u8,
    /// The lowest reading of each strand that the kind has.
    pub own: Vec<u8>,
    pub other: Option<Vec<u8>>,
}

impl Key {
    pub fn marks(&self, kind: u8) -> Marks {
        Marks { kind, start: self.start, strand: self.strand }
    }

    /// What the key's two rooms begin with; nothing in the second for one strand.
    pub fn readings(&self) -> (&[u8], &[u8]) {
        (&self.own, self.other.as_deref().unwrap_or(&[]))
    }
}

fn start(ring: &[u8]) -> usize {
    if ring.len() <= SHORT {
        words::start(ring)
    } else {
        long::start(ring)
    }
}

/// The key of a ring that is taken.
pub fn key(kind: u8, ring: &[u8]) -> Key {
    let own_start = start(ring);
    let own = words::reading(ring, own_start);
    if !rules::stranded(kind) {
        return Key { letters: own.clone(), start: own_start, strand: 0, own, other: None };
    }
    let opposite = words::opposite(ring);
    let other_start = start(&opposite);
    let other = words::reading(&opposite, other_start);
    let (letters, start, strand) = if other < own { (other.clone(), other_start, 1) } else { (own.clone(), own_start, 0) };
    Key { letters, start, strand, own, other: Some(other) }
}

/// Whether two rings are one: some reading of the first, on either strand where the kind has two, is the second.
pub fn same(kind: u8, first: &[u8], second: &[u8]) -> bool {
    let turned = |ring: &[u8]| {
        let twice = [ring, ring].concat();
        (0..ring.len()).any(|i| &twice[i..i + ring.len()] == second)
    };
    first.len() == second.len() && (turned(first) || rules::stranded(kind) && turned(&words::opposite(first)))
}

/// What letters are judged with as a key.
#[derive(Clone, Copy, Debug, PartialEq, Eq)]
pub struct Marks {
    pub kind: u8,
    pub start: usize,
    pub strand: u8,
}

/// The one ring that can have these letters for its key, with these marks: turned back, on the strand named.
pub fn deposit(marks: Marks, letters: &[u8]) -> Option<Vec<u8>> {
    if marks.start >= letters.len() || marks.strand > 1 {
        return None;
    }
    let turned = words::reading(letters, (letters.len() - marks.start) % letters.len());
    Some(if marks.strand == 1 { words::opposite(&turned) } else { turned })
}

/// The ring that has these letters for its key, with these marks, if one has; the letters are permitted.
pub fn owner(marks: Marks, letters: &[u8]) -> Option<Vec<u8>> {
    let ring = deposit(marks, letters)?;
    let key = key(marks.kind, &ring);
    (key.letters == letters && key.start == marks.start && key.strand == marks.strand).then_some(ring)
}

/// All rings that have these letters for their key, with its marks. A key is a reading of its ring or of the opposite
/// strand, so they are among the readings of the letters and of their opposite strand: all of these are tried.
pub fn owners(kind: u8, letters: &[u8]) -> Vec<(Marks, Vec<u8>)> {
    let mut strands = vec![letters.to_vec()];
    if rules::stranded(kind) {
        strands.push(words::opposite(letters));
    }
    let tried = strands.iter().flat_map(|strand| (0..letters.len()).map(|i| words::reading(strand, i)));
    let keyed = tried.map(|ring| (key(kind, &ring), ring)).filter(|(key, _)| key.letters == letters);
    keyed.map(|(key, ring)| (Marks { kind, start: key.start, strand: key.strand }, ring)).collect()
}
