//! Words, readings and strands, straight from their definitions: whole words are compared, nothing is skipped.
use crate::codes;

/// The reading at `i`: the letters from `i` round to `i - 1`.
pub fn reading(ring: &[u8], i: usize) -> Vec<u8> {
    let mut word = ring[i..].to_vec();
    word.extend_from_slice(&ring[..i]);
    word
}

/// The smallest position whose reading is no greater than any other. Readings are parts of the ring written twice.
pub fn start(ring: &[u8]) -> usize {
    let n = ring.len();
    let twice = [ring, ring].concat();
    let mut best = 0;
    for i in 1..n {
        if twice[i..i + n] < twice[best..best + n] {
            best = i;
        }
    }
    best
}

/// A word strictly less than each of its proper nonempty suffixes.
pub fn is_lyndon(word: &[u8]) -> bool {
    !word.is_empty() && (1..word.len()).all(|i| word < &word[i..])
}

/// The first position of the least nonempty suffix.
pub fn least_suffix(word: &[u8]) -> usize {
    let mut best = 0;
    for i in 1..word.len() {
        if word[i..] < word[best..] {
            best = i;
        }
    }
    best
}

/// The factors' first positions: each time the longest Lyndon word that is a prefix of the rest.
pub fn factors(word: &[u8]) -> Vec<usize> {
    let mut table = Vec::new();
    let mut from = 0;
    while from < word.len() {
        let rest = &word[from..];
        let size = (1..=rest.len()).rev().find(|&size| is_lyndon(&rest[..size])).unwrap();
        table.push(from);
        from += size;
    }
    table
}

/// The smallest p from 1 to n such that turning the ring by p gives the same letters: each p is tried. Readings are parts of the
/// ring written twice.
pub fn repeat(ring: &[u8]) -> usize {
    let n = ring.len();
    let twice = [ring, ring].concat();
    (1..=n).find(|&p| twice[p..p + n] == *ring).unwrap()
}

/// The letters in backward order, each exchanged for the one that faces it.
pub fn opposite(ring: &[u8]) -> Vec<u8> {
    ring.iter().rev().map(|&letter| codes::facing(letter)).collect()
}
