//! The calls on rings, each on a ring and on what stands near it.
use crate::cases::{self, Numbers};
use crate::comparison::Comparison;
use crate::deposit_cases::{about, every_mark, of_key, refused_marks, some_marks};
use crate::facts::{self, Facts, SHORT};
use crate::keys::{self, Key};
use crate::rules::{self, BASES, MOST};
use crate::{codes, report, words};

/// All that the calls say of a ring that is taken.
fn known(kind: u8, ring: &[u8]) -> Option<(Facts, Key)> {
    rules::judge(kind, ring, false).is_ok().then(|| (facts::of(ring), keys::key(kind, ring)))
}

/// From this length on every base ring is reported on too.
const LONG: usize = 1000;

/// Every call on one ring that is lent enough.
pub fn ring(c: &mut Comparison, kind: u8, ring: &[u8], numbers: &mut Numbers) {
    let n = ring.len();
    let known = known(kind, ring);
    let (facts, key) = (known.as_ref().map(|k| &k.0), known.as_ref().map(|k| &k.1));
    let more = numbers.below(4);
    c.check(kind, ring);
    c.tables(kind, ring, n + more, facts);
    c.alone(kind, ring, facts, key);
    c.rooms(kind, ring, n + more, if rules::stranded(kind) { n + numbers.below(3) } else { numbers.below(n + 2) }, key);
    for size in about(n) {
        c.write_letters(kind, ring, size, key);
    }
    pairs(c, kind, ring, numbers);
    if let Some((facts, key)) = &known {
        of_key(c, kind, ring, key);
        if n <= SHORT {
            every_mark(c, kind, ring);
        } else {
            some_marks(c, kind, ring, facts, key);
        }
        if kind == BASES && n >= LONG {
            c.report(ring, &report::lines(facts, key));
        }
    }
}

/// A ring compared with itself turned, on either strand, and with one letter changed to one that it has on either strand.
fn pairs(c: &mut Comparison, kind: u8, ring: &[u8], numbers: &mut Numbers) {
    let n = ring.len();
    let turned = words::reading(ring, numbers.below(n.max(1)) % n.max(1));
    c.compare(kind, ring, &turned);
    c.compare(kind, ring, &words::opposite(&turned));
    let mut other = turned;
    if n > 0 {
        let at = numbers.below(n);
        let letter = ring[numbers.below(n)];
        other[at] = if numbers.below(2) == 0 { letter } else { codes::facing(letter) };
    }
    c.compare(kind, &other, ring);
}

/// Tables and rooms of every size about n.
pub fn sizes(c: &mut Comparison, kind: u8, ring: &[u8]) {
    let n = ring.len();
    let known = known(kind, ring);
    let (facts, key) = (known.as_ref().map(|k| &k.0), known.as_ref().map(|k| &k.1));
    let about = [0, n.saturating_sub(2), n.saturating_sub(1), n, n + 1, n + 9];
    for size in about {
        c.tables(kind, ring, size, facts);
        for second in about {
            c.rooms(kind, ring, size, second, key);
        }
        c.write_letters(kind, ring, size, key);
        if let Some(key) = key {
            c.write_deposit(key.marks(kind), &key.letters, size, Some(ring));
        }
    }
}

/// Rings that are refused and rings about the limit: over A, C, G, T, with letters of kind 2, and with letters of kind 0 alone.
fn refusable() -> Vec<Vec<u8>> {
    let bases: [&[u8]; 8] = [b"", b"A", b"N", b"GANA", b"GATTACA", b"acgt", b"ACGT\n", &[0; 3]];
    let uncertain: [&[u8]; 4] = [b"RYSWKMBDHVN", b"GAUN", b"NNn", b"XNA"];
    let mut rings: Vec<Vec<u8>> = bases.iter().chain(&uncertain).map(|ring| ring.to_vec()).collect();
    for n in [MOST - 1, MOST, MOST + 1, MOST + 2, 20_000] {
        let middle = [(1, b'N'), (n / 2, b'X'), (n - 1, b'N')];
        let ends = [(0, b'N'), (n - 1, b'N'), (n / 2, b'N'), (0, b'U'), (n - 1, b'n')];
        for changes in ends.chunks(1).chain([&[][..], &middle]) {
            let mut ring = cases::over(b"GATTACA", n);
            changes.iter().for_each(|&(at, letter)| ring[at] = letter);
            rings.push(ring);
        }
    }
    rings
}

/// Every refusal, and rings that meet several: the first in the order decides.
pub fn refusals(c: &mut Comparison) {
    for byte in 0..=255 {
        for place in [0, 1, 255, 256, MOST - 1, MOST, u32::MAX as usize, usize::MAX] {
            c.refusal(byte, place);
        }
    }
    let rings = refusable();
    for kind in [0, 1, 2, 3, 127, 128, 255] {
        for ring in &rings {
            refusal(c, kind, ring);
            for other in &rings {
                c.compare(kind, ring, other);
            }
        }
    }
}

/// One ring with tables and rooms that are long enough and that are not, and its letters judged as a key.
pub fn refusal(c: &mut Comparison, kind: u8, ring: &[u8]) {
    let n = ring.len();
    let known = known(kind, ring);
    let (facts, key) = (known.as_ref().map(|k| &k.0), known.as_ref().map(|k| &k.1));
    c.check(kind, ring);
    c.alone(kind, ring, facts, key);
    for size in [0, n, n + 7, n + 8, n + 9] {
        c.sheet_write(kind, ring, size, key);
    }
    for size in [0, n.saturating_sub(1), n, n + 1] {
        c.tables(kind, ring, size, facts);
        for second in [0, n.saturating_sub(1), n, n + 1] {
            c.rooms(kind, ring, size, second, key);
        }
        c.write_letters(kind, ring, size, key);
    }
    refused_marks(c, kind, ring);
}
