//! The repeat of rings that are a word over and over, and of rings that nearly are.
use crate::cases::{self, Numbers};
use crate::comparison::Comparison;
use crate::{long, rules, words};

/// Lengths with many divisors, and those about the limit.
const LENGTHS: [usize; 10] = [60, 360, 720, 1260, 2520, 4096, 5040, 7560, 8190, 8192];

/// The repeat of a ring, by trying each p and by borders, as each kind that has its letters.
fn tried(c: &mut Comparison, ring: &[u8]) {
    let repeat = words::repeat(ring);
    assert_eq!(repeat, long::repeat(ring), "the second program's two repeats of {ring:?}");
    for kind in rules::kinds().filter(|&kind| rules::judge(kind, ring, false).is_ok()) {
        c.repeat(kind, ring, repeat);
    }
}

/// A word of each length that divides n, over and over: as it is, turned, on the other strand, with one letter changed, and with
/// letters dropped at the end, so that what is over and over in a line is not so round the ring.
pub fn powers(c: &mut Comparison, numbers: &mut Numbers) {
    for n in LENGTHS {
        for size in (1..=n).filter(|size| n % size == 0) {
            for alphabet in [&b"ACGT"[..], b"AC", rules::IUPAC, b"RN"] {
                let unit = numbers.word(alphabet, size);
                let ring = cases::over(&unit, n);
                tried(c, &ring);
                let turned = words::reading(&ring, numbers.below(n));
                tried(c, &turned);
                tried(c, &words::opposite(&turned));
                let mut changed = turned;
                let at = numbers.below(n);
                changed[at] = if changed[at] == b'A' { b'C' } else { b'A' };
                tried(c, &changed);
                if 1 < size {
                    tried(c, &ring[..n - 1 - numbers.below(size - 1)]);
                }
            }
        }
    }
}
