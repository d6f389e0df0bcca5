//! Letters judged as a key and turned back into the deposit: keys with marks of every sort, and letters that are no key.
use crate::cases;
use crate::comparison::Comparison;
use crate::facts::Facts;
use crate::keys::{self, Key, Marks};
use crate::rules;
use std::collections::HashMap;

/// Rooms for n letters: one too short, one exact, one longer.
pub fn about(n: usize) -> [usize; 3] {
    [n.saturating_sub(1), n, n + 2]
}

/// Letters judged, and turned back in rooms about n: in each where a ring has the key, else in one after another.
fn judged(c: &mut Comparison, marks: Marks, letters: &[u8], owner: Option<&[u8]>) {
    let sizes = about(letters.len());
    c.check_key(marks, letters, owner);
    if owner.is_some() {
        for size in sizes {
            c.write_deposit(marks, letters, size, owner);
        }
    } else {
        c.write_deposit(marks, letters, sizes[c.calls as usize % 3], None);
    }
}

/// The key of a ring gives the ring back.
pub fn of_key(c: &mut Comparison, kind: u8, ring: &[u8], key: &Key) {
    judged(c, key.marks(kind), &key.letters, Some(ring));
}

/// Every start to n + 1 on strands 0, 1 and 2.
fn each_mark(kind: u8, n: usize, mut each: impl FnMut(Marks)) {
    for start in 0..=n + 1 {
        for strand in 0..3 {
            each(Marks { kind, start, strand });
        }
    }
}

/// Letters judged with every mark, whether they are a key or not and whether they are permitted or not.
pub fn every_mark(c: &mut Comparison, kind: u8, letters: &[u8]) {
    let permitted = rules::judge(kind, letters, false).is_ok();
    let owners = if permitted { keys::owners(kind, letters) } else { vec![] };
    each_mark(kind, letters.len(), |marks| {
        let owner = owners.iter().find(|(of, _)| *of == marks);
        judged(c, marks, letters, owner.map(|(_, ring)| &ring[..]));
    });
}

/// The key's letters with marks near those that it has, and the ring's own letters.
pub fn some_marks(c: &mut Comparison, kind: u8, ring: &[u8], facts: &Facts, key: &Key) {
    let n = ring.len();
    let mut starts = vec![key.start, key.start + 1, facts.repeat, 0, n, n + 1];
    starts.sort_unstable();
    starts.dedup();
    for marks in starts.into_iter().flat_map(|start| (0..3).map(move |strand| Marks { kind, start, strand })) {
        if marks != key.marks(kind) {
            judged(c, marks, &key.letters, keys::owner(marks, &key.letters).as_deref());
        }
    }
    let marks = Marks { kind, start: 0, strand: 0 };
    judged(c, marks, ring, keys::owner(marks, ring).as_deref());
}

/// Whether some ring has each key, start and strand, and which: all rings of n letters are tried. The alphabet has with each
/// letter the one that faces it.
pub fn every_key(c: &mut Comparison, kind: u8, alphabet: &[u8], longest: usize) {
    let mut rings = HashMap::new();
    cases::every(alphabet, longest, |ring| {
        let key = keys::key(kind, ring);
        let other = rings.insert((key.letters, key.start, key.strand), ring.to_vec());
        assert_eq!(other, None, "a second ring with the key, the start and the strand of {ring:?}");
    });
    cases::every(alphabet, longest, |letters| {
        each_mark(kind, letters.len(), |marks| {
            let owner = rings.get(&(letters.to_vec(), marks.start, marks.strand));
            judged(c, marks, letters, owner.map(|ring| &ring[..]));
        });
    });
}

/// Letters that may meet several refusals, with marks far off, in rooms of every size about n.
pub fn refused_marks(c: &mut Comparison, kind: u8, letters: &[u8]) {
    let n = letters.len();
    let permitted = rules::judge(kind, letters, false).is_ok();
    for (start, strand) in [(0, 0), (0, 1), (0, 2), (0, 255), (n, 0), (usize::MAX, 0), (usize::MAX, 255)] {
        let marks = Marks { kind, start, strand };
        let owner = if permitted { keys::owner(marks, letters) } else { None };
        c.check_key(marks, letters, owner.as_deref());
        for size in [0, n.saturating_sub(1), n, n + 1] {
            c.write_deposit(marks, letters, size, owner.as_deref());
        }
    }
}
