//! Where a part that a call hands back stands, by its address: the key in its room, a sheet's letters in the lent bytes.
use crate::comparison::Comparison;
use crate::keys::Key;
use crate::lent::Lent;
use crate::probe::{self, Part};
use crate::sheets::Sheet;

/// What a lent part holds before a call: bytes that are lent to no call.
static ELSEWHERE: [u8; 5] = *b"where";

pub(crate) fn elsewhere() -> Lent<Part> {
    Lent::room(1, |_| Part { at: ELSEWHERE.as_ptr(), size: ELSEWHERE.len() })
}

impl Comparison {
    /// The key of a ring, none for a refused call: at the front of its room, or empty at the front of the first.
    pub(crate) fn key_part(&mut self, kind: u8, ring: &[u8], first: usize, second: usize, key: Option<&Key>) {
        let lent = self.lend(ring);
        let (mut a, mut b, mut part) = (self.bytes(first), self.bytes(second), elsewhere());
        self.calls += 1;
        probe::key_part(kind, &lent, &mut a, &mut b, &mut part);
        let want = match key {
            Some(key) if key.strand == 1 => Part { at: b.front(), size: ring.len() },
            Some(_) => Part { at: a.front(), size: ring.len() },
            None => Part { at: a.front(), size: 0 },
        };
        self.unchanged("key, its part", kind, ring, &part, &[want]);
        let (own, other) = key.map_or((&[][..], &[][..]), Key::readings);
        self.unchanged("key alone, first room", kind, ring, &a, own);
        self.unchanged("key alone, second room", kind, ring, &b, other);
        self.unchanged("key alone", kind, ring, &lent, ring);
    }

    /// The letters of a sheet, none for refused bytes: behind what stands before it, or empty at the front.
    pub(crate) fn letters_part(&mut self, bytes: &[u8], sheet: Option<&Sheet>) {
        let lent = self.lend(bytes);
        let mut part = elsewhere();
        self.calls += 1;
        probe::sheet_letters_part(&lent, &mut part);
        let (before, size) = sheet.map_or((0, 0), |s| (s.before, s.letters.len()));
        let want = Part { at: lent.front().wrapping_add(before), size };
        self.unchanged("sheet_letters, its part", 0, bytes, &part, &[want]);
        self.unchanged("sheet_letters, its part", 0, bytes, &lent, bytes);
    }
}
