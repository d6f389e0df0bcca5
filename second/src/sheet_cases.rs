//! The calls on sheets and books, on deposits' sheets and on bytes that are none.
use crate::cases::Numbers;
use crate::comparison::Comparison;
use crate::{keys, sheets};

/// A deposit's sheet: written, read back, walked, and turned back to the deposit.
pub fn sheet(c: &mut Comparison, kind: u8, ring: &[u8], numbers: &mut Numbers) -> Vec<u8> {
    let n = ring.len();
    let key = keys::key(kind, ring);
    for size in [n, n + 7, n + 8, n + 9 + numbers.below(4)] {
        c.sheet_write(kind, ring, size, Some(&key));
    }
    let bytes = sheets::bytes(kind, &key);
    let sheet = sheets::read(&bytes).expect("a sheet that the writer made");
    assert_eq!(sheet.deposit, ring);
    let more = numbers.below(12);
    let garbage = [&numbers.word(b"ACGTN\x00\x08RG", more)[..], &bytes].concat();
    for bytes in [&bytes, &garbage] {
        c.sheet_read(bytes, &[0, n.saturating_sub(1), n, n + 3]);
        c.sheet_walk(bytes);
    }
    bytes
}

/// Bytes with each byte changed in turn, cut at each place from the front and from the end, and with bytes before.
pub fn damaged(c: &mut Comparison, bytes: &[u8], values: &[u8]) {
    let each = |c: &mut Comparison, bytes: &[u8]| {
        c.sheet_read(bytes, &[bytes.len()]);
        c.sheet_walk(bytes);
    };
    for at in 0..bytes.len() {
        let mut changed = bytes.to_vec();
        for &value in values {
            changed[at] = value;
            each(c, &changed);
        }
        for bit in 0..8 {
            changed[at] = bytes[at] ^ 1 << bit;
            each(c, &changed);
        }
        each(c, &bytes[..at]);
        each(c, &bytes[at..]);
        let twice = [&bytes[at..], bytes].concat();
        each(c, &twice);
    }
}

/// The eight bytes behind a sheet's letters.
fn trailer(way_back: u16, start: u16, strand: u8, kind: u8, tag: [u8; 2]) -> Vec<u8> {
    [&way_back.to_le_bytes()[..], &start.to_le_bytes(), &[strand, kind], &tag].concat()
}

/// Trailers that meet several refusals at once, behind letters of every sort.
pub fn trailers(c: &mut Comparison) {
    let bases: [&[u8]; 8] = [b"", b"A", b"AC", b"ACAC", b"AANA", b"ACGT", b"AATCTGT", b"TTTT"];
    let uncertain: [&[u8]; 6] = [b"AAAN", b"NN", b"BDHV", b"RYRY", b"NU", b"an"];
    for front in bases.into_iter().chain(uncertain) {
        for way_back in [0, 1, 2, 3, 4, 5, 7, 8, 8192, 8193, 65535] {
            for start in [0, 1, 2, 3, 4, 7, 256, 65535] {
                for (strand, kind) in (0..3).flat_map(|strand| (0..4).map(move |kind| (strand, kind))) {
                    for tag in [[0x52, 0x47], [0x47, 0x52], [0x52, 0]] {
                        let bytes = [front, &trailer(way_back, start, strand, kind, tag)].concat();
                        c.sheet_read(&bytes, &[0, 7]);
                        c.sheet_walk(&bytes);
                    }
                }
            }
        }
    }
}

/// Letters as those of a sheet, whether they are a key or not and whether they are permitted or not, with every start and strand.
pub fn as_sheet(c: &mut Comparison, kind: u8, letters: &[u8]) {
    let n = letters.len() as u16;
    for (start, strand) in (0..=n).flat_map(|start| (0..3).map(move |strand| (start, strand))) {
        let bytes = [letters, &trailer(n, start, strand, kind, sheets::TAG)].concat();
        c.sheet_read(&bytes, &[letters.len()]);
        c.sheet_walk(&bytes);
    }
}
