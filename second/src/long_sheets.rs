//! Sheets of hundreds to 8,192 letters, damaged: wrong letters, bytes changed, marks changed, cuts, bytes before.
use crate::cases::Numbers;
use crate::comparison::Comparison;
use crate::rules;

/// How many bytes a trailer has.
const TRAILER: usize = 8;

/// Places below n: both ends, about multiples of 256 with `apart` of them from one to the next, and a few at random.
fn places(numbers: &mut Numbers, n: usize, apart: usize) -> Vec<usize> {
    let mut places = vec![0, 1, n / 2, n - 2, n - 1];
    for multiple in (256..n).step_by(256 * apart) {
        places.extend([multiple - 1, multiple, multiple + 1]);
    }
    places.extend((0..4).map(|_| numbers.below(n)));
    places.retain(|&at| at < n);
    places.sort_unstable();
    places.dedup();
    places
}

/// Bytes to stand before a sheet: none, some that are no letters, and a whole sheet.
fn fronts(numbers: &mut Numbers, sheet: &[u8]) -> Vec<Vec<u8>> {
    let mut fronts: Vec<Vec<u8>> = [0, 1, 255, 256, 257].map(|size| numbers.word(b"ACGTN\x00\x08RG\xff", size)).to_vec();
    fronts.push(sheet.to_vec());
    fronts
}

fn read(c: &mut Comparison, bytes: &[u8], n: usize) {
    c.sheet_read(bytes, &[n - 1, n]);
    c.sheet_walk(bytes);
}

/// Bytes of every sort that are no letters of a kind.
fn wrong(kind: u8) -> Vec<u8> {
    let letters = rules::letters(kind).expect("a kind of rings");
    b"NRacgtnUX@\n\x00\x80\xff".iter().copied().filter(|byte| !letters.contains(byte)).collect()
}

/// A sheet with wrong letters: the place is that of the first, counted from the sheet's first letter.
pub fn wrong_letters(c: &mut Comparison, numbers: &mut Numbers, kind: u8, sheet: &[u8]) {
    let n = sheet.len() - TRAILER;
    let fronts = fronts(numbers, sheet);
    let wrong = wrong(kind);
    for at in places(numbers, n, 1) {
        let mut bytes = sheet.to_vec();
        bytes[at] = wrong[numbers.below(wrong.len())];
        for front in &fronts {
            read(c, &[&front[..], &bytes].concat(), n);
        }
        c.sheet_walk(&[&bytes[..], sheet].concat());
        let later = at + numbers.below(n - at);
        bytes[later] = wrong[0];
        read(c, &[&fronts[1][..], &bytes].concat(), n);
    }
}

/// A sheet with one byte changed, at the ends, about multiples of 256, and everywhere in the trailer.
pub fn changed(c: &mut Comparison, numbers: &mut Numbers, sheet: &[u8]) {
    let n = sheet.len() - TRAILER;
    let mut places = places(numbers, n, 1 + n / 1024);
    places.extend(n..sheet.len());
    let before = numbers.word(b"ACGT\x00RG", 300);
    for at in places {
        let other = sheet[numbers.below(n)];
        for value in [other, sheet[at] ^ 1 << numbers.below(8), sheet[at].wrapping_add(1)] {
            let mut bytes = sheet.to_vec();
            bytes[at] = value;
            read(c, &bytes, n);
            if at % 2 == 0 {
                read(c, &[&before[..], &bytes].concat(), n);
            }
        }
    }
}

/// A sheet with another way back or another start, alone and with enough bytes before it for every way back.
pub fn marks(c: &mut Comparison, numbers: &mut Numbers, sheet: &[u8]) {
    let n = sheet.len() - TRAILER;
    let letters = &sheet[..n];
    let before = [&numbers.word(letters, 300)[..], &letters.repeat(1 + 9000 / n)].concat();
    let edges = [0, 1, 255, 256, 257, n / 2, n - 1, n, n + 1, 8191, 8192, 8193, 65535];
    for (at, value) in edges.iter().flat_map(|&value| [(n, value), (n + 2, value)]) {
        let mut bytes = sheet.to_vec();
        bytes[at..at + 2].copy_from_slice(&(value as u16).to_le_bytes());
        read(c, &bytes, n);
        read(c, &[&before[..], &bytes].concat(), n);
    }
}

/// A sheet cut at its front and at its end, and with bytes before it and behind it.
pub fn cut(c: &mut Comparison, numbers: &mut Numbers, sheet: &[u8]) {
    let n = sheet.len() - TRAILER;
    for size in [1, 2, TRAILER, 255, 256, 257, n / 2, n - 1, n, n + 1, n + TRAILER - 1] {
        read(c, &sheet[size..], n);
        read(c, &sheet[..sheet.len() - size], n);
        read(c, &[&sheet[size..], sheet].concat(), n);
    }
    for front in fronts(numbers, sheet) {
        read(c, &[&front[..], sheet].concat(), n);
    }
    read(c, &[sheet, b"\x00"].concat(), n);
    read(c, &[sheet, &sheet[n..]].concat(), n);
}
