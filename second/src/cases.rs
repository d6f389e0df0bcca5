//! Rings to compare on.
use crate::rules::{FEATURES, UNCERTAIN};

/// A small generator of numbers, the same in every run.
pub struct Numbers(u64);

impl Numbers {
    pub fn new(seed: u64) -> Numbers {
        Numbers(seed.wrapping_mul(0x9e37_79b9_7f4a_7c15) | 1)
    }

    pub fn next(&mut self) -> u64 {
        self.0 ^= self.0 << 13;
        self.0 ^= self.0 >> 7;
        self.0 ^= self.0 << 17;
        self.0.wrapping_mul(0x2545_f491_4f6c_dd1d) >> 16
    }

    pub fn below(&mut self, bound: usize) -> usize {
        (self.next() % bound as u64) as usize
    }

    /// Letters drawn from an alphabet.
    pub fn word(&mut self, alphabet: &[u8], n: usize) -> Vec<u8> {
        (0..n).map(|_| alphabet[self.below(alphabet.len())]).collect()
    }
}

/// Calls `each` with every word over the alphabet of 1 to `longest` letters.
pub fn every(alphabet: &[u8], longest: usize, mut each: impl FnMut(&[u8])) {
    for n in 1..=longest {
        let mut digits = vec![0; n];
        loop {
            let word: Vec<u8> = digits.iter().map(|&d| alphabet[d]).collect();
            each(&word);
            let Some(last) = digits.iter().rposition(|&d| d + 1 < alphabet.len()) else {
                break;
            };
            digits[last] += 1;
            digits[last + 1..].fill(0);
        }
    }
}

/// A word written over and over, cut to n letters.
pub fn over(word: &[u8], n: usize) -> Vec<u8> {
    word.iter().copied().cycle().take(n).collect()
}

/// The Fibonacci word over two letters, cut to n letters.
pub fn fibonacci(a: u8, b: u8, n: usize) -> Vec<u8> {
    let (mut shorter, mut longer) = (vec![b], vec![a]);
    while longer.len() < n {
        let next = [&longer[..], &shorter[..]].concat();
        shorter = std::mem::replace(&mut longer, next);
    }
    longer.truncate(n);
    longer
}

/// A word written over and over with one letter changed somewhere, n letters.
pub fn with_defect(numbers: &mut Numbers, word: &[u8], n: usize) -> Vec<u8> {
    let mut ring = over(word, n);
    let at = numbers.below(n);
    ring[at] = b"ACGT"[numbers.below(4)];
    ring
}

/// The least de Bruijn word, cut to n letters: Lyndon words of ascending order, those whose length divides the word's order.
pub fn de_bruijn(alphabet: &[u8], n: usize) -> Vec<u8> {
    let order = (1..).find(|&order| alphabet.len().pow(order) >= n).unwrap() as usize;
    let mut ring = Vec::new();
    let mut lyndon = vec![0];
    while !lyndon.is_empty() {
        if order % lyndon.len() == 0 {
            ring.extend(lyndon.iter().map(|&d| alphabet[d]));
        }
        // the next Lyndon word: repeated to the order, the last letters that are highest dropped, the one before raised
        lyndon = lyndon.iter().copied().cycle().take(order).collect();
        while lyndon.last() == Some(&(alphabet.len() - 1)) {
            lyndon.pop();
        }
        if let Some(last) = lyndon.last_mut() {
            *last += 1;
        }
    }
    ring.truncate(n);
    ring
}

/// Bytes for the letters A, C, G, T of a feature ring: in their order, against it, and mixed.
const BYTES: [[u8; 4]; 3] = [[0, 127, 128, 255], [255, 128, 127, 0], [128, 0, 255, 127]];

/// Letters for A, C, G, T of a ring with uncertain letters: in their order, against it, mixed, all facing themselves, and with bases.
/// Those for letters that face each other face each other.
const UNSURE: [[u8; 4]; 5] = [*b"BDHV", *b"VHDB", *b"RKMY", *b"NSSN", *b"ANNT"];

/// The letters A, C, G, T exchanged for other bytes.
fn recoded(ring: &[u8], bytes: [u8; 4]) -> Vec<u8> {
    ring.iter().map(|letter| bytes[b"ACGT".iter().position(|l| l == letter).unwrap()]).collect()
}

/// A word over A, C, G, T in other letters of a kind, `turn` says in which; as it is for a base ring.
pub fn lettered(kind: u8, word: &[u8], turn: usize) -> Vec<u8> {
    match kind {
        FEATURES => recoded(word, BYTES[turn % BYTES.len()]),
        UNCERTAIN => recoded(word, UNSURE[turn % UNSURE.len()]),
        _ => word.to_vec(),
    }
}

/// A^(n-1) C.
pub fn all_but_last(n: usize) -> Vec<u8> {
    let mut ring = vec![b'A'; n];
    ring[n - 1] = b'C';
    ring
}

/// b^K a b^K (a b^j c)^J with K = n / 4: blocks that each look far back.
pub fn far_back(n: usize) -> Vec<u8> {
    let k = n / 4;
    let mut ring = vec![b'C'; k];
    ring.push(b'A');
    ring.extend(vec![b'C'; k]);
    let mut unit = vec![b'A'];
    unit.extend(vec![b'C'; 6]);
    unit.push(b'G');
    let rest = n.saturating_sub(ring.len());
    ring.extend(over(&unit, rest));
    ring.truncate(n);
    ring
}

/// A ring of an even length that is its own opposite strand.
pub fn own_opposite(numbers: &mut Numbers, n: usize) -> Vec<u8> {
    let mut ring = numbers.word(b"ACGT", n / 2);
    ring.extend(crate::words::opposite(&ring.clone()));
    ring
}

/// Rings of n letters of every family, random ones from `numbers`.
pub fn families(numbers: &mut Numbers, n: usize) -> Vec<Vec<u8>> {
    let unit = 1 + numbers.below(9);
    let unit = numbers.word(b"ACGT", unit);
    let mut tail = over(&unit, n);
    let from = n - 1 - numbers.below(n.min(5));
    for letter in &mut tail[from..] {
        *letter = b"ACGT"[numbers.below(4)];
    }
    let mut rings = vec![
        numbers.word(b"ACGT", n),
        numbers.word(b"AC", n),
        vec![b'A'; n],
        vec![b'T'; n],
        all_but_last(n),
        over(b"CA", n),
        over(&unit, n),
        tail,
        with_defect(numbers, &unit, n),
        crate::words::reading(&de_bruijn(b"ACGT", n), n / 3),
        fibonacci(b'A', b'C', n),
        fibonacci(b'T', b'A', n),
        far_back(n),
    ];
    if n % 2 == 0 {
        rings.push(own_opposite(numbers, n));
    }
    if n % 4 == 0 {
        let half = own_opposite(numbers, n / 2);
        rings.push([&half[..], &half[..]].concat());
    }
    rings
}
