//! Plasmids with uncertain letters in them, as a sequencing run leaves them.
use crate::cases::Numbers;
use crate::comparison::Comparison;
use crate::fasta_texts::{as_three_write, plasmids};
use crate::ring_cases::ring;
use crate::rules::{self, BASES, UNCERTAIN};
use crate::sheet_cases::sheet;
use crate::{codes, fasta, keys, report, words};

/// A ring with each letter that stands `apart` from the last one exchanged for a letter that stands for its base and for others.
fn unsure(numbers: &mut Numbers, ring: &[u8], apart: usize) -> Vec<u8> {
    let mut ring = ring.to_vec();
    for letter in ring.iter_mut().skip(numbers.below(apart)).step_by(apart) {
        *letter = numbers.word(&codes::uncertain(*letter), 1)[0];
    }
    ring
}

/// A ring with a run of N for `size` letters somewhere, perhaps round its end.
fn with_gap(numbers: &mut Numbers, ring: &[u8], size: usize) -> Vec<u8> {
    let mut ring = ring.to_vec();
    let (n, from) = (ring.len(), numbers.below(ring.len()));
    (from..from + size).for_each(|at| ring[at % n] = b'N');
    ring
}

/// A deposit with uncertain letters is no base ring: as one, as FASTA text and by the program it is refused.
fn no_bases(c: &mut Comparison, name: &str, deposit: &[u8], known: &[u8]) {
    assert_eq!(rules::judge(BASES, deposit, false).map_err(|refusal| refusal.number), Err(3), "{name}");
    c.check(BASES, deposit);
    c.compare(BASES, known, deposit);
    c.report(deposit, &report::report(deposit));
    for text in as_three_write(name, deposit) {
        c.fasta(&text, fasta::record(&text).as_ref(), &[deposit.len()]);
    }
}

/// A deposit with uncertain letters, turned and on the other strand: one molecule with one key, and not the plasmid `known`.
fn deposit(c: &mut Comparison, numbers: &mut Numbers, name: &str, deposit: &[u8], known: &[u8]) {
    let key = keys::key(UNCERTAIN, deposit);
    let turned = words::reading(deposit, numbers.below(deposit.len()));
    let other = words::opposite(&words::reading(deposit, numbers.below(deposit.len())));
    for same in [deposit, &turned, &other] {
        assert!(keys::same(UNCERTAIN, deposit, same) && !keys::same(UNCERTAIN, same, known), "{name}");
        c.compare(UNCERTAIN, deposit, same);
        c.compare(UNCERTAIN, same, known);
        c.compare(UNCERTAIN, known, same);
        ring(c, UNCERTAIN, same, numbers);
        let bytes = sheet(c, UNCERTAIN, same, numbers);
        assert_eq!(bytes[..deposit.len()], key.letters, "the letters of one key in front of the sheet of {name}");
        no_bases(c, name, same, known);
    }
}

/// Four plasmids with a letter in a hundred and in three hundred uncertain, and with a run of 120 N.
pub fn rings(c: &mut Comparison, numbers: &mut Numbers) {
    for (name, known) in plasmids() {
        for apart in [100, 300] {
            let unsure = unsure(numbers, &known, apart);
            deposit(c, numbers, name, &unsure, &known);
        }
        let gap = with_gap(numbers, &known, 120);
        deposit(c, numbers, name, &gap, &known);
    }
}
