//! Times of the FASTA reader for each byte of text, beside plain Rust and beside `ring::mark` on the same letters.
use crate::cases::Numbers;
use crate::fasta_texts::written;
use crate::lent::Lent;
use crate::part_comparison::elsewhere;
use crate::timing::{better, time};
use crate::{plain_fasta, probe};
use std::hint::black_box;

const SIZES: [(&str, usize); 3] = [("64 KB", 1 << 16), ("1 MB", 1 << 20), ("8 MB", 1 << 23)];

/// How many letters each record has.
const LETTERS: usize = 3000;

/// Rings of random letters, and a text of them as records in lines of 70 with LF, of `size` bytes or a little more.
fn made(size: usize) -> (Vec<Lent<u8>>, Vec<u8>) {
    let mut numbers = Numbers::new(size as u64);
    let (mut rings, mut text) = (Vec::new(), Vec::new());
    while text.len() < size {
        let ring = numbers.word(b"ACGT", LETTERS);
        text.extend(written(&format!("record {}", rings.len()), &ring, 70, "\n"));
        rings.push(Lent::holding(&ring, b'A'));
    }
    (rings, text)
}

/// Nanoseconds a byte to go through the records of a text; `next` says where the text behind the first record begins.
fn walked(text: &[u8], records: usize, mut next: impl FnMut(&[u8]) -> usize) -> f64 {
    time(text.len(), || {
        let (mut left, mut count) = (black_box(text), 0);
        while !left.is_empty() {
            left = &left[next(left)..];
            count += 1;
        }
        assert!(count == records);
    })
}

/// Each row's call, and what stands beside it.
const ROWS: [(&str, &str); 3] = [("record", "plain Rust"), ("rest", "plain scan"), ("record", "ring::mark")];

/// Each row's two times.
type Times = [[f64; 2]; ROWS.len()];

fn times(rings: &[Lent<u8>], text: &[u8]) -> Times {
    let n = rings.len();
    let (mut room, mut v) = (Lent::room(LETTERS, |_| 0u8), Lent::room(6, |_| 0u64));
    let mut plain_room = vec![0; LETTERS];
    let record = walked(text, n, |left| {
        assert!(probe::fasta(left, &mut room, &mut v) == 0);
        v.entries()[4] as usize
    });
    let plain_record = walked(text, n, |left| {
        let answer = plain_fasta::record(left, black_box(&mut plain_room));
        assert!(answer.number == 0);
        answer.rest.offset
    });
    let mut part = elsewhere();
    let rest = walked(text, n, |left| {
        probe::fasta_rest_part(left, &mut part);
        left.len() - part.entries()[0].size
    });
    let plain_rest = walked(text, n, |left| plain_fasta::rest(left).offset);
    let mark = time(text.len(), || rings.iter().for_each(|ring| assert!(probe::mark(1, black_box(ring), &mut v) == 0)));
    [[record, plain_record], [rest, plain_rest], [record, mark]]
}

/// One line for each row: the times at each size with their ratio, and the growth.
pub fn print() {
    println!(
        "Nanoseconds a byte of FASTA text, best of 8 passes of 15 batches: records of 3,000 random letters in lines of 70 with"
    );
    println!("LF, each read in what the one before leaves. Growth is the library's time a byte at 8 MB by that at 64 KB.");
    println!();
    println!("| Call | Beside it |{} growth |", SIZES.map(|(name, _)| format!(" {name} | beside | ratio |")).concat());
    println!("|---|---|{}---|", "---|".repeat(3 * SIZES.len()));
    let texts = SIZES.map(|(_, size)| made(size));
    let mut best = [[[f64::MAX; 2]; ROWS.len()]; SIZES.len()];
    for _ in 0..8 {
        for (best, (rings, text)) in best.iter_mut().zip(&texts) {
            *best = better(*best, times(rings, text));
        }
    }
    for (row, (call, beside)) in ROWS.iter().enumerate() {
        let cells = best.map(|times| times[row]).map(|[own, other]| format!(" {own:.2} | {other:.2} | {:.2} |", own / other));
        let growth = best[SIZES.len() - 1][row][0] / best[0][row][0];
        println!("| {call} | {beside} |{} {growth:.2} |", cells.concat());
    }
}
