//! Times of `check` and `mark` as kind 2 on rings of random letters over the fifteen, beside plain Rust.
use crate::cases::Numbers;
use crate::lent::Lent;
use crate::rules::{IUPAC, UNCERTAIN};
use crate::timing::{better, time};
use crate::{plain, probe};
use std::hint::black_box;

const LENGTHS: [usize; 2] = [1024, 8192];

/// Each row's call, and what stands beside it.
const ROWS: [(&str, &str); 2] = [("check", "letters by a table"), ("mark", "Booth on both strands")];

/// Each row's two times.
type Times = [[f64; 2]; ROWS.len()];

/// As many rings of n letters as make 131,072 letters.
fn made(n: usize) -> Vec<Vec<u8>> {
    let mut numbers = Numbers::new(n as u64);
    (0..(1 << 17) / n).map(|_| numbers.word(IUPAC, n)).collect()
}

fn times(words: &[Vec<u8>]) -> Times {
    let n = words[0].len();
    let rings: Vec<Lent<u8>> = words.iter().map(|word| Lent::holding(word, b'A')).collect();
    let (mut v, mut failure) = (Lent::room(4, |_| 0u64), vec![0; 2 * n]);
    let letters = n * words.len();
    let mut own = |call: fn(u8, &Lent<u8>, &mut Lent<u64>) -> u8| {
        time(letters, || rings.iter().for_each(|ring| assert!(call(UNCERTAIN, black_box(ring), &mut v) == 0)))
    };
    let (check, mark) = (own(probe::check), own(probe::mark));
    let judged = time(letters, || words.iter().for_each(|word| assert!(plain::judged_uncertain(black_box(word)))));
    let booth = time(letters, || {
        for word in words.iter().map(black_box) {
            assert!(plain::judged_uncertain(word) && black_box(plain::key_by_booth(word, &mut failure)).0 < n);
        }
    });
    [[check, judged], [mark, booth]]
}

/// One line for each row: the times at each length with their ratio, and the growth.
pub fn print() {
    println!("Nanoseconds a letter as kind 2, taken in the same way: 131,072 random letters over the fifteen in turn.");
    println!();
    println!("| Call | Beside it | 1,024 | beside | ratio | 8,192 | beside | ratio | growth |");
    println!("|---|---|---|---|---|---|---|---|---|");
    let rings = LENGTHS.map(made);
    let mut best = [[[f64::MAX; 2]; ROWS.len()]; LENGTHS.len()];
    for _ in 0..8 {
        for (best, words) in best.iter_mut().zip(&rings) {
            *best = better(*best, times(words));
        }
    }
    for (row, (call, beside)) in ROWS.iter().enumerate() {
        let cells = best.map(|times| times[row]).map(|[own, other]| format!(" {own:.2} | {other:.2} | {:.2} |", own / other));
        println!("| {call} | {beside} |{} {:.2} |", cells.concat(), best[1][row][0] / best[0][row][0]);
    }
}
