//! Times each call of the library beside plain Rust on the same rings and texts, in one run.
use second::cases::{self, Numbers};
use second::lent::Lent;
use second::rules::{BASES, UNCERTAIN};
use second::timing::time;
use second::{duels, fasta_times, keys, long, plain, probe, process_times, report, sheets, uncertain_times};
use std::hint::black_box;

struct Row {
    call: &'static str,
    family: &'static str,
    n: usize,
    library: f64,
    plain: Vec<(&'static str, f64)>,
}

impl Row {
    /// The better of two timings of the same calls.
    fn better(mut self, other: Row) -> Row {
        self.library = self.library.min(other.library);
        for (own, (_, time)) in self.plain.iter_mut().zip(other.plain) {
            own.1 = own.1.min(time);
        }
        self
    }
}

/// Each family's rings of n letters. The random ones are many, so that no run's branches are those of the run before; those of the
/// last family closed on themselves twice.
fn families(n: usize) -> Vec<(&'static str, Vec<Vec<u8>>)> {
    let mut numbers = Numbers::new(n as u64);
    vec![
        ("random", (0..(1 << 17) / n).map(|_| numbers.word(b"ACGT", n)).collect()),
        ("A^n", vec![vec![b'A'; n]]),
        ("A^(n-1)C", vec![cases::all_but_last(n)]),
        ("(CA)^k", vec![cases::over(b"CA", n)]),
        ("Fibonacci", vec![cases::fibonacci(b'A', b'C', n)]),
        ("b^K a b^K (a b^j c)^J", vec![cases::far_back(n)]),
        ("random, twice", (0..(1 << 17) / n).map(|_| cases::over(&numbers.word(b"ACGT", n / 2), n)).collect()),
    ]
}

/// Nanoseconds a letter over all rings of a family.
fn each<T>(rings: &[T], n: usize, mut run: impl FnMut(&T)) -> f64 {
    time(n * rings.len(), || rings.iter().for_each(|ring| run(black_box(ring))))
}

fn rows(family: &'static str, words: &[Vec<u8>]) -> Vec<Row> {
    let n = words[0].len();
    let lend = |word: &Vec<u8>| Lent::holding(word, b'A');
    let rings: Vec<Lent<u8>> = words.iter().map(lend).collect();
    let turned: Vec<(Lent<u8>, Lent<u8>)> = words.iter().map(|w| (lend(w), lend(&second::words::reading(w, n / 3)))).collect();
    let sheets: Vec<Lent<u8>> = words.iter().map(|w| lend(&sheets::bytes(1, &keys::key(1, w)))).collect();
    let mut v = Lent::room(6, |_| 0u64);
    let mut table = Lent::room(n, |_| 0u16);
    let (mut first, mut second) = (Lent::room(n, |_| 0u8), Lent::room(n, |_| 0u8));
    let mut sheet = Lent::room(n + 8, |_| 0u8);
    let mut room = vec![0u16; n];
    let mut failure = vec![0i32; 2 * n];
    let mut rows = Vec::new();
    let mut row = |call, library, plain| rows.push(Row { call, family, n, library, plain });

    let judged = each(words, n, |w| assert!(plain::judged(w)));
    let own = each(&rings, n, |r| assert!(probe::check(1, r, &mut v) == 0));
    row("check", own, vec![("letters", judged)]);

    let factors = each(&rings, n, |r| assert!(probe::factors(1, r, &mut table, &mut v) == 0));
    let scan = each(words, n, |w| assert!(plain::judged(w) && plain::factors(w, black_box(&mut room)).0 > 0));
    let booth = each(words, n, |w| assert!(plain::judged(w) && long::booth(w, &mut failure) < n));
    let doubled = each(words, n, |w| assert!(plain::judged(w) && plain::duval_doubled(w) < n));
    row("factors", factors, vec![("Duval", scan), ("Booth, start only", booth), ("Duval doubled, start only", doubled)]);

    let own = each(&rings, n, |r| assert!(probe::suffixes(1, r, &mut table, &mut v) == 0));
    let scan = each(words, n, |w| {
        assert!(plain::judged(w));
        plain::suffixes(w, black_box(&mut room));
    });
    row("suffixes", own, vec![("one scan", scan)]);

    let own = each(&rings, n, |r| assert!(probe::starts(1, r, &mut table, &mut v) == 0));
    let linear = each(words, n, |w| {
        assert!(plain::judged(w));
        plain::starts(w, black_box(&mut room));
    });
    row("starts", own, vec![("linear", linear)]);

    let own = each(&rings, n, |r| assert!(probe::duel(1, r, &mut v) == 0));
    let duels = each(words, n, |w| assert!(plain::judged(w) && black_box(plain::duel(w)).0 < n));
    let unchecked = each(words, n, |w| assert!(plain::judged(w) && black_box(plain::duel_unchecked(w)).0 < n));
    row("duel", own, vec![("duels, unchecked", unchecked), ("duels, checked", duels)]);

    let own = each(&rings, n, |r| assert!(probe::repeat(1, r, &mut v) == 0));
    let lengths = each(words, n, |w| assert!(plain::judged(w) && plain::repeat(w, black_box(&mut room)) > 0));
    row("repeat", own, vec![("match lengths, then division", lengths), ("factors of the library", factors)]);

    let mark = each(&rings, n, |r| assert!(probe::mark(1, r, &mut v) == 0));
    let both = each(words, n, |w| assert!(plain::judged(w) && black_box(plain::key_by_booth(w, &mut failure)).0 < n));
    row("mark", mark, vec![("factors of the library, one strand", factors), ("Booth on both strands", both)]);

    let own = each(&rings, n, |r| assert!(probe::write_key(1, r, &mut first, &mut second, &mut v) == 0));
    row("write_key", own, vec![("mark of the library", mark)]);

    let own = each(&turned, n, |(a, b)| assert!(probe::compare(1, a, b, &mut v) == 0));
    row("compare", own, vec![("mark of the library", mark)]);

    let own = each(&rings, n, |r| assert!(probe::sheet_write(1, r, &mut sheet, &mut v) == 0));
    row("sheet::write", own, vec![("mark of the library", mark)]);
    let read = each(&sheets, n, |s| assert!(probe::sheet_read(s, &mut v) == 0));
    row("sheet::read", read, vec![("mark of the library", mark)]);
    let own = each(&sheets, n, |s| assert!(probe::sheet_original(s, &mut first, &mut v) == 0));
    row("sheet::original", own, vec![("sheet::read", read)]);
    rows
}

/// The calls as kind 2 beside the same calls as kind 1, on the same rings.
fn kind_rows(family: &'static str, words: &[Vec<u8>]) -> Vec<Row> {
    let n = words[0].len();
    let lend = |word: &Vec<u8>| Lent::holding(word, b'A');
    let rings: Vec<Lent<u8>> = words.iter().map(lend).collect();
    let turned: Vec<(Lent<u8>, Lent<u8>)> = words.iter().map(|w| (lend(w), lend(&second::words::reading(w, n / 3)))).collect();
    let mut v = Lent::room(6, |_| 0u64);
    let mut kinds = |run: &dyn Fn(u8, &mut Lent<u64>) -> f64| (run(BASES, &mut v), run(UNCERTAIN, &mut v));
    let check = kinds(&|kind, v| each(&rings, n, |r| assert!(probe::check(kind, r, v) == 0)));
    let mark = kinds(&|kind, v| each(&rings, n, |r| assert!(probe::mark(kind, r, v) == 0)));
    let compare = kinds(&|kind, v| each(&turned, n, |(a, b)| assert!(probe::compare(kind, a, b, v) == 0)));
    let row = |call, beside, (bases, uncertain)| Row { call, family, n, library: uncertain, plain: vec![(beside, bases)] };
    vec![
        row("check, kind 2", "check, kind 1", check),
        row("mark, kind 2", "mark, kind 1", mark),
        row("compare, kind 2", "compare, kind 1", compare),
    ]
}

fn all_rows(family: &'static str, words: &[Vec<u8>]) -> Vec<Row> {
    let mut all = rows(family, words);
    all.extend(kind_rows(family, words));
    all
}

fn main() {
    println!(
        "Nanoseconds a letter, kind 1 where none is named, best of 8 passes of 15 batches; 131,072 random letters in turn. Tables, rooms and failure tables are made once and not cleared between"
    );
    println!("calls, by either side; plain Rust judges the letters too. A ratio is the library's time by the time beside it; growth is");
    println!("the library's time a letter at 8,192 letters by that at 1,024.");
    println!();
    let lengths = [1024, 8192];
    let once = || -> Vec<Row> {
        lengths.iter().flat_map(|&n| families(n)).flat_map(|(family, letters)| all_rows(family, &letters)).collect()
    };
    // passes a few seconds apart, so that a busy moment of the machine spoils no row
    let all = (1..8).fold(once(), |best, _| best.into_iter().zip(once()).map(|(a, b)| a.better(b)).collect());
    let at = |call: &str, family: &str, n: usize| all.iter().find(|r| r.call == call && r.family == family && r.n == n).unwrap();
    println!("| Call | Beside it | Ring | 1,024 | beside | ratio | 8,192 | beside | ratio | growth |");
    println!("|---|---|---|---|---|---|---|---|---|---|");
    let names: Vec<&str> = all.iter().filter(|r| r.n == lengths[0] && r.call == all[0].call).map(|r| r.family).collect();
    let mut worst = Vec::new();
    for first in all.iter().filter(|r| r.n == lengths[0] && r.family == all[0].family) {
        for (i, (beside, _)) in first.plain.iter().enumerate() {
            let (mut most, mut growth) = (0.0f64, 0.0f64);
            for family in &names {
                let (small, large) = (at(first.call, family, lengths[0]), at(first.call, family, lengths[1]));
                let ratios = [small, large].map(|r| r.library / r.plain[i].1);
                let grown = large.library / small.library;
                most = most.max(ratios[0]).max(ratios[1]);
                growth = growth.max(grown);
                println!(
                    "| {} | {beside} | {family} | {:.2} | {:.2} | {:.2} | {:.2} | {:.2} | {:.2} | {grown:.2} |",
                    first.call, small.library, small.plain[i].1, ratios[0], large.library, large.plain[i].1, ratios[1],
                );
            }
            worst.push((first.call, *beside, most, growth));
        }
    }
    println!();
    println!("| Call | Beside it | Largest ratio | Largest growth |");
    println!("|---|---|---|---|");
    for (call, beside, most, growth) in worst {
        println!("| {call} | {beside} | {most:.2} | {growth:.2} |");
    }
    println!();
    println!("| Ring | Pairs that the duels read, a letter, at 1,024 | at 8,192 |");
    println!("|---|---|---|");
    for ((family, small), (_, large)) in families(lengths[0]).iter().zip(families(lengths[1])) {
        let pairs = |ring: &Vec<u8>| duels::duel(ring).1 as f64 / ring.len() as f64;
        let mean = |rings: &[Vec<u8>]| rings.iter().map(pairs).sum::<f64>() / rings.len() as f64;
        println!("| {family} | {:.2} | {:.2} |", mean(small), mean(&large));
    }
    println!();
    uncertain_times::print();
    println!();
    fasta_times::print();
    println!();
    let rings: Vec<(&str, Vec<u8>)> =
        lengths.iter().flat_map(|&n| families(n)).map(|(family, mut rings)| (family, rings.swap_remove(0))).collect();
    if let Some(program) = report::program() {
        process_times::print(&program, &rings);
    }
}
