//! Compares the library with the second program on many rings and texts. One line for each stage, or the first difference.
use second::cases::{self, Numbers};
use second::comparison::Comparison;
use second::deposit_cases::{every_key, every_mark};
use second::letter_cases::{every_kind, every_letter, faces_agree};
use second::long_sheets::{changed, cut, marks, wrong_letters};
use second::report_comparison::{processes, reports};
use second::ring_cases::{refusals, ring, sizes};
use second::rules::{self, BASES, FEATURES, IUPAC, UNCERTAIN};
use second::sheet_cases::{damaged, sheet, trailers};
use second::{alike_cases, facts, fasta_cases, repeat_cases, report, uncertain_cases};
use std::time::Instant;

type Stage = fn(&mut Comparison, &mut Numbers);

const STAGES: [(&str, Stage); 25] = [
    ("refusals and their collisions", |c, _| refusals(c)),
    ("every byte as a letter of a ring, a key and a sheet, every byte as a kind", every_byte),
    ("every ring over AC to 15, AT to 11, ACGT to 8, six bytes to 5", every_ring),
    (
        "every ring of kind 2 over RY to 15, KM to 11, ACN to 10, SWN to 9, BVDH to 8, ACGT to 6, all letters to 4",
        every_uncertain_ring,
    ),
    ("sizes of tables and rooms, letters judged as keys, pairs of rings, as all kinds", every_size),
    ("sheets of short rings of all kinds, trailers of every sort", short_sheets),
    ("sheets with every byte changed to every value, every truncation", damaged_sheets),
    ("books of all kinds with every byte changed, every truncation", damaged_books),
    ("families from 15 to 1,000 letters as all kinds", families),
    ("random rings to 300 letters of all kinds", random_rings),
    ("families to 8,192 letters, of bases, of bytes and of uncertain letters", long_rings),
    ("repeats of words over and over to 8,192 letters, turned, on the other strand, changed", repeat_cases::powers),
    ("rings over ACGT as kinds 1 and 2 with the same answers: all to 6, some to 8,192", alike_cases::rings),
    ("four plasmids with uncertain letters, turned, on the other strand, and refused as base rings", uncertain_cases::rings),
    ("sheets of kinds 1 and 2 to 8,192 letters with wrong letters", far_letters),
    ("sheets of all kinds to 8,192 letters with bytes and marks changed, cut, and with bytes before", long_damage),
    ("reports in rooms about 160,000 bytes", reports),
    ("FASTA texts with known answers, values of every number to 8", |c, _| fasta_cases::known(c)),
    ("every FASTA text to 7 bytes over eight bytes", |c, _| fasta_cases::every_text(c)),
    ("a FASTA file of three records, every part of it", |c, _| fasta_cases::every_cut(c)),
    ("that file with every byte changed to every value, put in, dropped", |c, _| fasta_cases::every_change(c)),
    ("random FASTA texts", fasta_cases::random_texts),
    ("four plasmids as three programs write them", |c, _| fasta_cases::rings(c)),
    ("those files damaged and cut", fasta_cases::damaged_rings),
    ("records about the limit, long headers, many blanks and lines", long_texts),
];

fn every_byte(c: &mut Comparison, numbers: &mut Numbers) {
    every_letter(c, numbers);
    every_kind(c);
}

fn every_ring(c: &mut Comparison, numbers: &mut Numbers) {
    for kind in [FEATURES, BASES] {
        cases::every(b"AC", 15, |w| ring(c, kind, w, numbers));
        cases::every(b"AT", 11, |w| ring(c, kind, w, numbers));
        cases::every(b"ACGT", 8, |w| ring(c, kind, w, numbers));
    }
    cases::every(&[0, 10, 65, 127, 128, 255], 5, |w| ring(c, FEATURES, w, numbers));
}

fn every_uncertain_ring(c: &mut Comparison, numbers: &mut Numbers) {
    let alphabets: [(&[u8], usize); 7] =
        [(b"RY", 15), (b"KM", 11), (b"ACN", 10), (b"SWN", 9), (b"BVDH", 8), (b"ACGT", 6), (IUPAC, 4)];
    for (alphabet, longest) in alphabets {
        cases::every(alphabet, longest, |w| ring(c, UNCERTAIN, w, numbers));
    }
}

fn every_size(c: &mut Comparison, _: &mut Numbers) {
    for kind in [0, 1, 2, 3, 255] {
        cases::every(b"ACGT", 4, |w| sizes(c, kind, w));
        cases::every(b"ACGTN", 4, |w| every_mark(c, kind, w));
    }
    for alphabet in [&b"RYN"[..], b"SWN", b"ACN", b"KMr"] {
        cases::every(alphabet, 5, |w| sizes(c, UNCERTAIN, w));
        cases::every(alphabet, 5, |w| every_mark(c, UNCERTAIN, w));
    }
    for kind in rules::kinds() {
        every_key(c, kind, b"ACGT", 5);
        every_key(c, kind, b"AT", 9);
        every_pair(c, kind, b"ACGT", 4);
    }
    for (alphabet, longest) in [(&b"RY"[..], 9), (b"SWN", 6), (b"ATN", 6), (b"BVDH", 5)] {
        every_key(c, UNCERTAIN, alphabet, longest);
        every_pair(c, UNCERTAIN, alphabet, 4);
    }
    every_key(c, UNCERTAIN, IUPAC, 3);
    every_pair(c, UNCERTAIN, IUPAC, 2);
}

fn every_pair(c: &mut Comparison, kind: u8, alphabet: &[u8], longest: usize) {
    cases::every(alphabet, longest, |first| cases::every(alphabet, longest, |second| c.compare(kind, first, second)));
}

fn short_sheets(c: &mut Comparison, numbers: &mut Numbers) {
    for kind in rules::kinds() {
        cases::every(b"AC", 12, |w| drop(sheet(c, kind, w, numbers)));
        cases::every(b"ACGT", 6, |w| drop(sheet(c, kind, w, numbers)));
    }
    for (alphabet, longest) in [(&b"RY"[..], 12), (b"ACN", 7), (b"SWN", 7), (b"BVDH", 6), (IUPAC, 3)] {
        cases::every(alphabet, longest, |w| drop(sheet(c, UNCERTAIN, w, numbers)));
    }
    trailers(c);
}

fn damaged_sheets(c: &mut Comparison, numbers: &mut Numbers) {
    let all: Vec<u8> = (0..=255).collect();
    c.sheet_walk(b"");
    c.sheet_read(b"", &[0, 1]);
    let bases: [&[u8]; 5] = [b"A", b"CACA", b"GATTACA", b"TTGA", b"ATAT"];
    let uncertain: [&[u8]; 8] = [b"A", b"N", b"GAN", b"GATNACA", b"YRYR", b"TTGA", b"VDHB", b"NSWNSW"];
    let deposits = bases.map(|deposit| (BASES, deposit)).into_iter().chain(uncertain.map(|deposit| (UNCERTAIN, deposit)));
    for (kind, deposit) in deposits.chain([(FEATURES, &b"\x00\xff\x00\x80"[..])]) {
        let bytes = sheet(c, kind, deposit, numbers);
        damaged(c, &bytes, &all);
    }
}

fn damaged_books(c: &mut Comparison, numbers: &mut Numbers) {
    let some = [0, 1, 2, 3, 7, 8, b'A', b'C', b'G', b'N', b'R', b'T', b'Y', 127, 128, 255];
    for sheets in 2..=7 {
        let mut book = Vec::new();
        for kind in rules::kinds().cycle().skip(sheets % 3).take(sheets) {
            let n = 1 + numbers.below(6);
            let deposit = numbers.word(if kind == UNCERTAIN { IUPAC } else { b"ACGT" }, n);
            book.extend(sheet(c, kind, &deposit, numbers));
        }
        c.sheet_walk(&book);
        damaged(c, &book, &some);
    }
}

fn families(c: &mut Comparison, numbers: &mut Numbers) {
    for n in (15..=130).chain([255, 256, 257, 511, 512, 513, 1000]) {
        for (i, word) in cases::families(numbers, n).into_iter().enumerate() {
            let unsure = cases::lettered(UNCERTAIN, &word, i + n);
            for (kind, word) in [(FEATURES, &word), (BASES, &word), (UNCERTAIN, &unsure)] {
                ring(c, kind, word, numbers);
                sheet(c, kind, word, numbers);
            }
        }
    }
}

fn random_rings(c: &mut Comparison, numbers: &mut Numbers) {
    let bases: [&[u8]; 5] = [b"ACGT", b"AC", b"AT", b"CG", b"AAAC"];
    let uncertain: [&[u8]; 7] = [IUPAC, IUPAC, b"ACGTN", b"RY", b"SWN", b"NNNB", b"ACGT"];
    for kind in rules::kinds().cycle().take(6000) {
        let n = 1 + numbers.below(300);
        let alphabets = if kind == UNCERTAIN { &uncertain[..] } else { &bases };
        let alphabet = alphabets[numbers.below(alphabets.len())];
        let word = numbers.word(alphabet, n);
        ring(c, kind, &word, numbers);
        sheet(c, kind, &word, numbers);
    }
}

/// Each family in letters of its kind, with a random ring over all of these; the sheets of a length make a book.
fn long_rings(c: &mut Comparison, numbers: &mut Numbers) {
    let bases = [2048, 4096, 8191, 8192].map(|n| (BASES, n));
    let others = [(FEATURES, 2048), (FEATURES, 4095), (FEATURES, 8192), (UNCERTAIN, 2048), (UNCERTAIN, 4095), (UNCERTAIN, 8192)];
    for (kind, n) in bases.into_iter().chain(others) {
        let words = cases::families(numbers, n);
        let mut rings: Vec<_> = words.iter().enumerate().map(|(i, word)| cases::lettered(kind, word, i + n)).collect();
        rings.push(numbers.word(rules::letters(kind).expect("a kind of rings"), n));
        let mut book = Vec::new();
        for word in rings {
            ring(c, kind, &word, numbers);
            book.extend(sheet(c, kind, &word, numbers));
        }
        c.sheet_walk(&book);
    }
}

fn far_letters(c: &mut Comparison, numbers: &mut Numbers) {
    for n in [257, 300, 512, 1000, 2049, 8192] {
        for (kind, letters) in [(BASES, &b"ACGT"[..]), (UNCERTAIN, IUPAC)] {
            let deposit = numbers.word(letters, n);
            let bytes = sheet(c, kind, &deposit, numbers);
            wrong_letters(c, numbers, kind, &bytes);
        }
    }
}

fn long_damage(c: &mut Comparison, numbers: &mut Numbers) {
    for n in [300, 777, 1024, 4095, 8192] {
        let unit = numbers.word(b"ACGT", 1 + n / 5);
        let repeated = if n % 2 == 0 { cases::over(&unit, n) } else { cases::fibonacci(b'T', b'A', n) };
        for (i, word) in [numbers.word(b"ACGT", n), repeated].into_iter().enumerate() {
            for kind in rules::kinds() {
                let bytes = sheet(c, kind, &cases::lettered(kind, &word, i + n), numbers);
                changed(c, numbers, &bytes);
                marks(c, numbers, &bytes);
                cut(c, numbers, &bytes);
            }
        }
    }
}

fn long_texts(c: &mut Comparison, numbers: &mut Numbers) {
    fasta_cases::limits(c, numbers);
    fasta_cases::far(c);
}

/// The second program's two ways agree where both can run.
fn agree(alphabet: &[u8], longest: usize) {
    cases::every(alphabet, longest, |ring| {
        if facts::by_definition(ring) != facts::by_other_methods(ring) {
            eprintln!("the second program's two ways differ on {ring:?}");
            std::process::exit(1);
        }
    });
}

fn main() {
    let begun = Instant::now();
    let mut c = Comparison::new();
    let mut numbers = Numbers::new(7);
    let Some(program) = report::program() else {
        eprintln!("ringline is not built, so its runs cannot be compared: `./ringline` builds it");
        std::process::exit(1)
    };
    faces_agree();
    agree(b"AC", 11);
    agree(b"ACGT", 5);
    fasta_cases::plain_agrees(6);
    for (what, stage) in STAGES {
        stage(&mut c, &mut numbers);
        println!("{:>6.1} s  {:>9} calls  {what}", begun.elapsed().as_secs_f64(), c.calls);
    }
    println!("{} runs of ringline agree with the second program", processes(&program, &mut numbers));
    println!("{} calls of the library agree with the second program", c.calls);
}
