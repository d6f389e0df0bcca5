//! Rings over A, C, G, T as kind 1 and as kind 2: the library's own answers, of every call that is told a kind, are alike.
use crate::cases::{self, Numbers};
use crate::comparison::{differ, Comparison};
use crate::keys::{self, Key, Marks};
use crate::lent::Lent;
use crate::part_comparison::elsewhere;
use crate::rules::{BASES, MOST, UNCERTAIN};
use crate::{probe, rules, words};

/// What a call is lent for writing, and then what it left there.
struct Lending {
    values: Lent<u64>,
    table: Lent<u16>,
    first: Lent<u8>,
    second: Lent<u8>,
}

/// What a call says: its name, its number, its values, and its table and both rooms as it left them.
type Answer = (&'static str, u8, Vec<u64>, Vec<u16>, [Vec<u8>; 2]);

/// One call with six values, a table of the first size, and rooms of both sizes.
fn answer(call: &'static str, [one, two]: [usize; 2], run: impl FnOnce(&mut Lending) -> u8) -> Answer {
    let (first, second) = (Lent::room(one, |i| i as u8), Lent::room(two, |i| !i as u8));
    let mut lent = Lending { values: Lent::room(6, |i| !i as u64), table: Lent::room(one, |i| !i as u16), first, second };
    let number = run(&mut lent);
    let rooms = [lent.first.entries().to_vec(), lent.second.entries().to_vec()];
    (call, number, lent.values.entries().to_vec(), lent.table.entries().to_vec(), rooms)
}

/// The calls on a ring that are lent no letters' room.
fn on_ring(kind: u8, ring: &[u8], other: &[u8], sizes: [usize; 2]) -> Vec<Answer> {
    let (ring, other) = (&Lent::holding(ring, b'A'), &Lent::holding(other, b'A'));
    vec![
        answer("strands_of", sizes, |_| probe::strands_of(kind)),
        answer("check", sizes, |l| probe::check(kind, ring, &mut l.values)),
        answer("factors", sizes, |l| probe::factors(kind, ring, &mut l.table, &mut l.values)),
        answer("suffixes", sizes, |l| probe::suffixes(kind, ring, &mut l.table, &mut l.values)),
        answer("starts", sizes, |l| probe::starts(kind, ring, &mut l.table, &mut l.values)),
        answer("duel", sizes, |l| probe::duel(kind, ring, &mut l.values)),
        answer("repeat", sizes, |l| probe::repeat(kind, ring, &mut l.values)),
        answer("mark", sizes, |l| probe::mark(kind, ring, &mut l.values)),
        answer("compare", sizes, |l| probe::compare(kind, ring, other, &mut l.values)),
        answer("compare", sizes, |l| probe::compare(kind, other, ring, &mut l.values)),
    ]
}

/// The calls that write letters, with rooms of the sizes given; for the key's part the number is that of its room.
fn in_rooms(kind: u8, ring: &[u8], sizes: [usize; 2]) -> Vec<Answer> {
    let ring = &Lent::holding(ring, b'A');
    vec![
        answer("write_letters", sizes, |l| probe::write_letters(kind, ring, &mut l.first, &mut l.values)),
        answer("write_key", sizes, |l| probe::write_key(kind, ring, &mut l.first, &mut l.second, &mut l.values)),
        answer("key", sizes, |l| probe::key(kind, ring, &mut l.first, &mut l.second, &mut l.values)),
        answer("key, its part", sizes, |l| {
            let mut part = elsewhere();
            probe::key_part(kind, ring, &mut l.first, &mut l.second, &mut part);
            let part = part.entries()[0];
            l.values = Lent::room(1, |_| part.size as u64);
            [l.first.front(), l.second.front()].iter().position(|&front| part.at == front).unwrap_or(2) as u8
        }),
    ]
}

/// Letters judged as a key with these marks, and turned back in a room of the first size.
fn as_key(marks: Marks, letters: &[u8], sizes: [usize; 2]) -> Vec<Answer> {
    let letters = &Lent::holding(letters, b'A');
    vec![
        answer("check_key", sizes, |l| probe::check_key(marks, letters, &mut l.values)),
        answer("write_deposit", sizes, |l| probe::write_deposit(marks, letters, &mut l.first, &mut l.values)),
    ]
}

/// Takes the kind out of the place in an answer where it stands.
fn without_kind(call: &str, kind: u8, ring: &[u8], place: &mut (impl Copy + Into<u64> + From<u8>)) {
    let found: u64 = (*place).into();
    if found != kind as u64 {
        differ(call, kind, ring, format!("the kind in the answer is {found}"));
    }
    *place = 0.into();
}

/// The sheet of a ring in a room of the first size, and that room read and walked as a sheet, without the kinds that they name.
fn as_sheet(kind: u8, ring: &[u8], sizes: [usize; 2]) -> Vec<Answer> {
    let lent = &Lent::holding(ring, b'A');
    let mut written = answer("sheet_write", sizes, |l| probe::sheet_write(kind, lent, &mut l.first, &mut l.values));
    let sheet = &Lent::holding(&written.4[0], b'A');
    let mut read = answer("sheet_read", sizes, |l| probe::sheet_read(sheet, &mut l.values));
    if written.1 == 0 {
        without_kind("sheet_write", kind, ring, &mut written.4[0][ring.len() + 5]);
    }
    if read.1 == 0 {
        without_kind("sheet_read", kind, ring, &mut read.2[4]);
    }
    vec![
        written,
        read,
        answer("sheet_letters", sizes, |l| probe::sheet_letters(sheet, &mut l.values)),
        answer("sheet_original", sizes, |l| probe::sheet_original(sheet, &mut l.first, &mut l.values)),
        answer("sheet_walk", sizes, |l| probe::sheet_walk(sheet, &mut l.values)),
    ]
}

/// All answers on a ring as a kind, with rooms that are too short and with rooms that are not; `other` is compared with it.
fn answers(kind: u8, ring: &[u8], other: &[u8], key: Option<&Key>) -> Vec<Answer> {
    let n = ring.len();
    let mut all = Vec::new();
    let short = n.saturating_sub(1);
    for sizes in [[short, n], [n, short], [n, n], [n + 7, n], [n + 8, n + 8]] {
        all.extend(on_ring(kind, ring, other, sizes));
        all.extend(in_rooms(kind, ring, sizes));
        all.extend(as_sheet(kind, ring, sizes));
        for (start, strand) in [(0, 0), (0, 1), (0, 2), (n / 2, 0), (n, 0)] {
            all.extend(as_key(Marks { kind, start, strand }, ring, sizes));
        }
        if let Some(key) = key {
            all.extend(as_key(key.marks(kind), &key.letters, sizes));
            all.extend(as_key(Marks { strand: 1 - key.strand, ..key.marks(kind) }, &key.letters, sizes));
        }
    }
    all
}

/// A ring, and another compared with it, as both kinds.
fn alike(c: &mut Comparison, ring: &[u8], other: &[u8]) {
    let key = rules::judge(BASES, ring, false).is_ok().then(|| keys::key(BASES, ring));
    let (bases, uncertain) = (answers(BASES, ring, other, key.as_ref()), answers(UNCERTAIN, ring, other, key.as_ref()));
    c.calls += (bases.len() + uncertain.len()) as u64;
    for (one, two) in bases.iter().zip(&uncertain) {
        if one != two {
            let call = one.0;
            let [one, two] = [one, two].map(|answer| (answer.1, &answer.2));
            differ(call, UNCERTAIN, ring, format!("as kind 2 {two:?}, as kind 1 {one:?}, or what was lent differs"));
        }
    }
}

/// Every ring to 6 letters, families and random rings to 8,192, and rings that are refused.
pub fn rings(c: &mut Comparison, numbers: &mut Numbers) {
    cases::every(b"ACGT", 6, |ring| alike(c, ring, &numbers.word(b"ACGT", ring.len())));
    for n in [20, 257, 1000, 4097, MOST] {
        for ring in cases::families(numbers, n) {
            let turned = words::reading(&ring, numbers.below(n));
            alike(c, &ring, &words::opposite(&turned));
            alike(c, &ring, &turned);
        }
    }
    for _ in 0..400 {
        let (n, m) = (1 + numbers.below(300), 1 + numbers.below(300));
        alike(c, &numbers.word(b"ACGT", n), &numbers.word(b"ACGT", m));
    }
    for ring in [&b""[..], b"gat", b"GAX", b"GATUACA", b"GA\x00", &cases::over(b"GATTACA", MOST + 1)] {
        alike(c, ring, b"GAT");
        alike(c, b"GAT", ring);
    }
}
