//! Each call of the library beside the second program's answer: the number, every field, every lent entry.
use crate::cases::Numbers;
use crate::facts::Facts;
use crate::keys::{self, Key};
use crate::lent::Lent;
use crate::probe;
use crate::rules::{self, judge, Refusal};
use std::fmt::{Debug, Display};

/// The first difference ends the run.
pub(crate) fn differ(call: impl Display, kind: u8, ring: &[u8], what: String) -> ! {
    let shown = if ring.len() <= 64 { ring.escape_ascii().to_string() } else { format!("{} letters", ring.len()) };
    eprintln!("DIFFERENCE in {call}, kind {kind}, ring {shown} {:?}: {what}", &ring[..ring.len().min(64)]);
    std::process::exit(1)
}

fn wide(table: &[usize]) -> Vec<u16> {
    table.iter().map(|&x| x as u16).collect()
}

pub struct Comparison {
    pub calls: u64,
    numbers: Numbers,
}

impl Comparison {
    pub fn new() -> Comparison {
        Comparison { calls: 0, numbers: Numbers::new(1) }
    }

    /// How many values the next call is lent: enough, more than enough, and now and then one too few.
    pub(crate) fn values(&self, fields: usize) -> usize {
        let turn = self.calls + 1;
        if turn % 29 == 0 {
            fields - 1
        } else {
            fields + (turn % 3) as usize
        }
    }

    /// Runs one call with some number of values lent to it.
    pub(crate) fn call(
        &mut self,
        name: impl Display,
        kind: u8,
        ring: &[u8],
        number: u8,
        fields: &[u64],
        run: impl FnOnce(&mut Lent<u64>) -> u8,
    ) {
        self.told(name, kind, ring, self.values(fields.len()), (number, fields), run);
    }

    /// Runs one call with `size` values lent to it, which it leaves alone where its fields are more.
    pub(crate) fn told(
        &mut self,
        name: impl Display,
        kind: u8,
        ring: &[u8],
        size: usize,
        (number, fields): (u8, &[u64]),
        run: impl FnOnce(&mut Lent<u64>) -> u8,
    ) {
        self.calls += 1;
        let salt = self.numbers.next();
        let mut values = Lent::room(size, |i| salt.wrapping_mul(i as u64 + 3));
        let got = run(&mut values);
        if got != number {
            differ(name, kind, ring, format!("the number is {got}, not {number}"));
        }
        if let Err(what) = values.holds(if size < fields.len() { &[] } else { fields }) {
            differ(name, kind, ring, format!("of the values {what}; the fields are {fields:?}"));
        }
    }

    /// A ring lent for reading, with letters round it that a call must not look at.
    pub(crate) fn lend(&mut self, ring: &[u8]) -> Lent<u8> {
        self.lend_amid(ring, &[b'A', b'T', 0, 255, b'C', b'N'])
    }

    /// Bytes lent for reading, with one of `around` all round them.
    pub(crate) fn lend_amid(&mut self, bytes: &[u8], around: &[u8]) -> Lent<u8> {
        Lent::holding(bytes, around[self.numbers.below(around.len())])
    }

    pub(crate) fn bytes(&mut self, size: usize) -> Lent<u8> {
        let salt = self.numbers.next();
        Lent::room(size, |i| (salt >> (i % 40)) as u8)
    }

    fn table(&mut self, size: usize) -> Lent<u16> {
        let salt = self.numbers.next();
        Lent::room(size, |i| (salt >> (i % 32)) as u16)
    }

    /// Nothing that was lent is written to.
    pub(crate) fn unchanged<T: Copy + PartialEq + Debug>(
        &self,
        name: impl Display,
        kind: u8,
        ring: &[u8],
        lent: &Lent<T>,
        written: &[T],
    ) {
        if let Err(what) = lent.holds(written) {
            differ(name, kind, ring, format!("of the lent entries {what}"));
        }
    }

    pub fn check(&mut self, kind: u8, ring: &[u8]) {
        let lent = self.lend(ring);
        let (number, place) = numbers(judge(kind, ring, false));
        self.call("check", kind, ring, number, &[place], |v| probe::check(kind, &lent, v));
    }

    /// The three calls that are lent a table of `size` entries; the facts are those of a ring that is taken.
    pub fn tables(&mut self, kind: u8, ring: &[u8], size: usize, facts: Option<&Facts>) {
        let lent = self.lend(ring);
        let verdict = judge(kind, ring, size < ring.len());
        let (number, place) = numbers(verdict);
        let done = verdict.ok().map(|()| facts.expect("facts of a ring that is taken"));

        let mut table = self.table(size);
        let fields = done.map_or([place, 0, 0], |f| [0, f.factors.len() as u64, f.start as u64]);
        self.call("factors", kind, ring, number, &fields, |v| probe::factors(kind, &lent, &mut table, v));
        self.unchanged("factors", kind, ring, &table, &done.map_or(vec![], |f| wide(&f.factors)));

        let mut table = self.table(size);
        self.call("suffixes", kind, ring, number, &[place], |v| probe::suffixes(kind, &lent, &mut table, v));
        self.unchanged("suffixes", kind, ring, &table, &done.map_or(vec![], |f| wide(&f.suffixes)));

        let mut table = self.table(size);
        self.call("starts", kind, ring, number, &[place], |v| probe::starts(kind, &lent, &mut table, v));
        self.unchanged("starts", kind, ring, &table, &done.map_or(vec![], |f| wide(&f.starts)));
        self.unchanged("a table", kind, ring, &lent, ring);
    }

    /// The calls that are lent a ring and nothing else.
    pub fn alone(&mut self, kind: u8, ring: &[u8], facts: Option<&Facts>, key: Option<&Key>) {
        let lent = self.lend(ring);
        let verdict = judge(kind, ring, false);
        let (number, place) = numbers(verdict);
        let done = verdict.ok().map(|()| facts.expect("facts of a ring that is taken"));
        let fields = done.map_or([place, 0, 0], |f| [0, f.duel_start as u64, f.pairs as u64]);
        self.call("duel", kind, ring, number, &fields, |v| probe::duel(kind, &lent, v));
        let fields = done.map_or([place, 0], |f| [0, f.repeat as u64]);
        self.call("repeat", kind, ring, number, &fields, |v| probe::repeat(kind, &lent, v));
        let fields = marks(ring, place, key.filter(|_| done.is_some()));
        self.call("mark", kind, ring, number, &fields, |v| probe::mark(kind, &lent, v));
        self.unchanged("alone", kind, ring, &lent, ring);
    }

    /// The repeat alone, of a ring that is taken.
    pub fn repeat(&mut self, kind: u8, ring: &[u8], repeat: usize) {
        let lent = self.lend(ring);
        self.call("repeat", kind, ring, 0, &[0, repeat as u64], |v| probe::repeat(kind, &lent, v));
        self.unchanged("repeat", kind, ring, &lent, ring);
    }

    /// The key with two rooms of the sizes given.
    pub fn rooms(&mut self, kind: u8, ring: &[u8], first: usize, second: usize, key: Option<&Key>) {
        let lent = self.lend(ring);
        let short = first < ring.len() || rules::stranded(kind) && second < ring.len();
        let verdict = judge(kind, ring, short);
        let (number, place) = numbers(verdict);
        let done = verdict.ok().map(|()| key.expect("the key of a ring that is taken"));
        let (own, other) = done.map_or((&[][..], &[][..]), Key::readings);
        let (mut a, mut b) = (self.bytes(first), self.bytes(second));
        let fields = marks(ring, place, done);
        self.call("write_key", kind, ring, number, &fields, |v| probe::write_key(kind, &lent, &mut a, &mut b, v));
        self.unchanged("write_key, first room", kind, ring, &a, own);
        self.unchanged("write_key, second room", kind, ring, &b, other);
        let (mut a, mut b) = (self.bytes(first), self.bytes(second));
        let fields = done.map_or([0, 0], |k| [k.strand as u64, ring.len() as u64]);
        self.call("key", kind, ring, number, &fields, |v| probe::key(kind, &lent, &mut a, &mut b, v));
        self.unchanged("key, first room", kind, ring, &a, own);
        self.unchanged("key, second room", kind, ring, &b, other);
        self.unchanged("rooms", kind, ring, &lent, ring);
        self.key_part(kind, ring, first, second, done);
    }

    /// The key's letters in one room of the size given.
    pub fn write_letters(&mut self, kind: u8, ring: &[u8], size: usize, key: Option<&Key>) {
        let lent = self.lend(ring);
        let verdict = judge(kind, ring, size < ring.len());
        let (number, place) = numbers(verdict);
        let done = verdict.ok().map(|()| key.expect("the key of a ring that is taken"));
        let mut room = self.bytes(size);
        let fields = marks(ring, place, done);
        self.call("write_letters", kind, ring, number, &fields, |v| probe::write_letters(kind, &lent, &mut room, v));
        self.unchanged("write_letters, its room", kind, ring, &room, done.map_or(&[], |k| &k.letters));
        self.unchanged("write_letters", kind, ring, &lent, ring);
    }

    /// A refused answer has its number and its place, and 0 else.
    pub fn refusal(&mut self, number: u8, place: usize) {
        let fields = [place as u64, 0, 0, 0];
        let name = format_args!("refusal, number {number}, place {place}");
        self.call(name, 0, b"", number, &fields, |v| probe::refusal(number, place, v));
    }

    /// How many strands a kind has: those that a ring of it is read on, none where every ring is refused with 6.
    pub fn strands_of(&mut self, kind: u8) {
        let want = match judge(kind, b"A", false) {
            Ok(()) => 1 + keys::key(kind, b"A").other.is_some() as u8,
            Err(_) => 0,
        };
        self.calls += 1;
        let got = probe::strands_of(kind);
        if got != want {
            differ("strands_of", kind, b"", format!("{got}, not {want}"));
        }
    }

    /// Two rings compared: the first is judged in full before the second.
    pub fn compare(&mut self, kind: u8, first: &[u8], second: &[u8]) {
        let fields = match (judge(kind, first, false), judge(kind, second, false)) {
            (Err(r), _) => (r.number, [r.place as u64, 1, 0]),
            (_, Err(r)) => (r.number, [r.place as u64, 2, 0]),
            _ => (0, [0, 0, keys::same(kind, first, second) as u64]),
        };
        let (a, b) = (self.lend(first), self.lend(second));
        self.call("compare", kind, &[first, b"|", second].concat(), fields.0, &fields.1, |v| probe::compare(kind, &a, &b, v));
        self.unchanged("compare", kind, first, &a, first);
        self.unchanged("compare", kind, second, &b, second);
    }
}

pub(crate) fn numbers(verdict: Result<(), Refusal>) -> (u8, u64) {
    match verdict {
        Ok(()) => (0, 0),
        Err(r) => (r.number, r.place as u64),
    }
}

/// The fields of the key's marks; a refused call has the place alone.
pub(crate) fn marks(ring: &[u8], place: u64, key: Option<&Key>) -> [u64; 4] {
    key.map_or([place, 0, 0, 0], |k| [0, ring.len() as u64, k.start as u64, k.strand as u64])
}
