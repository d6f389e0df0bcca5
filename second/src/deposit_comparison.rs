//! Letters judged as a key, and the deposit that has it, beside the second program.
use crate::comparison::{numbers, Comparison};
use crate::keys::Marks;
use crate::probe;
use crate::rules::{judge, refusal, Refusal};

/// Letters judged as a key, 6, 1, 2, 3, 7 and then 4; `owner` is the ring that has it, if one has.
fn judged<'a>(marks: Marks, letters: &[u8], owner: Option<&'a [u8]>, short: bool) -> Result<&'a [u8], Refusal> {
    judge(marks.kind, letters, false)?;
    let ring = owner.ok_or(refusal(7))?;
    if short {
        return Err(refusal(4));
    }
    Ok(ring)
}

/// The number, and the marks that were judged; a refused call has the place alone.
fn answer(marks: Marks, verdict: Result<&[u8], Refusal>) -> (u8, [u64; 4]) {
    let (number, place) = numbers(verdict.map(|_| ()));
    (number, verdict.map_or([place, 0, 0, 0], |ring| [0, ring.len() as u64, marks.start as u64, marks.strand as u64]))
}

impl Comparison {
    /// Letters judged as a key; `owner` is the ring that has it with these marks, if one has.
    pub fn check_key(&mut self, marks: Marks, letters: &[u8], owner: Option<&[u8]>) {
        let lent = self.lend(letters);
        let (number, fields) = answer(marks, judged(marks, letters, owner, false));
        let name = format_args!("check_key, {marks:?}");
        self.call(name, marks.kind, letters, number, &fields, |v| probe::check_key(marks, &lent, v));
        self.unchanged(name, marks.kind, letters, &lent, letters);
    }

    /// The same with a room of the size given, which then holds the ring that has the key.
    pub fn write_deposit(&mut self, marks: Marks, letters: &[u8], size: usize, owner: Option<&[u8]>) {
        let lent = self.lend(letters);
        let mut room = self.bytes(size);
        let verdict = judged(marks, letters, owner, size < letters.len());
        let (number, fields) = answer(marks, verdict);
        let name = format_args!("write_deposit, {marks:?}, room of {size}");
        self.call(name, marks.kind, letters, number, &fields, |v| probe::write_deposit(marks, &lent, &mut room, v));
        self.unchanged(name, marks.kind, letters, &room, verdict.unwrap_or(&[]));
        self.unchanged(name, marks.kind, letters, &lent, letters);
    }
}
