//! The calls on sheets and books beside the second program.
use crate::comparison::{marks, numbers, Comparison};
use crate::keys::Key;
use crate::probe;
use crate::rules::{judge, refusal};
use crate::sheets;

impl Comparison {
    /// A sheet written to a room of the size given.
    pub fn sheet_write(&mut self, kind: u8, ring: &[u8], size: usize, key: Option<&Key>) {
        let lent = self.lend(ring);
        let verdict = judge(kind, ring, size < ring.len() + 8);
        let (number, place) = numbers(verdict);
        let done = verdict.ok().map(|()| key.expect("the key of a ring that is taken"));
        let mut room = self.bytes(size);
        let fields = marks(ring, place, done);
        self.call("sheet_write", kind, ring, number, &fields, |v| probe::sheet_write(kind, &lent, &mut room, v));
        self.unchanged("sheet_write", kind, ring, &room, &done.map_or(vec![], |k| sheets::bytes(kind, k)));
        self.unchanged("sheet_write", kind, ring, &lent, ring);
    }

    /// The bytes read as a sheet, its letters, and its original in rooms of the sizes given.
    pub fn sheet_read(&mut self, bytes: &[u8], sizes: &[usize]) {
        let lent = self.lend(bytes);
        let sheet = sheets::read(bytes);
        let (number, place) = numbers(sheet.as_ref().map(|_| ()).map_err(|r| *r));
        let fields = match &sheet {
            Ok(s) => [0, s.letters.len() as u64, s.start as u64, s.strand as u64, s.kind as u64, s.before as u64],
            Err(_) => [place, 0, 0, 0, 0, 0],
        };
        self.call("sheet_read", 0, bytes, number, &fields, |v| probe::sheet_read(&lent, v));
        let fields = sheet.as_ref().map_or([0, 0], |s| [s.before as u64, s.letters.len() as u64]);
        self.call("sheet_letters", 0, bytes, number, &fields, |v| probe::sheet_letters(&lent, v));
        self.letters_part(bytes, sheet.as_ref().ok());
        for &size in sizes {
            let mut room = self.bytes(size);
            let made = match &sheet {
                Ok(s) if size < s.letters.len() => Err(refusal(4)),
                Ok(s) => Ok(&s.deposit[..]),
                Err(r) => Err(*r),
            };
            let (number, place) = numbers(made.as_ref().map(|_| ()).map_err(|r| *r));
            self.call("sheet_original", 0, bytes, number, &[place], |v| probe::sheet_original(&lent, &mut room, v));
            self.unchanged("sheet_original", 0, bytes, &room, made.unwrap_or_default());
        }
        self.unchanged("sheet_read", 0, bytes, &lent, bytes);
    }

    /// A book walked.
    pub fn sheet_walk(&mut self, book: &[u8]) {
        let lent = self.lend(book);
        let walked = sheets::walk(book);
        let (number, place) = numbers(walked.map(|_| ()));
        let fields = [place, walked.unwrap_or(0) as u64];
        self.call("sheet_walk", 0, book, number, &fields, |v| probe::sheet_walk(&lent, v));
        self.unchanged("sheet_walk", 0, book, &lent, book);
    }
}
