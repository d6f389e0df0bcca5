//! The FASTA reader beside the second program: a record in rooms of many sizes, its header, and the text that remains.
use crate::comparison::Comparison;
use crate::fasta::{Record, Span, NONE};
use crate::lent::Lent;
use crate::part_comparison::elsewhere;
use crate::probe::{self, Part};
use crate::rules::{judge, BASES};

/// What the call answers with a room of `size` bytes: the number, its fields, and what the room then begins with.
pub fn answer(record: Option<&Record>, size: usize) -> (u8, [u64; 6], &[u8]) {
    let Some(Record { header, letters, rest }) = record else {
        return (8, [0; 6], &[]);
    };
    let ([h, i], [r, s]) = (fields(header), fields(rest));
    match judge(BASES, letters, size < letters.len()) {
        Ok(()) => (0, [0, letters.len() as u64, h, i, r, s], letters),
        Err(refused) => (refused.number, [refused.place as u64, 0, 0, 0, r, s], &[]),
    }
}

pub fn fields(part: &Span) -> [u64; 2] {
    [part.offset as u64, part.size as u64]
}

/// What the calls that read no letters answer: a record has both parts even where it is refused.
fn parts(record: Option<&Record>) -> (u8, Span, Span) {
    record.map_or((8, NONE, NONE), |r| (0, r.header, r.rest))
}

/// Bytes round a text that would end a line, begin a header or be a letter, if a call looked at them.
const AROUND: [u8; 6] = *b"\n>\r A\x00";

/// A call that hands back a part: its name, the part that is wanted, the part as told, and the part itself.
type PartCall = (&'static str, Span, fn(&[u8], &mut Lent<u64>) -> u8, fn(&[u8], &mut Lent<Part>));

impl Comparison {
    /// The first record of a text in rooms of the sizes given, its header, and what remains; `record` is none where 8 is given.
    pub fn fasta(&mut self, text: &[u8], record: Option<&Record>, sizes: &[usize]) {
        let lent = self.lend_amid(text, &AROUND);
        for &size in sizes {
            self.fasta_record(&lent, record, size, None);
        }
        self.fasta_parts(&lent, record, None);
        self.unchanged("fasta", 1, text, &lent, text);
    }

    /// The same with one room and so many values.
    pub fn fasta_values(&mut self, text: &[u8], record: Option<&Record>, size: usize, values: usize) {
        let lent = self.lend_amid(text, &AROUND);
        self.fasta_record(&lent, record, size, Some(values));
        self.fasta_parts(&lent, record, Some(values));
        self.unchanged("fasta", 1, text, &lent, text);
    }

    fn fasta_record(&mut self, lent: &Lent<u8>, record: Option<&Record>, size: usize, values: Option<usize>) {
        let (number, fields, written) = answer(record, size);
        let (text, mut room) = (lent.entries(), self.bytes(size));
        let values = values.unwrap_or(self.values(fields.len()));
        let name = format_args!("fasta, room of {size}, {values} values");
        self.told(name, 1, text, values, (number, &fields), |v| probe::fasta(text, &mut room, v));
        self.unchanged(name, 1, text, &room, written);
    }

    fn fasta_parts(&mut self, lent: &Lent<u8>, record: Option<&Record>, values: Option<usize>) {
        let (number, header, rest) = parts(record);
        self.fasta_find(lent, number, &header, &rest, values);
        let header: PartCall = ("header", header, probe::fasta_header, probe::fasta_header_part);
        let rest: PartCall = ("rest", rest, probe::fasta_rest, probe::fasta_rest_part);
        for (which, span, call, hand) in [header, rest] {
            let (text, values) = (lent.entries(), values.unwrap_or(self.values(2)));
            let name = format_args!("fasta_{which}, {values} values");
            self.told(name, 1, text, values, (number, &fields(&span)), |v| call(text, v));
            let mut part = elsewhere();
            self.calls += 1;
            hand(text, &mut part);
            let want = Part { at: lent.front().wrapping_add(span.offset), size: span.size };
            self.unchanged(format_args!("fasta_{which}, its part"), 1, text, &part, &[want]);
        }
    }

    fn fasta_find(&mut self, lent: &Lent<u8>, number: u8, header: &Span, rest: &Span, values: Option<usize>) {
        let ([h, i], [r, s]) = (fields(header), fields(rest));
        let (text, values) = (lent.entries(), values.unwrap_or(self.values(5)));
        let name = format_args!("fasta_find, {values} values");
        self.told(name, 1, text, values, (number, &[0, h, i, r, s]), |v| probe::fasta_find(text, v));
    }
}
