//! The proved library through its C functions: a slice is a pointer and then a length.
use crate::keys::Marks;
use crate::lent::Lent;

mod c {
    extern "C" {
        pub fn probe_check(kind: u8, ring: *const u8, n: usize, values: *mut u64, v: usize) -> u8;
        pub fn probe_factors(kind: u8, ring: *const u8, n: usize, table: *mut u16, t: usize, values: *mut u64, v: usize) -> u8;
        pub fn probe_suffixes(kind: u8, ring: *const u8, n: usize, table: *mut u16, t: usize, values: *mut u64, v: usize) -> u8;
        pub fn probe_starts(kind: u8, ring: *const u8, n: usize, table: *mut u16, t: usize, values: *mut u64, v: usize) -> u8;
        pub fn probe_duel(kind: u8, ring: *const u8, n: usize, values: *mut u64, v: usize) -> u8;
        pub fn probe_repeat(kind: u8, ring: *const u8, n: usize, values: *mut u64, v: usize) -> u8;
        pub fn probe_mark(kind: u8, ring: *const u8, n: usize, values: *mut u64, v: usize) -> u8;
        pub fn probe_refusal(number: u8, place: usize, values: *mut u64, v: usize) -> u8;
        pub fn probe_write_letters(
            kind: u8,
            ring: *const u8,
            n: usize,
            room: *mut u8,
            r: usize,
            values: *mut u64,
            v: usize,
        ) -> u8;
        pub fn probe_write_key(
            kind: u8,
            ring: *const u8,
            n: usize,
            first: *mut u8,
            f: usize,
            second: *mut u8,
            s: usize,
            values: *mut u64,
            v: usize,
        ) -> u8;
        pub fn probe_key(
            kind: u8,
            ring: *const u8,
            n: usize,
            first: *mut u8,
            f: usize,
            second: *mut u8,
            s: usize,
            values: *mut u64,
            v: usize,
        ) -> u8;
        pub fn probe_strands_of(kind: u8) -> u8;
        pub fn probe_check_key(
            kind: u8,
            start: usize,
            strand: u8,
            letters: *const u8,
            n: usize,
            values: *mut u64,
            v: usize,
        ) -> u8;
        pub fn probe_write_deposit(
            kind: u8,
            start: usize,
            strand: u8,
            letters: *const u8,
            n: usize,
            room: *mut u8,
            r: usize,
            values: *mut u64,
            v: usize,
        ) -> u8;
        pub fn probe_compare(kind: u8, first: *const u8, f: usize, second: *const u8, s: usize, values: *mut u64, v: usize)
            -> u8;
        pub fn probe_sheet_write(kind: u8, ring: *const u8, n: usize, room: *mut u8, r: usize, values: *mut u64, v: usize) -> u8;
        pub fn probe_sheet_read(bytes: *const u8, n: usize, values: *mut u64, v: usize) -> u8;
        pub fn probe_sheet_letters(bytes: *const u8, n: usize, values: *mut u64, v: usize) -> u8;
        pub fn probe_sheet_original(bytes: *const u8, n: usize, room: *mut u8, r: usize, values: *mut u64, v: usize) -> u8;
        pub fn probe_sheet_walk(book: *const u8, n: usize, values: *mut u64, v: usize) -> u8;
        pub fn probe_report(input: *const u8, n: usize, room: *mut u8, r: usize, values: *mut u64, v: usize) -> u8;
        pub fn probe_fasta(text: *const u8, n: usize, room: *mut u8, r: usize, values: *mut u64, v: usize) -> u8;
        pub fn probe_fasta_find(text: *const u8, n: usize, values: *mut u64, v: usize) -> u8;
        pub fn probe_fasta_header(text: *const u8, n: usize, values: *mut u64, v: usize) -> u8;
        pub fn probe_fasta_rest(text: *const u8, n: usize, values: *mut u64, v: usize) -> u8;
        pub fn probe_key_part(
            kind: u8,
            ring: *const u8,
            n: usize,
            first: *mut u8,
            f: usize,
            second: *mut u8,
            s: usize,
            part: *mut super::Part,
        );
        pub fn probe_sheet_letters_part(bytes: *const u8, n: usize, part: *mut super::Part);
        pub fn probe_fasta_header_part(text: *const u8, n: usize, part: *mut super::Part);
        pub fn probe_fasta_rest_part(text: *const u8, n: usize, part: *mut super::Part);
    }
}

/// A part of lent bytes, as a call hands it back: where it begins, and its length.
#[repr(C)]
#[derive(Clone, Copy, Debug, PartialEq, Eq)]
pub struct Part {
    pub at: *const u8,
    pub size: usize,
}

type Bytes = Lent<u8>;
type Table = Lent<u16>;
type Values = Lent<u64>;

// Each slice is a live vector's part of the length given with it, and no two lent for writing overlap. A part lent for
// writing is one entry long and holds a slice already.

pub fn check(kind: u8, ring: &Bytes, values: &mut Values) -> u8 {
    unsafe { c::probe_check(kind, ring.front(), ring.size(), values.front_mut(), values.size()) }
}

pub fn factors(kind: u8, ring: &Bytes, table: &mut Table, values: &mut Values) -> u8 {
    let (t, v) = (table.size(), values.size());
    unsafe { c::probe_factors(kind, ring.front(), ring.size(), table.front_mut(), t, values.front_mut(), v) }
}

pub fn suffixes(kind: u8, ring: &Bytes, table: &mut Table, values: &mut Values) -> u8 {
    let (t, v) = (table.size(), values.size());
    unsafe { c::probe_suffixes(kind, ring.front(), ring.size(), table.front_mut(), t, values.front_mut(), v) }
}

pub fn starts(kind: u8, ring: &Bytes, table: &mut Table, values: &mut Values) -> u8 {
    let (t, v) = (table.size(), values.size());
    unsafe { c::probe_starts(kind, ring.front(), ring.size(), table.front_mut(), t, values.front_mut(), v) }
}

pub fn duel(kind: u8, ring: &Bytes, values: &mut Values) -> u8 {
    unsafe { c::probe_duel(kind, ring.front(), ring.size(), values.front_mut(), values.size()) }
}

pub fn repeat(kind: u8, ring: &Bytes, values: &mut Values) -> u8 {
    unsafe { c::probe_repeat(kind, ring.front(), ring.size(), values.front_mut(), values.size()) }
}

pub fn mark(kind: u8, ring: &Bytes, values: &mut Values) -> u8 {
    unsafe { c::probe_mark(kind, ring.front(), ring.size(), values.front_mut(), values.size()) }
}

pub fn refusal(number: u8, place: usize, values: &mut Values) -> u8 {
    unsafe { c::probe_refusal(number, place, values.front_mut(), values.size()) }
}

pub fn write_letters(kind: u8, ring: &Bytes, room: &mut Bytes, values: &mut Values) -> u8 {
    let (n, r, v) = (ring.size(), room.size(), values.size());
    unsafe { c::probe_write_letters(kind, ring.front(), n, room.front_mut(), r, values.front_mut(), v) }
}

pub fn write_key(kind: u8, ring: &Bytes, first: &mut Bytes, second: &mut Bytes, values: &mut Values) -> u8 {
    let (n, f, s, v) = (ring.size(), first.size(), second.size(), values.size());
    let (first, second, values) = (first.front_mut(), second.front_mut(), values.front_mut());
    unsafe { c::probe_write_key(kind, ring.front(), n, first, f, second, s, values, v) }
}

pub fn key(kind: u8, ring: &Bytes, first: &mut Bytes, second: &mut Bytes, values: &mut Values) -> u8 {
    let (n, f, s, v) = (ring.size(), first.size(), second.size(), values.size());
    let (first, second, values) = (first.front_mut(), second.front_mut(), values.front_mut());
    unsafe { c::probe_key(kind, ring.front(), n, first, f, second, s, values, v) }
}

pub fn strands_of(kind: u8) -> u8 {
    unsafe { c::probe_strands_of(kind) }
}

pub fn check_key(marks: Marks, letters: &Bytes, values: &mut Values) -> u8 {
    let Marks { kind, start, strand } = marks;
    let (n, v) = (letters.size(), values.size());
    unsafe { c::probe_check_key(kind, start, strand, letters.front(), n, values.front_mut(), v) }
}

pub fn write_deposit(marks: Marks, letters: &Bytes, room: &mut Bytes, values: &mut Values) -> u8 {
    let Marks { kind, start, strand } = marks;
    let (n, r, v) = (letters.size(), room.size(), values.size());
    unsafe { c::probe_write_deposit(kind, start, strand, letters.front(), n, room.front_mut(), r, values.front_mut(), v) }
}

pub fn compare(kind: u8, first: &Bytes, second: &Bytes, values: &mut Values) -> u8 {
    let (f, s, v) = (first.size(), second.size(), values.size());
    unsafe { c::probe_compare(kind, first.front(), f, second.front(), s, values.front_mut(), v) }
}

pub fn sheet_write(kind: u8, ring: &Bytes, room: &mut Bytes, values: &mut Values) -> u8 {
    let (n, r, v) = (ring.size(), room.size(), values.size());
    unsafe { c::probe_sheet_write(kind, ring.front(), n, room.front_mut(), r, values.front_mut(), v) }
}

pub fn sheet_read(bytes: &Bytes, values: &mut Values) -> u8 {
    unsafe { c::probe_sheet_read(bytes.front(), bytes.size(), values.front_mut(), values.size()) }
}

pub fn sheet_letters(bytes: &Bytes, values: &mut Values) -> u8 {
    unsafe { c::probe_sheet_letters(bytes.front(), bytes.size(), values.front_mut(), values.size()) }
}

pub fn sheet_original(bytes: &Bytes, room: &mut Bytes, values: &mut Values) -> u8 {
    let (n, r, v) = (bytes.size(), room.size(), values.size());
    unsafe { c::probe_sheet_original(bytes.front(), n, room.front_mut(), r, values.front_mut(), v) }
}

pub fn sheet_walk(book: &Bytes, values: &mut Values) -> u8 {
    unsafe { c::probe_sheet_walk(book.front(), book.size(), values.front_mut(), values.size()) }
}

pub fn report(input: &Bytes, room: &mut Bytes, values: &mut Values) -> u8 {
    let (n, r, v) = (input.size(), room.size(), values.size());
    unsafe { c::probe_report(input.front(), n, room.front_mut(), r, values.front_mut(), v) }
}

// The text of a record is a slice alone: the record behind it is read in what remains of the same text.

pub fn fasta(text: &[u8], room: &mut Bytes, values: &mut Values) -> u8 {
    let (r, v) = (room.size(), values.size());
    unsafe { c::probe_fasta(text.as_ptr(), text.len(), room.front_mut(), r, values.front_mut(), v) }
}

pub fn fasta_find(text: &[u8], values: &mut Values) -> u8 {
    unsafe { c::probe_fasta_find(text.as_ptr(), text.len(), values.front_mut(), values.size()) }
}

pub fn fasta_header(text: &[u8], values: &mut Values) -> u8 {
    unsafe { c::probe_fasta_header(text.as_ptr(), text.len(), values.front_mut(), values.size()) }
}

pub fn fasta_rest(text: &[u8], values: &mut Values) -> u8 {
    unsafe { c::probe_fasta_rest(text.as_ptr(), text.len(), values.front_mut(), values.size()) }
}

pub fn key_part(kind: u8, ring: &Bytes, first: &mut Bytes, second: &mut Bytes, part: &mut Lent<Part>) {
    let (n, f, s) = (ring.size(), first.size(), second.size());
    let (first, second, part) = (first.front_mut(), second.front_mut(), part.front_mut());
    unsafe { c::probe_key_part(kind, ring.front(), n, first, f, second, s, part) }
}

pub fn sheet_letters_part(bytes: &Bytes, part: &mut Lent<Part>) {
    unsafe { c::probe_sheet_letters_part(bytes.front(), bytes.size(), part.front_mut()) }
}

pub fn fasta_header_part(text: &[u8], part: &mut Lent<Part>) {
    unsafe { c::probe_fasta_header_part(text.as_ptr(), text.len(), part.front_mut()) }
}

pub fn fasta_rest_part(text: &[u8], part: &mut Lent<Part>) {
    unsafe { c::probe_fasta_rest_part(text.as_ptr(), text.len(), part.front_mut()) }
}
