//! The FASTA reader on texts of every sort.
use crate::cases::{self, Numbers};
use crate::comparison::Comparison;
use crate::fasta::{self, Record};
use crate::fasta_comparison::{answer, fields};
use crate::fasta_texts::{as_three_write, damaged, lines, plasmids, small, written, KNOWN};
use crate::plain_fasta;
use crate::rules::MOST;

/// Every text of 0 to `longest` bytes over the bytes that the rules tell apart, a small letter, a capital and a wrong one.
fn texts(longest: usize, mut each: impl FnMut(&[u8])) {
    each(b"");
    cases::every(b">\n\r \taCN", longest, each);
}

/// Rooms of no bytes, of one, and of about n.
fn rooms(n: usize) -> Vec<usize> {
    let mut sizes = vec![0, 1, n.saturating_sub(1), n, n + 1 + n % 3];
    sizes.sort_unstable();
    sizes.dedup();
    sizes
}

fn rooms_for(record: Option<&Record>) -> Vec<usize> {
    rooms(record.map_or(2, |r| r.letters.len()))
}

/// The first record of a text.
fn first(c: &mut Comparison, text: &[u8]) -> Option<Record> {
    let record = fasta::record(text);
    c.fasta(text, record.as_ref(), &rooms_for(record.as_ref()));
    record
}

/// All records of a text, each in what the one before leaves, which is shorter each time and begins with a mark or is empty.
fn walk(c: &mut Comparison, text: &[u8]) -> Vec<Record> {
    let (mut left, mut records) = (text, Vec::new());
    while let Some(record) = first(c, left) {
        c.fasta_values(left, Some(&record), record.letters.len(), 6);
        let rest = &left[record.rest.offset..];
        assert!(rest.len() == record.rest.size && rest.len() < left.len(), "what remains is shorter");
        assert!(rest.is_empty() || rest[0] == b'>', "what remains begins with a mark");
        records.push(record);
        left = rest;
    }
    let headers = text.split(|&byte| byte == b'\n').filter(|line| line.starts_with(b">")).count();
    assert!(records.is_empty() || records.len() == headers, "a record for each header line");
    records
}

/// The reader that the benchmark times answers as the second program's does.
pub fn plain_agrees(longest: usize) {
    texts(longest, |text| {
        let record = fasta::record(text);
        assert_eq!(plain_fasta::rest(text), record.as_ref().map_or(fasta::NONE, |r| r.rest), "{text:?}");
        for size in rooms_for(record.as_ref()) {
            let mut room = vec![b'-'; size];
            let plain = plain_fasta::record(text, &mut room);
            let ([h, i], [r, s]) = (fields(&plain.header), fields(&plain.rest));
            let (number, wanted, letters) = answer(record.as_ref(), size);
            assert_eq!((plain.number, [plain.place as u64, plain.n as u64, h, i, r, s]), (number, wanted), "{text:?}");
            assert!(room.starts_with(letters) && room[letters.len()..].iter().all(|&byte| byte == b'-'), "{text:?}");
        }
    });
}

/// Texts with answers known by hand, for the second program too, with every number of values to 8.
pub fn known(c: &mut Comparison) {
    for (text, size, number, place, header, rest, letters) in KNOWN {
        let record = fasta::record(text);
        let parts = record.as_ref().map_or([[0, 0], [0, 0]], |r| [fields(&r.header), fields(&r.rest)]);
        assert_eq!(parts, [header, rest], "{text:?}");
        let [h, i] = if number == 0 { header } else { [0, 0] };
        let fields = [place as u64, letters.len() as u64, h, i, rest[0], rest[1]];
        assert_eq!(answer(record.as_ref(), size), (number, fields, letters), "{text:?}");
        for values in 0..=8 {
            c.fasta_values(text, record.as_ref(), size, values);
        }
        walk(c, text);
    }
}

pub fn every_text(c: &mut Comparison) {
    texts(7, |text| drop(first(c, text)));
}

/// Every part of a small file, in both line ends.
pub fn every_cut(c: &mut Comparison) {
    for text in ["\n", "\r\n"].map(small) {
        assert_eq!(walk(c, &text).len(), 3);
        for from in 0..=text.len() {
            for to in from..=text.len() {
                walk(c, &text[from..to]);
            }
        }
    }
}

/// A small file with each byte changed to every value and dropped, and with every byte put in at each place.
pub fn every_change(c: &mut Comparison) {
    for text in ["\n", "\r\n"].map(small) {
        for at in 0..=text.len() {
            let (before, behind) = text.split_at(at);
            for byte in 0..=255 {
                walk(c, &[before, &[byte], behind].concat());
                if let [_, behind @ ..] = behind {
                    walk(c, &[before, &[byte], behind].concat());
                }
            }
            if let [_, behind @ ..] = behind {
                walk(c, &[before, behind].concat());
            }
        }
    }
}

pub fn random_texts(c: &mut Comparison, numbers: &mut Numbers) {
    for _ in 0..150_000 {
        let text = lines(numbers);
        walk(c, &text);
        let size = numbers.below(40);
        let bytes = numbers.word(b">>\n\n\n\r \tacgtACGTN\x00\xff", size);
        walk(c, &bytes);
        walk(c, &[b">", &bytes[..]].concat());
    }
}

/// Four plasmids as three programs write them, each alone and all in one file: every program's text has the same letters.
pub fn rings(c: &mut Comparison) {
    let rings = plasmids();
    let mut files = [vec![], vec![], vec![]];
    for (name, ring) in &rings {
        for (file, text) in files.iter_mut().zip(as_three_write(name, ring)) {
            let [record] = &walk(c, &text)[..] else { panic!("one record of {name}") };
            assert_eq!(record.letters, *ring, "{name}");
            assert_eq!(record.rest.size, 0, "{name}");
            file.extend(text);
        }
    }
    for file in files {
        let read: Vec<Vec<u8>> = walk(c, &file).into_iter().map(|record| record.letters).collect();
        assert_eq!(read, rings.each_ref().map(|(_, ring)| ring.clone()));
    }
}

/// Those files with a record behind, with a few bytes changed, put in or dropped, and cut.
pub fn damaged_rings(c: &mut Comparison, numbers: &mut Numbers) {
    for (name, ring) in &plasmids() {
        for text in as_three_write(name, ring) {
            let behind = written("behind", &ring[..100], 33, "\n");
            let file = [&text[..], &behind].concat();
            for times in 1..=60 {
                walk(c, &damaged(numbers, &file, 1 + times / 10));
            }
            // cut in the header line, about its end, and everywhere in the record behind
            for to in (0..60).chain(text.len() - 3..file.len()) {
                walk(c, &file[..to]);
            }
        }
    }
}

/// Records of about 256 and about 8,192 letters in lines of several lengths, with a record behind them; and with a wrong letter.
pub fn limits(c: &mut Comparison, numbers: &mut Numbers) {
    for n in [255, 256, 257, MOST - 1, MOST, MOST + 1, MOST + 2, 20_000, 70_000] {
        let letters = numbers.word(b"ACGTacgt", n);
        for (columns, end) in [(70, "\n"), (60, "\r\n"), (n, "\n"), (1, " \t\r\n")] {
            let text = [&written("long", &letters, columns, end)[..], b">next\nac"].concat();
            let [long, next] = &walk(c, &text)[..] else { panic!("two records") };
            assert_eq!((long.letters.len(), &next.letters[..]), (n, &b"AC"[..]));
        }
        for at in [0, 1, 69, 70, 71, 254, 255, 256, MOST - 2, MOST - 1, MOST, n - 1] {
            let mut wrong = letters.clone();
            wrong[at.min(n - 1)] = b"N*>\r\x00\x80"[numbers.below(6)];
            walk(c, &written("wrong", &wrong, 70, "\n"));
        }
    }
}

/// Headers, blanks, empty lines and records in great number, so that parts lie far behind the front.
pub fn far(c: &mut Comparison) {
    let of = |pieces: &[(&str, usize)]| pieces.iter().map(|(piece, times)| piece.repeat(*times)).collect::<String>();
    let texts = [
        of(&[(">", 1), ("x", 10_000), ("\nACGT\n>next\nA", 1)]),
        of(&[(">", 1), ("> \t\r", 17_500), ("\r\nACGT\r\n>next\nA", 1)]),
        of(&[(">one\nACGT\n>", 1), ("x", 70_000), ("\nACGT\n>next\nA", 1)]),
        of(&[("\n", 1000), (">one\nACGT\n>next\nA", 1)]),
        of(&[(" \t\r\n\n", 1000), (">one\nACGT\n>next\nA", 1)]),
        of(&[(" ", 70_000), ("\n>one\nACGT", 1)]),
        of(&[(" ", 70_000), (">one\nACGT", 1)]),
        of(&[(">one\nAC", 1), ("\t ", 35_000), ("GT\n>next\nA", 1)]),
        of(&[(">one\nAC", 1), ("\n \t\r\n", 1000), ("GT\n>next\nA", 1)]),
        of(&[(">one\n", 1), ("\r\n", 35_000)]),
        of(&[(">\n", 500)]),
        of(&[(">one\nA\n", 500)]),
        of(&[("\n", 70_000)]),
        of(&[("\r", 70_000)]),
        of(&[("\n", 1000), ("A\n>one\nACGT", 1)]),
        of(&[("A", 70_000), ("\n>one\nACGT", 1)]),
    ];
    for text in &texts {
        walk(c, text.as_bytes());
    }
}
