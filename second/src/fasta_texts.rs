//! FASTA texts to compare on.
use crate::cases::Numbers;

/// A text and a room's size, and what is answered, worked out by hand: the number and the place, the header and what remains
/// (offset and length; 0 and 0 where 8 is given), and the letters written.
pub type Known = (&'static [u8], usize, u8, usize, [u64; 2], [u64; 2], &'static [u8]);

pub const KNOWN: [Known; 31] = [
    (b">one\nACGT\n", 4, 0, 0, [1, 3], [10, 0], b"ACGT"),
    (b">one\nACGT", 9, 0, 0, [1, 3], [9, 0], b"ACGT"),
    (b">one\r\nac g\tt\r\n>two\r\nT", 4, 0, 0, [1, 3], [14, 7], b"ACGT"),
    (b">one\nAC\n\n \t\r\nGT\n", 4, 0, 0, [1, 3], [16, 0], b"ACGT"),
    (b">one\n AC\n \nG T \n\n>", 4, 0, 0, [1, 3], [17, 1], b"ACGT"),
    (b"\n\t \r\n>one\nA", 1, 0, 0, [6, 3], [11, 0], b"A"),
    (b"\r\n\r\n>one\nA", 1, 0, 0, [5, 3], [10, 0], b"A"),
    (b"> one two \t\nA", 1, 0, 0, [1, 10], [13, 0], b"A"),
    (b">>one>\nA", 1, 0, 0, [1, 5], [8, 0], b"A"),
    (b">\nA", 1, 0, 0, [1, 0], [3, 0], b"A"),
    (b">\r\nA", 1, 0, 0, [1, 0], [4, 0], b"A"),
    (b">\r\r\nA", 1, 0, 0, [1, 1], [5, 0], b"A"),
    (b">\rone\nA", 1, 0, 0, [1, 4], [7, 0], b"A"),
    (b">", 0, 1, 0, [1, 0], [1, 0], b""),
    (b">one\r", 0, 1, 0, [1, 4], [5, 0], b""),
    (b">one\n \t\n\r\n>two\nA", 5, 1, 0, [1, 3], [10, 6], b""),
    (b">one\n>two\nN", 0, 1, 0, [1, 3], [5, 6], b""),
    (b">one\nACN\n>two\n", 3, 3, 2, [1, 3], [9, 5], b""),
    (b">one\n a\tC\nnG\n", 0, 3, 2, [1, 3], [13, 0], b""),
    (b">one\nA>C\n", 2, 3, 1, [1, 3], [9, 0], b""),
    (b">one\n >C\n>", 9, 3, 0, [1, 3], [9, 1], b""),
    (b">one\nA\rC", 9, 3, 1, [1, 3], [8, 0], b""),
    (b">one\nA\r", 9, 3, 1, [1, 3], [7, 0], b""),
    (b">one\nA\r\r\n>two", 9, 3, 1, [1, 3], [9, 4], b""),
    (b">one\nACG\n>", 2, 4, 0, [1, 3], [9, 1], b""),
    (b"", 3, 8, 0, [0, 0], [0, 0], b""),
    (b"\n \t\r\n", 3, 8, 0, [0, 0], [0, 0], b""),
    (b"ACGT", 4, 8, 0, [0, 0], [0, 0], b""),
    (b"N\n>one\nA", 1, 8, 0, [0, 0], [0, 0], b""),
    (b" >one\nA", 1, 8, 0, [0, 0], [0, 0], b""),
    (b"\r>one\nA", 1, 8, 0, [0, 0], [0, 0], b""),
];

/// A record as a program writes it: the header line and lines of so many letters, all with one line end.
pub fn written(header: &str, letters: &[u8], columns: usize, end: &str) -> Vec<u8> {
    let mut text = format!(">{header}{end}").into_bytes();
    for line in letters.chunks(columns) {
        text.extend(line);
        text.extend(end.as_bytes());
    }
    text
}

/// A small file of three records, one of them with an empty line, one with blanks and small letters.
pub fn small(end: &str) -> Vec<u8> {
    [">a 1", "ACG", "T", "", ">b", " gat\tta", "Ca ", ">", "TTGA", ""].join(end).into_bytes()
}

/// Four plasmids, each in lines of 100 letters: those of the vector collection of GENtle 1.9.
const PLASMIDS: [(&str, &str); 4] = [
    ("pUC19", include_str!("../plasmids/pUC19.txt")),
    ("pBR322", include_str!("../plasmids/pBR322.txt")),
    ("pACYC184", include_str!("../plasmids/pACYC184.txt")),
    ("pET-28a(+)", include_str!("../plasmids/pET-28a.txt")),
];

/// Their names and their letters.
pub fn plasmids() -> [(&'static str, Vec<u8>); 4] {
    PLASMIDS.map(|(name, lines)| (name, lines.lines().collect::<String>().into_bytes()))
}

/// A ring as three programs write it: lines of 70 with LF, lines of 60 with CR LF, one line of small letters.
pub fn as_three_write(name: &str, ring: &[u8]) -> [Vec<u8>; 3] {
    let n = ring.len();
    [
        written(name, ring, 70, "\n"),
        written(&format!("{name} {n} bp, circular"), ring, 60, "\r\n"),
        written(&format!("{}|synthetic construct", name.to_lowercase()), &ring.to_ascii_lowercase(), n, "\n"),
    ]
}

/// Lines of every sort, with both line ends, and the last one perhaps cut.
pub fn lines(numbers: &mut Numbers) -> Vec<u8> {
    let any: Vec<u8> = (0..=255).collect();
    let mut text = Vec::new();
    for _ in 0..numbers.below(12) {
        let size = numbers.below(10);
        let line = match numbers.below(10) {
            0..3 => [&b">"[..], &numbers.word(b"one2 >\t\r", size)].concat(),
            3..8 => numbers.word(b"ACGTacgt \t", size),
            8 => numbers.word(b" \t", size),
            _ => numbers.word(&any, size),
        };
        text.extend(line);
        text.extend([&b"\n"[..], b"\n", b"\r\n", b"\r\n", b"\r\r\n"][numbers.below(5)]);
    }
    let cut = numbers.below(3).min(text.len());
    text.truncate(text.len() - cut);
    text
}

/// A text with so many bytes changed, put in or dropped.
pub fn damaged(numbers: &mut Numbers, text: &[u8], times: usize) -> Vec<u8> {
    let mut text = text.to_vec();
    for _ in 0..times {
        let at = numbers.below(text.len());
        let byte = numbers.word(b">\n\r \tacgtACGTN*;1\x00\x80\xff", 1)[0];
        match numbers.below(3) {
            0 => text[at] = byte,
            1 => text.insert(at, byte),
            _ => drop(text.remove(at)),
        }
    }
    text
}
