//! Every byte as a letter, and every byte as a kind.
use crate::cases::Numbers;
use crate::comparison::Comparison;
use crate::deposit_cases::every_mark;
use crate::ring_cases::{refusal, ring};
use crate::sheet_cases::as_sheet;
use crate::{codes, rules};

/// The letters that face each other, in pairs.
const PAIRS: [[u8; 2]; 6] = [*b"AT", *b"CG", *b"RY", *b"KM", *b"BV", *b"DH"];

/// The letters that face themselves.
const ALONE: [u8; 3] = *b"SWN";

/// The second program's sets of bases give the letters of kind 2 and those that face them.
pub fn faces_agree() {
    for byte in 0..=255 {
        let listed = PAIRS.iter().find(|pair| pair.contains(&byte));
        let facing = listed.map_or(byte, |&[a, b]| if byte == a { b } else { a });
        assert_eq!(codes::facing(byte), facing, "what faces {byte}");
        assert_eq!(codes::facing(facing), byte, "what faces the letter that faces {byte}");
        let letter = listed.is_some() || ALONE.contains(&byte);
        assert_eq!(codes::bases(byte) != 0, letter, "whether {byte} stands for bases");
        assert_eq!(rules::judge(rules::UNCERTAIN, &[byte], false).is_ok(), letter, "whether {byte} is a letter");
    }
}

/// Each byte at each place of short rings, as each kind and as one that is none: every call, and the letters as a key's and as a
/// sheet's.
pub fn every_letter(c: &mut Comparison, numbers: &mut Numbers) {
    let rings: [&[u8]; 2] = [b"GAT", b"GAN"];
    for kind in rules::kinds().chain([3]) {
        for (whole, at) in rings.into_iter().flat_map(|whole| (0..whole.len()).map(move |at| (whole, at))) {
            for byte in 0..=255 {
                let mut changed = whole.to_vec();
                changed[at] = byte;
                ring(c, kind, &changed, numbers);
                every_mark(c, kind, &changed);
                as_sheet(c, kind, &changed);
                for other in rings {
                    c.compare(kind, &changed, other);
                    c.compare(kind, other, &changed);
                }
            }
        }
    }
}

/// Each byte as the kind of rings and of sheets.
pub fn every_kind(c: &mut Comparison) {
    let rings: [&[u8]; 6] = [b"", b"A", b"GAT", b"AAN", b"gat", b"\x00\xff"];
    for kind in 0..=255 {
        c.strands_of(kind);
        for ring in rings {
            refusal(c, kind, ring);
            every_mark(c, kind, ring);
            as_sheet(c, kind, ring);
            for other in rings {
                c.compare(kind, ring, other);
            }
        }
    }
}
