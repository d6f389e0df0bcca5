//! The letters of base rings as sets of bases: what a letter stands for, and which letter stands for the bases that face those.

// one bit for each base, so that the four bits read backward exchange A with T and C with G
const A: u8 = 1;
const C: u8 = 2;
const G: u8 = 4;
const T: u8 = 8;
const ANY: u8 = A | C | G | T;

/// The bases that a letter stands for; none for a byte that is no letter.
pub const fn bases(byte: u8) -> u8 {
    match byte {
        b'A' => A,
        b'C' => C,
        b'G' => G,
        b'T' => T,
        b'R' => A | G,
        b'Y' => C | T,
        b'S' => C | G,
        b'W' => A | T,
        b'K' => G | T,
        b'M' => A | C,
        b'B' => ANY - A,
        b'D' => ANY - C,
        b'H' => ANY - G,
        b'V' => ANY - T,
        b'N' => ANY,
        _ => 0,
    }
}

/// The bases that face those of a set: A and T, C and G.
const fn faced(bases: u8) -> u8 {
    bases.reverse_bits() >> 4
}

/// The letter that stands for the bases that face those of a letter; a byte that is no letter itself.
const fn letter_facing(byte: u8) -> u8 {
    let wanted = faced(bases(byte));
    if wanted == 0 {
        return byte;
    }
    let mut letter = 0;
    while bases(letter) != wanted {
        letter += 1;
    }
    letter
}

/// What faces each byte, found once.
static FACING: [u8; 256] = {
    let mut facing = [0; 256];
    let mut byte = 0;
    while byte < 256 {
        facing[byte] = letter_facing(byte as u8);
        byte += 1;
    }
    facing
};

/// The letter that faces a letter; a byte that is no letter faces itself.
pub fn facing(byte: u8) -> u8 {
    FACING[byte as usize]
}

/// The letters that stand for a base and for another one besides.
pub fn uncertain(base: u8) -> Vec<u8> {
    (0..=255).filter(|&letter| letter != base && bases(letter) & bases(base) != 0).collect()
}
