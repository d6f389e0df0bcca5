//! All that the calls say of one ring, computed once: by the definitions for short rings, by the methods of `long` else; the repeat by
//! its definition for all.
use crate::{duels, long, words};

#[derive(Clone, Debug, PartialEq, Eq)]
pub struct Facts {
    pub start: usize,
    pub factors: Vec<usize>,
    pub suffixes: Vec<usize>,
    pub starts: Vec<usize>,
    pub duel_start: usize,
    pub pairs: usize,
    pub repeat: usize,
}

/// Up to this length the definitions are read literally.
pub const SHORT: usize = 24;

pub fn of(ring: &[u8]) -> Facts {
    if ring.len() <= SHORT {
        by_definition(ring)
    } else {
        by_other_methods(ring)
    }
}

pub fn by_definition(ring: &[u8]) -> Facts {
    let n = ring.len();
    let (duel_start, pairs) = duels::duel(ring);
    Facts {
        start: words::start(ring),
        factors: words::factors(ring),
        suffixes: (1..=n).map(|size| words::least_suffix(&ring[..size])).collect(),
        starts: (1..=n).map(|size| words::start(&ring[..size])).collect(),
        duel_start,
        pairs,
        repeat: words::repeat(ring),
    }
}

pub fn by_other_methods(ring: &[u8]) -> Facts {
    let (duel_start, pairs) = duels::duel(ring);
    Facts {
        start: long::start(ring),
        factors: long::factors(ring),
        suffixes: long::suffixes(ring),
        starts: long::starts(ring),
        duel_start,
        pairs,
        repeat: words::repeat(ring),
    }
}
