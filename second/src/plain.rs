//! Plain Rust for the benchmark: the usual ways to do each job, with checked indexing unless the name says otherwise.
//! Nothing here is used by the comparison.
use crate::rules::IUPAC;

/// Whether every letter is a base.
pub fn judged(ring: &[u8]) -> bool {
    ring.iter().all(|letter| matches!(letter, b'A' | b'C' | b'G' | b'T'))
}

/// Which bytes are one of the fifteen letters.
static FIFTEEN: [bool; 256] = {
    let mut fifteen = [false; 256];
    let mut i = 0;
    while i < IUPAC.len() {
        fifteen[IUPAC[i] as usize] = true;
        i += 1;
    }
    fifteen
};

/// Whether every letter is one of the fifteen, by a table.
pub fn judged_uncertain(ring: &[u8]) -> bool {
    ring.iter().all(|&letter| FIFTEEN[letter as usize])
}

/// Whether the reading at `i` is below the one at `j`.
fn lower(ring: &[u8], i: usize, j: usize) -> bool {
    let n = ring.len();
    let at = |i: usize| ring[if i < n { i } else { i - n }];
    for k in 0..n {
        let (a, b) = (at(i + k), at(j + k));
        if a != b {
            return a < b;
        }
    }
    false
}

/// The factor table by Duval's scan, with the start among the heads of runs: the number of factors, and the start.
pub fn factors(ring: &[u8], table: &mut [u16]) -> (usize, usize) {
    let n = ring.len();
    let (mut m, mut count, mut best) = (0, 0, 0);
    while m < n {
        let head = m;
        let (mut j, mut k) = (m + 1, m);
        while j < n && ring[k] <= ring[j] {
            k = if ring[k] < ring[j] { m } else { k + 1 };
            j += 1;
        }
        while m <= k {
            table[count] = m as u16;
            count += 1;
            m += j - k;
        }
        if head > 0 && lower(ring, head, best) {
            best = head;
        }
    }
    (count, best)
}

/// The start by Duval's scan of the ring written twice.
pub fn duval_doubled(ring: &[u8]) -> usize {
    let n = ring.len();
    let at = |i: usize| ring[if i < n { i } else { i - n }];
    let (mut m, mut last) = (0, 0);
    while m < n {
        last = m;
        let (mut j, mut k) = (m + 1, m);
        while j < 2 * n && at(k) <= at(j) {
            k = if at(k) < at(j) { m } else { k + 1 };
            j += 1;
        }
        while m <= k {
            m += j - k;
        }
    }
    last
}

/// The start and the pairs, by duels.
pub fn duel(ring: &[u8]) -> (usize, usize) {
    let n = ring.len();
    let at = |i: usize| ring[if i < n { i } else { i - n }];
    let (mut p, mut q, mut pairs) = (0, 1, 0);
    while q < n {
        let mut k = 0;
        while k < n && at(p + k) == at(q + k) {
            k += 1;
        }
        if k == n {
            return (p, pairs + n);
        }
        pairs += k + 1;
        if at(p + k) > at(q + k) {
            p += k + 1;
        } else {
            q += k + 1;
        }
        if p == q {
            q += 1;
        }
        if q < p {
            std::mem::swap(&mut p, &mut q);
        }
    }
    (p, pairs)
}

/// The same without bounds checks.
pub fn duel_unchecked(ring: &[u8]) -> (usize, usize) {
    let n = ring.len();
    // p and q stand below n in a duel, and k below n, so that every position lies below 2n
    let at = |i: usize| unsafe { *ring.get_unchecked(if i < n { i } else { i - n }) };
    let (mut p, mut q, mut pairs) = (0, 1, 0);
    while q < n {
        let mut k = 0;
        while k < n && at(p + k) == at(q + k) {
            k += 1;
        }
        if k == n {
            return (p, pairs + n);
        }
        pairs += k + 1;
        if at(p + k) > at(q + k) {
            p += k + 1;
        } else {
            q += k + 1;
        }
        if p == q {
            q += 1;
        }
        if q < p {
            std::mem::swap(&mut p, &mut q);
        }
    }
    (p, pairs)
}

/// The least suffix of each prefix, in one scan of blocks.
pub fn suffixes(ring: &[u8], table: &mut [u16]) {
    let n = ring.len();
    let mut m = 0;
    while m < n {
        table[m] = m as u16;
        let (mut p, mut l) = (1, m + 1);
        while l < n && ring[l - p] <= ring[l] {
            if ring[l - p] < ring[l] {
                p = l + 1 - m;
                table[l] = m as u16;
            } else {
                table[l] = table[l - p] + p as u16;
            }
            l += 1;
        }
        m += (l - m) / p * p;
    }
}

/// How far the letters from each position on match the front.
fn match_lengths(ring: &[u8], table: &mut [u16]) {
    let n = ring.len();
    table[0] = 0;
    let (mut l, mut r) = (0, 0);
    for k in 1..n {
        let mut z = if k < r { (table[k - l] as usize).min(r - k) } else { 0 };
        while k + z < n && ring[z] == ring[k + z] {
            z += 1;
        }
        table[k] = z as u16;
        if r < k + z {
            l = k;
            r = k + z;
        }
    }
}

const HEAD: u16 = 8192;
const MARK: u16 = 16384;

/// The start of each prefix in linear time: match lengths first, then the blocks from the last to the first.
pub fn starts(ring: &[u8], table: &mut [u16]) {
    let n = ring.len();
    match_lengths(ring, table);
    let mut m = 0;
    while m < n {
        table[m] += HEAD;
        let (mut p, mut l) = (1, m + 1);
        while l < n && ring[l - p] <= ring[l] {
            if ring[l - p] < ring[l] {
                p = l + 1 - m;
            }
            l += 1;
        }
        m += (l - m) / p * p;
    }
    for m in (0..n).rev() {
        if table[m] < HEAD {
            continue;
        }
        table[m] = MARK;
        let (mut p, mut l) = (1, m + 1);
        while l < n && ring[l - p] <= ring[l] {
            let size = l + 1 - m;
            let good = if ring[l - p] < ring[l] {
                p = size;
                true
            } else if size > 2 * p {
                table[l - p] >= MARK
            } else if size == 2 * p {
                true
            } else {
                let i = l + 1 - p;
                let z = (table[i] % MARK) as usize;
                i + z >= m + p || ring[i + z] < ring[z]
            };
            if good {
                table[l] += MARK;
            }
            l += 1;
        }
        let end = l;
        table[m] = m as u16;
        p = 1;
        for l in m + 1..end {
            table[l] = if ring[l - p] < ring[l] {
                p = l + 1 - m;
                m as u16
            } else if table[l] >= MARK {
                m as u16
            } else {
                table[l - p] + p as u16
            };
        }
    }
}

/// The repeat: the first position whose letters match the front to the end, by match lengths in a lent table, where it divides n; else n.
pub fn repeat(ring: &[u8], table: &mut [u16]) -> usize {
    let n = ring.len();
    match_lengths(ring, table);
    let period = (1..n).find(|&p| table[p] as usize == n - p).unwrap_or(n);
    if n % period == 0 {
        period
    } else {
        n
    }
}

/// The start and strand of the key of a ring with two strands, by Booth's method on both.
pub fn key_by_booth(ring: &[u8], failure: &mut [i32]) -> (usize, u8) {
    let n = ring.len();
    let other = crate::words::opposite(ring);
    let a = crate::long::booth(ring, failure);
    let b = crate::long::booth(&other, failure);
    let at = |word: &[u8], i: usize| word[if i < n { i } else { i - n }];
    for k in 0..n {
        let (x, y) = (at(ring, a + k), at(&other, b + k));
        if x != y {
            return if y < x { (b, 1) } else { (a, 0) };
        }
    }
    (a, 0)
}
