//! The sequence of duels, step by step.

/// The start that the duels end with, and the pairs compared.
pub fn duel(ring: &[u8]) -> (usize, usize) {
    let n = ring.len();
    let (mut p, mut q, mut pairs) = (0, 1, 0);
    loop {
        if q >= n {
            return (p, pairs);
        }
        let mut differ = None;
        for k in 0..n {
            pairs += 1;
            let (a, b) = (ring[(p + k) % n], ring[(q + k) % n]);
            if a != b {
                differ = Some((k, a, b));
                break;
            }
        }
        let Some((k, a, b)) = differ else {
            return (p, pairs);
        };
        if a > b {
            p += k + 1;
        } else {
            q += k + 1;
        }
        if p == q {
            q += 1;
        }
        if q < p {
            std::mem::swap(&mut p, &mut q);
        }
    }
}
