//! Times read off the clock.
use std::time::Instant;

/// Nanoseconds for each of n letters or bytes: the best of 15 batches, each long enough to be read off the clock.
pub fn time(n: usize, mut run: impl FnMut()) -> f64 {
    run();
    let begun = Instant::now();
    run();
    let once = begun.elapsed().as_nanos().max(1) as f64;
    let times = (1.0e6 / once).ceil().max(1.0) as usize;
    let mut best = f64::MAX;
    for _ in 0..15 {
        let begun = Instant::now();
        for _ in 0..times {
            run();
        }
        best = best.min(begun.elapsed().as_nanos() as f64 / times as f64);
    }
    best / n as f64
}

/// The better of two timings of the same rows, each of two times.
pub fn better<const N: usize>(mut own: [[f64; 2]; N], other: [[f64; 2]; N]) -> [[f64; 2]; N] {
    for (time, other) in own.as_flattened_mut().iter_mut().zip(other.as_flattened()) {
        *time = time.min(*other);
    }
    own
}
