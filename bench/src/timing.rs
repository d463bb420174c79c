//! Times of things that take turns.

use crate::programs::Call;
use std::hint::black_box;
use std::time::Instant;

/// Does something and tells how long it took.
pub type Timed<'a> = Box<dyn FnMut() -> f64 + 'a>;

/// The best time of each over `rounds` rounds. In a round each has its turn, so
/// that a slow spell of the machine hits all alike.
pub fn best(rounds: usize, timed: &mut [Timed]) -> Vec<f64> {
    let mut best = vec![f64::INFINITY; timed.len()];
    for _ in 0..rounds {
        for (best, timed) in best.iter_mut().zip(timed.iter_mut()) {
            *best = best.min(timed());
        }
    }
    best
}

/// Nanoseconds of one call among `repeats`.
pub fn timed(repeats: u32, mut call: Call) -> Timed {
    Box::new(move || {
        let start = Instant::now();
        for _ in 0..repeats {
            black_box(call());
        }
        start.elapsed().as_secs_f64() * 1e9 / f64::from(repeats)
    })
}
