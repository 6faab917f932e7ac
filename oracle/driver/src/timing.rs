//! How long works take that are held against each other.
use std::hint::black_box;
use std::time::Instant;

/// The rounds of which the least time counts.
pub const ROUNDS: usize = 15;

/// The least time of each work over all rounds. The works take turns in a round, so that a slow spell of the
/// machine hits all; the first round only warms up.
pub fn fastest<const WORKS: usize>(mut round: impl FnMut() -> [f64; WORKS]) -> [f64; WORKS] {
    round();
    let mut least = [f64::INFINITY; WORKS];
    for _ in 0..ROUNDS {
        let times = round();
        least = std::array::from_fn(|i| least[i].min(times[i]));
    }
    least
}

/// The time of a work in ns, and what it gives.
pub fn timed<T>(work: impl FnOnce() -> T) -> (f64, T) {
    let start = Instant::now();
    let given = black_box(work());
    (start.elapsed().as_nanos() as f64, given)
}
