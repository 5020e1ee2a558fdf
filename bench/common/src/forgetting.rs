//! Requests of which each forgets one, with more or fewer that are remembered: what one takes in the mean over a full
//! 247 s.

/// Right after so many milliseconds a message is forgotten.
pub const FORGOTTEN_AFTER_MS: u64 = 247_001;

/// So many requests are timed together: what is forgotten in one batch is in the time of few others.
pub const TOGETHER: u32 = 1_024;

/// How many timings the least is taken of, and where only some requests are timed.
const TIMINGS: usize = 5;
const TIMINGS_OF_FEW: usize = 301;
/// So few are some.
const FEW: u32 = 5_000;

/// How many timings the least is taken of, with so many that are remembered.
pub fn timings(held: u32) -> usize {
    if held <= FEW { TIMINGS_OF_FEW } else { TIMINGS }
}

/// So many come in two lifetimes: then all room is there, and each more forgets one.
pub fn before(held: u32) -> u32 {
    2 * held
}

/// So many are timed: those of a lifetime, or some more.
pub fn timed(held: u32) -> u32 {
    held.next_multiple_of(TOGETHER).max(4 * TOGETHER)
}

/// The nanoseconds of a request, where of those that are timed together the least of so many timings counts: `run`
/// keeps it.
pub fn mean(held: u32, timings: usize, mut run: impl FnMut(&mut [u64])) -> f64 {
    let mut times = vec![u64::MAX; (timed(held) / TOGETHER) as usize];
    for _ in 0..timings {
        run(&mut times);
    }
    times.into_iter().sum::<u64>() as f64 / f64::from(timed(held))
}
