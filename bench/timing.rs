//! Times, of which the best round counts.

use std::time::Instant;

/// Nanoseconds of one of so many takes.
pub fn time(takes: usize, mut take: impl FnMut()) -> f64 {
    let start = Instant::now();
    for _ in 0..takes {
        take();
    }
    start.elapsed().as_nanos() as f64 / takes as f64
}

/// Nanoseconds of a call that is made on each item of a mix in turn, about so many times in all.
pub fn time_each<T: Copy>(calls: usize, mix: &[T], mut call: impl FnMut(T)) -> f64 {
    let times = (calls / mix.len()).max(1);
    time(times, || mix.iter().for_each(|item| call(*item))) / mix.len() as f64
}

/// The least of each time over all rounds. A round measures everything in turn, so that a change of the machine's speed meets all
/// alike.
pub fn best(rounds: usize, mut round: impl FnMut() -> Vec<f64>) -> Vec<f64> {
    let mut least = round();
    for _ in 1..rounds {
        for (least, time) in least.iter_mut().zip(round()) {
            *least = least.min(time);
        }
    }
    least
}
