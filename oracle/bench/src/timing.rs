//! Timing of things that are compared: their rounds alternate, so that a slower minute of the
//! machine falls on all of them, and the best round of each counts.

use std::hint::black_box;
use std::time::{Duration, Instant};

/// How often all rows are gone over, so that a slower minute falls on none of them alone.
const GOES: usize = 6;
const ROUNDS: usize = 50;
/// Short, since a round only counts where nothing else took the processor while it ran.
const ROUND: Duration = Duration::from_millis(1);

/// A thing to time. What it gives back is kept from being optimised away.
pub type Work<'a> = Box<dyn Fn() -> u64 + 'a>;

/// Nanoseconds that each takes, in its best round.
pub fn interleaved<const N: usize>(works: &[Work; N]) -> [f64; N] {
    let repeats = works.each_ref().map(repeats_in_a_round);
    let mut best = [f64::INFINITY; N];
    for _ in 0..ROUNDS {
        for ((work, repeats), best) in works.iter().zip(&repeats).zip(&mut best) {
            *best = best.min(nanoseconds(work, *repeats));
        }
    }
    best
}

/// The best that each row's times come to, in several goes over all rows.
pub fn best_of_all<Row, const N: usize>(rows: &[Row], times: impl Fn(&Row) -> [f64; N]) -> Vec<[f64; N]> {
    let mut best = vec![[f64::INFINITY; N]; rows.len()];
    for _ in 0..GOES {
        for (row, best) in rows.iter().zip(&mut best) {
            let times = times(row);
            *best = std::array::from_fn(|k| best[k].min(times[k]));
        }
    }
    best
}

fn nanoseconds(work: &Work, repeats: u32) -> f64 {
    let start = Instant::now();
    for _ in 0..repeats {
        black_box(work());
    }
    start.elapsed().as_nanos() as f64 / f64::from(repeats)
}

fn repeats_in_a_round(work: &Work) -> u32 {
    let one = nanoseconds(work, 3).max(1.0);
    ((ROUND.as_nanos() as f64 / one) as u32).max(1)
}
