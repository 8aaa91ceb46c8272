//! Medians of two or more sides that take turns, so that all of them see the same machine.

use std::hint::black_box;
use std::time::{Duration, Instant};

const FEWEST: usize = 21;

/// One side: each call readies what the work needs, and answers how long the work alone took.
pub struct Side<'a>(Box<dyn FnMut() -> Duration + 'a>);

impl<'a> Side<'a> {
    pub fn new(run: impl FnMut() -> Duration + 'a) -> Self {
        Side(Box::new(run))
    }
}

/// The time of the work alone; what it answers is dropped afterwards.
pub fn timed<T>(work: impl FnOnce() -> T) -> Duration {
    let start = Instant::now();
    let answer = black_box(work());
    let spent = start.elapsed();
    drop(answer);
    spent
}

/// Lets the sides take turns for the time allowed; answers each one's median and the number of turns.
pub fn medians(sides: &mut [Side], allowed: Duration) -> (Vec<Duration>, usize) {
    let mut times = vec![Vec::new(); sides.len()];
    let start = Instant::now();
    while times[0].len() < FEWEST || start.elapsed() < allowed {
        for (side, times) in sides.iter_mut().zip(&mut times) {
            times.push((side.0)());
        }
    }
    let turns = times[0].len();
    (times.into_iter().map(median).collect(), turns)
}

fn median(mut times: Vec<Duration>) -> Duration {
    times.sort_unstable();
    times[times.len() / 2]
}
