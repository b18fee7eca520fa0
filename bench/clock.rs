//! Least times.

use std::time::{Duration, Instant};

/// How long calls are repeated, and how often at least.
const AT_LEAST: Duration = Duration::from_millis(200);
const TURNS: usize = 5;
/// A call that takes longer is not repeated.
const SLOW: Duration = Duration::from_secs(2);

/// The least time of each call, called in turn, so that the machine's pace is the same for all.
pub fn in_turn<const N: usize>(mut calls: [&mut dyn FnMut(); N]) -> [Duration; N] {
    let mut least = [Duration::ZERO; N];
    let begin = Instant::now();
    let mut turns = 0;
    while turns < TURNS || begin.elapsed() < AT_LEAST {
        for (call, least) in calls.iter_mut().zip(&mut least) {
            if *least < SLOW {
                let start = Instant::now();
                call();
                let time = start.elapsed();
                *least = if turns == 0 { time } else { time.min(*least) };
            }
        }
        turns += 1;
    }
    least
}

/// How many times the second time goes into the first.
pub fn ratio(first: Duration, second: Duration) -> f64 {
    first.as_secs_f64() / second.as_secs_f64()
}

/// The time in milliseconds.
pub fn ms(time: Duration) -> String {
    format!("{:.3}", 1000.0 * time.as_secs_f64())
}
