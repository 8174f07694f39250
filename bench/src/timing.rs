//! The least time of several rounds, each long enough to be read.

use std::time::{Duration, Instant};

const ROUNDS: usize = 4;
const ROUND: Duration = Duration::from_millis(50);

/// Rounds of a pair: their difference is small against what it is a difference of.
const PAIRS: usize = 30;

/// Seconds that one call takes, in the best of the rounds.
pub fn seconds(mut call: impl FnMut()) -> f64 {
    let count = calls_in(ROUND, &mut call);
    (0..ROUNDS)
        .map(|_| time(count, &mut call).as_secs_f64() / f64::from(count))
        .fold(f64::INFINITY, f64::min)
}

/// Seconds that each of two calls takes. Their rounds alternate, so that both meet the same disturbances.
pub fn pair(mut one: impl FnMut(), mut other: impl FnMut()) -> (f64, f64) {
    let count = calls_in(ROUND, &mut one);
    let (mut first, mut second) = (Duration::MAX, Duration::MAX);
    for _ in 0..PAIRS {
        first = first.min(time(count, &mut one));
        second = second.min(time(count, &mut other));
    }
    let seconds = |all: Duration| all.as_secs_f64() / f64::from(count);
    (seconds(first), seconds(second))
}

/// Seconds that the first call takes more than the second.
pub fn difference(more: impl FnMut(), less: impl FnMut()) -> f64 {
    let (with, without) = pair(more, less);
    with - without
}

fn calls_in(round: Duration, call: &mut impl FnMut()) -> u32 {
    let mut count = 1;
    while time(count, call) < round {
        count *= 2;
    }
    count
}

fn time(count: u32, call: &mut impl FnMut()) -> Duration {
    let begin = Instant::now();
    for _ in 0..count {
        call();
    }
    begin.elapsed()
}
