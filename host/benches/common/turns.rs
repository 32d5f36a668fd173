//! Times: the fastest of several runs. What is compared runs by turns, so that a busy machine slows all alike.

use std::time::{Duration, Instant};

/// Something measured, on a state that all of one comparison share.
pub type Work<'a, S> = &'a dyn Fn(&mut S);

/// Turns that are taken even where they last longer than asked for.
const LEAST: usize = 5;
/// Short works are called several times for one reading of the clock, about so many nanoseconds.
const SAMPLE: f64 = 50_000.0;

/// The fastest time of one call of each work, in nanoseconds, of the turns taken in the given time.
pub fn by_turns<S, const N: usize>(time: Duration, state: &mut S, works: [Work<S>; N]) -> [f64; N] {
    let calls = works.map(|work| calls_in_a_sample(state, work));
    let mut fastest = [f64::MAX; N];
    let start = Instant::now();
    let mut turns = 0;
    while turns < LEAST || start.elapsed() < time {
        for n in 0..N {
            fastest[n] = fastest[n].min(sample(state, works[n], calls[n]));
        }
        turns += 1;
    }
    fastest
}

fn calls_in_a_sample<S>(state: &mut S, work: Work<S>) -> u32 {
    let mut one = f64::MAX;
    for _ in 0..LEAST {
        one = one.min(sample(state, work, 1));
    }
    (SAMPLE / one.max(1.0)).ceil().clamp(1.0, 10_000.0) as u32
}

/// Nanoseconds of a call, over several calls.
fn sample<S>(state: &mut S, work: Work<S>, calls: u32) -> f64 {
    let start = Instant::now();
    for _ in 0..calls {
        work(state);
    }
    start.elapsed().as_nanos() as f64 / f64::from(calls)
}
