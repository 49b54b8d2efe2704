// SPDX-License-Identifier: MIT OR Apache-2.0
//! Runs in turns, and their medians or the shortest in microseconds: what else the machine does meets all of them alike.

use std::time::{Duration, Instant};

/// One of the runs that are timed, over the buffers that all of them share.
pub type Run<'a, B> = &'a mut dyn FnMut(&mut B);

/// The first argument, or so many turns.
pub fn turns(otherwise: usize) -> usize {
    std::env::args()
        .nth(1)
        .map_or(otherwise, |n| n.parse().expect("a count of turns"))
}

/// Each in turns, so many times.
pub fn medians<B, const N: usize>(turns: usize, buffers: &mut B, runs: [Run<B>; N]) -> [f64; N] {
    medians_while(|done| done < turns, buffers, runs)
}

/// Each in turns, as long as `more` says so of the turns that are done.
pub fn medians_while<B, const N: usize>(
    more: impl Fn(usize) -> bool,
    buffers: &mut B,
    runs: [Run<B>; N],
) -> [f64; N] {
    times_while(more, buffers, runs).map(median)
}

/// The shortest of each instead, for runs so long that other work falls into half of them.
pub fn shortest_while<B, const N: usize>(
    more: impl Fn(usize) -> bool,
    buffers: &mut B,
    runs: [Run<B>; N],
) -> [f64; N] {
    times_while(more, buffers, runs).map(|times| times.into_iter().min().map_or(0.0, microseconds))
}

fn times_while<B, const N: usize>(
    more: impl Fn(usize) -> bool,
    buffers: &mut B,
    mut runs: [Run<B>; N],
) -> [Vec<Duration>; N] {
    let mut times = [const { Vec::new() }; N];
    while more(times[0].len()) {
        for (run, times) in runs.iter_mut().zip(&mut times) {
            let start = Instant::now();
            run(buffers);
            times.push(start.elapsed());
        }
    }
    times
}

fn median(mut times: Vec<Duration>) -> f64 {
    times.sort();
    microseconds(times[times.len() / 2])
}

fn microseconds(time: Duration) -> f64 {
    time.as_secs_f64() * 1e6
}
