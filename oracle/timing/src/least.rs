//! The least time of a call. Each side of a row is called in short runs, and the sides take turns,
//! so that what else the machine does falls on all of them alike; what counts is each side's best
//! run. A run is a number of calls that takes some microseconds, or one call that takes longer.
//! Every call of a side has the same input, so that memory is at hand and branches are foreseen.
//! From turn to turn the runs stand at another depth of the stack, since some work is slower where
//! the low bits of two addresses happen to agree.

use std::hint::black_box;
use std::time::{Duration, Instant};

const TURNS: usize = 1000;
const DEPTHS: usize = 16;
const RUN: Duration = Duration::from_micros(5);

/// Calls of one side, as many as it is told.
pub type Side<'a> = Box<dyn FnMut(u32) + 'a>;

pub fn side<'a>(mut call: impl FnMut() + 'a) -> Side<'a> {
    Box::new(move |calls| {
        for _ in 0..calls {
            call();
        }
    })
}

fn timed(side: &mut Side, calls: u32) -> Duration {
    let start = Instant::now();
    side(calls);
    start.elapsed()
}

/// A run at a depth of the stack.
#[inline(never)]
fn timed_below(depth: usize, side: &mut Side, calls: u32) -> Duration {
    if depth == 0 {
        return timed(side, calls);
    }
    let space = [0u8; 208];
    black_box(&space);
    let time = timed_below(depth - 1, side, calls);
    black_box(&space);
    time
}

/// How many calls are a run.
fn calls_of_run(side: &mut Side) -> u32 {
    let mut calls = 1;
    while (0..5).map(|_| timed(side, calls)).min() < Some(RUN) {
        calls *= 2;
    }
    calls
}

/// Nanoseconds of a call of each side.
pub fn least(sides: &mut [Side]) -> Vec<f64> {
    let calls: Vec<u32> = sides.iter_mut().map(calls_of_run).collect();
    let mut best = vec![f64::INFINITY; sides.len()];
    for turn in 0..TURNS {
        for (i, side) in sides.iter_mut().enumerate() {
            let time = timed_below(turn % DEPTHS, side, calls[i]);
            let run = time.as_nanos() as f64 / f64::from(calls[i]);
            best[i] = best[i].min(run);
        }
    }
    best
}
