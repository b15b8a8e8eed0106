//! Times of two sides that take turns, so that a change of the machine's speed meets both.

use std::hint::black_box;
use std::time::{Duration, Instant};

const SAMPLES: usize = 11;
const SAMPLE: Duration = Duration::from_millis(4);

/// Nanoseconds a call, the median of the samples.
pub struct Times {
    pub ours: f64,
    pub theirs: f64,
}

impl Times {
    pub fn ratio(&self) -> f64 {
        self.ours / self.theirs
    }
}

pub fn race<A, B>(mut ours: impl FnMut() -> A, mut theirs: impl FnMut() -> B) -> Times {
    let (our_calls, their_calls) = (enough(&mut ours), enough(&mut theirs));
    let [mut left, mut right] = [[0.0; SAMPLES]; 2];
    for (left, right) in left.iter_mut().zip(&mut right) {
        *left = sample(our_calls, &mut ours);
        *right = sample(their_calls, &mut theirs);
    }
    Times {
        ours: median(left),
        theirs: median(right),
    }
}

/// How many calls fill a sample; finding it out warms the caches.
fn enough<T>(call: &mut impl FnMut() -> T) -> u32 {
    let mut calls = 1;
    while sample(calls, call) * f64::from(calls) < SAMPLE.as_nanos() as f64 {
        calls *= 2;
    }
    calls
}

/// Nanoseconds a call.
fn sample<T>(calls: u32, call: &mut impl FnMut() -> T) -> f64 {
    let start = Instant::now();
    for _ in 0..calls {
        black_box(call());
    }
    start.elapsed().as_nanos() as f64 / f64::from(calls)
}

fn median(mut samples: [f64; SAMPLES]) -> f64 {
    samples.sort_by(f64::total_cmp);
    samples[SAMPLES / 2]
}
