//! Two ways to do the same, timed in turn.

use std::hint::black_box;
use std::time::{Duration, Instant};

/// How often a figure is taken, and about how long it takes each time. A round is short, so that it
/// is seldom interrupted, and long enough for the clock.
pub const ROUNDS: usize = 101;
pub const ROUND: Duration = Duration::from_millis(1);

/// What ours and the other side took for one call, in nanoseconds, and ours by the other.
pub struct Figures {
    pub ours: f64,
    pub other: f64,
    pub ratio: f64,
}

/// All inputs, so many times.
fn run<T: Copy>(inputs: &[T], passes: u32, call: &mut impl FnMut(T) -> usize) -> Duration {
    let start = Instant::now();
    for _ in 0..passes {
        for &input in inputs {
            black_box(call(black_box(input)));
        }
    }
    start.elapsed()
}

/// How many passes take about as long as a round.
fn passes<T: Copy>(inputs: &[T], call: &mut impl FnMut(T) -> usize) -> u32 {
    let mut passes = 1;
    while run(inputs, passes, call) < ROUND {
        passes *= 2;
    }
    passes
}

fn median(mut times: Vec<f64>) -> f64 {
    times.sort_by(f64::total_cmp);
    times[times.len() / 2]
}

/// Times both sides on inputs of their own, the rounds of the two in turn.
pub fn time<T: Copy, U: Copy>(
    (our_inputs, mut ours): (&[T], impl FnMut(T) -> usize),
    (other_inputs, mut other): (&[U], impl FnMut(U) -> usize),
) -> Figures {
    let our_passes = passes(our_inputs, &mut ours);
    let other_passes = passes(other_inputs, &mut other);
    let a_call = |time: Duration, passes: u32, inputs: usize| {
        time.as_nanos() as f64 / (f64::from(passes) * inputs as f64)
    };
    let (mut our_times, mut other_times, mut ratios) = (Vec::new(), Vec::new(), Vec::new());
    for _ in 0..ROUNDS {
        let other_time = run(other_inputs, other_passes, &mut other);
        let our_time = run(our_inputs, our_passes, &mut ours);
        let other_time = a_call(other_time, other_passes, other_inputs.len());
        let our_time = a_call(our_time, our_passes, our_inputs.len());
        our_times.push(our_time);
        other_times.push(other_time);
        ratios.push(our_time / other_time);
    }
    Figures { ours: median(our_times), other: median(other_times), ratio: median(ratios) }
}
