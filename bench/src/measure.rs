//! Times of two versions of a question, side by side in one run.

use std::hint::black_box;
use std::time::Instant;

const ROUNDS: usize = 601;

fn median(mut times: Vec<f64>) -> f64 {
    times.sort_by(f64::total_cmp);
    times[times.len() / 2]
}

/// Nanoseconds a call over all inputs, the median of many rounds, of ours and of fast by turns.
pub fn versus<S, A, B>(inputs: &mut [S], ours: impl FnMut(&mut S) -> A, fast: impl FnMut(&mut S) -> B) -> (f64, f64) {
    versus_in(ROUNDS, inputs, ours, fast)
}

/// The same in so many rounds.
pub fn versus_in<S, A, B>(
    rounds: usize,
    inputs: &mut [S],
    mut ours: impl FnMut(&mut S) -> A,
    mut fast: impl FnMut(&mut S) -> B,
) -> (f64, f64) {
    let (mut first, mut second) = (Vec::new(), Vec::new());
    let calls = inputs.len() as f64;
    for _ in 0..rounds {
        let start = Instant::now();
        for input in inputs.iter_mut() {
            black_box(&ours(black_box(input)));
        }
        let middle = Instant::now();
        for input in inputs.iter_mut() {
            black_box(&fast(black_box(input)));
        }
        first.push((middle - start).as_nanos() as f64 / calls);
        second.push(middle.elapsed().as_nanos() as f64 / calls);
    }
    (median(first), median(second))
}
