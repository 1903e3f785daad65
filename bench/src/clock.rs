//! Samples and medians.

use std::time::Instant;

/// A sample is the mean of enough calls to last some 20 µs.
const SAMPLE_NANOS: f64 = 20_000.0;

fn nanos(calls: usize, f: &mut dyn FnMut()) -> f64 {
    let start = Instant::now();
    for _ in 0..calls {
        f();
    }
    start.elapsed().as_nanos() as f64 / calls as f64
}

fn median(mut samples: Vec<f64>) -> f64 {
    samples.sort_by(f64::total_cmp);
    samples[samples.len() / 2]
}

/// What is timed.
pub type Run<'a> = Box<dyn FnMut() + 'a>;

/// The medians of several runs, sampled in turn, so that other work on the machine falls on all alike; each once before its sample, so that
/// what the run before it left in the machine's caches does not count.
pub fn medians(samples: usize, mut runs: Vec<Run>) -> Vec<f64> {
    let calls: Vec<usize> = runs
        .iter_mut()
        .map(|run| {
            let once = (0..10).map(|_| nanos(1, run)).fold(f64::MAX, f64::min);
            (SAMPLE_NANOS / once.max(1.0)).ceil() as usize
        })
        .collect();
    let mut taken = vec![Vec::with_capacity(samples); runs.len()];
    for _ in 0..samples {
        for (k, run) in runs.iter_mut().enumerate() {
            run();
            taken[k].push(nanos(calls[k], run));
        }
    }
    taken.into_iter().map(median).collect()
}
