//! Medians of some works, the archive's and those to measure it against, taken in turns, so that all meet the same machine.

use std::time::Instant;

const RUNS: usize = 1_001;
/// A run is as many calls as take about this long.
const RUN_NANOSECONDS: u128 = 40_000;

pub type Work<'a> = Box<dyn FnMut() -> u64 + 'a>;

/// Nanoseconds a call. Each work answers 0, or the measuring ends: a refused call is no measure.
pub fn in_turns<const K: usize>(works: [Work; K]) -> [f64; K] {
    let times = all_in_turns(works.into(), RUNS);
    times.try_into().expect("a time for each work")
}

/// The same of as many works as there are, in so many runs.
pub fn all_in_turns(mut works: Vec<Work>, count: usize) -> Vec<f64> {
    let calls = works.iter_mut().map(calls_a_run).min().expect("a work");
    let mut times = vec![Vec::with_capacity(count); works.len()];
    for _ in 0..count {
        for (times, work) in times.iter_mut().zip(&mut works) {
            times.push(run(work, calls));
        }
    }
    times.into_iter().map(|runs| median(runs, calls)).collect()
}

fn run(work: &mut Work, calls: u128) -> u128 {
    let began = Instant::now();
    for _ in 0..calls {
        assert_eq!(std::hint::black_box(work()), 0, "a call was refused");
    }
    began.elapsed().as_nanos()
}

fn calls_a_run(work: &mut Work) -> u128 {
    run(work, 3);
    (RUN_NANOSECONDS * 3 / run(work, 3).max(1)).max(1)
}

fn median(mut runs: Vec<u128>, calls: u128) -> f64 {
    runs.sort_unstable();
    runs[runs.len() / 2] as f64 / calls as f64
}
