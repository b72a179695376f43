//! Times of jobs side by side, and of single runs.

use std::time::{Duration, Instant};

/// How often each job is measured.
const ROUNDS: usize = 20;
/// A measure is of as many runs as take about so long.
const MEASURE: Duration = Duration::from_micros(400);
/// How many runs are timed one by one.
pub const SINGLE_RUNS: usize = 20_000;
/// How many of them are slower than the 99.9th percentile.
pub const SLOWER: usize = SINGLE_RUNS / 1000;

/// The least time of a run of each of some jobs over the same state, in nanoseconds. They are measured
/// in turn, so that what slows the machine slows all.
pub fn side_by_side<S, const N: usize>(state: &mut S, jobs: [&dyn Fn(&mut S); N]) -> [f64; N] {
    let runs = jobs.map(|job| runs_in_a_measure(state, job));
    let mut least = [f64::MAX; N];
    for _ in 0..ROUNDS {
        for (place, job) in jobs.into_iter().enumerate() {
            least[place] = least[place].min(time_of(state, job, runs[place]));
        }
    }
    least
}

/// The 99.9th percentile and the greatest of the times of single runs, in nanoseconds.
pub fn one_by_one<S>(state: &mut S, job: &dyn Fn(&mut S)) -> [f64; 2] {
    let mut times: Vec<f64> = (0..SINGLE_RUNS).map(|_| time_of(state, job, 1)).collect();
    times.sort_unstable_by(f64::total_cmp);
    [times[SINGLE_RUNS - 1 - SLOWER], times[SINGLE_RUNS - 1]]
}

fn runs_in_a_measure<S>(state: &mut S, job: &dyn Fn(&mut S)) -> u32 {
    let mut runs = 1;
    while time_of(state, job, runs) * f64::from(runs) < MEASURE.as_nanos() as f64 {
        runs *= 2;
    }
    runs
}

fn time_of<S>(state: &mut S, job: &dyn Fn(&mut S), runs: u32) -> f64 {
    let start = Instant::now();
    for _ in 0..runs {
        job(state);
    }
    start.elapsed().as_nanos() as f64 / f64::from(runs)
}
