//! Medians of many runs.

use std::time::{Duration, Instant};

/// Rounds of one table: as many as fit into this time, within bounds.
const ENOUGH: Duration = Duration::from_secs(15);
const FEWEST: usize = 3;
const MOST: usize = 301;

/// A first round is not counted, as it finds nothing in the caches. One that takes
/// longer than this is: its tasks leave nothing there for one another anyway.
const WARMING: Duration = Duration::from_secs(2);

/// The median times of tasks that take turns, so that whatever else is
/// going on meets all of them alike.
pub fn medians_in_turn<T>(tasks: &[T], mut run: impl FnMut(&T)) -> Vec<Duration> {
    medians_of_rounds(|| tasks.iter().map(|task| time(|| run(task))).collect())
}

/// The same where a round does more than run its tasks one after the other: it
/// gives the times of all, always in the same order.
pub fn medians_of_rounds(mut round: impl FnMut() -> Vec<Duration>) -> Vec<Duration> {
    let begun = Instant::now();
    let first = round();
    let tasks = first.len();
    let mut rounds = Vec::new();
    if begun.elapsed() > WARMING {
        rounds.push(first);
    }
    while rounds.len() < FEWEST || rounds.len() < MOST && begun.elapsed() <= ENOUGH {
        rounds.push(round());
    }
    let times = |task: usize| rounds.iter().map(|round| round[task]).collect();
    (0..tasks).map(|task| median(times(task))).collect()
}

/// The time of one run.
pub fn time(run: impl FnOnce()) -> Duration {
    let begun = Instant::now();
    run();
    begun.elapsed()
}

fn median(mut times: Vec<Duration>) -> Duration {
    times.sort_unstable();
    times[times.len() / 2]
}

/// How many times as long the one took as the other.
pub fn ratio(one: Duration, other: Duration) -> f64 {
    one.as_secs_f64() / other.as_secs_f64()
}
