//! The call `compare` over an index beside the plain one, and what the index takes.

use crate::jobs::Job;
use crate::lent::Lent;
use crate::table::{self, bytes, duration, times};
use crate::timing::{medians_in_turn, ratio};
use hornbeamlet::{Entered, Index, Library};
use std::time::Duration;

const HEADINGS: [&str; 5] = ["pair", "compare", "over the index", "index", "index room"];

/// What is timed of a pair.
#[derive(Clone, Copy, Debug)]
enum Task {
    /// `compare`, which looks the places up afresh.
    Plain,
    /// `compare_indexed`, which is given them.
    Over,
    /// `index`, which makes what is given.
    Build,
}

const TASKS: [Task; 3] = [Task::Plain, Task::Over, Task::Build];

/// The table of all jobs.
pub fn print(library: &Library, jobs: &[Job]) {
    let mut pairs: Vec<Pair> = jobs.iter().map(|job| Pair::new(library, job)).collect();
    let tasks = (0..jobs.len()).flat_map(|at| TASKS.map(|task| (at, task)));
    let tasks: Vec<(usize, Task)> = tasks.collect();
    let medians = medians_in_turn(&tasks, |&(at, task)| pairs[at].run(library, task));
    let by_pair = medians.chunks(TASKS.len());
    let rows: Vec<Vec<String>> = pairs.iter().zip(by_pair).map(row).collect();
    table::print("The call `compare` over an index", &HEADINGS, &rows);
}

/// A job with its rooms and its index.
struct Pair<'a> {
    job: &'a Job,
    lent: Lent,
    index: Index,
    /// Numbers for the index to be built in once more, just as many as it has.
    room: Vec<u32>,
}

impl Pair<'_> {
    fn new<'a>(library: &Library, job: &'a Job) -> Pair<'a> {
        let index = library.build_index(job.settings, &job.second);
        let refused = |refusal| panic!("{} has no index: {refusal:?}", job.name);
        let index = index.unwrap_or_else(refused);
        Pair {
            job,
            lent: Lent::new(library, job),
            room: vec![1; index.places().len()],
            index,
        }
    }

    /// One call. Over the index the answer is that of the plain call.
    fn run(&mut self, library: &Library, task: Task) {
        let (job, index) = (self.job, self.index.places());
        match task {
            Task::Plain => self.lent.compare(library, job),
            Task::Over => self.lent.run(job, |job, work, list| {
                let Job { first, second, .. } = job;
                library.compare_indexed(job.settings, first, second, index, work, list)
            }),
            Task::Build => {
                let Entered { k, mask, .. } = job.settings.into();
                let answer = library.index(k, mask, &job.second, &mut self.room);
                assert_eq!(answer.listed, index.len() as u64, "{}", job.name);
            }
        }
    }
}

fn row((pair, medians): (&Pair, &[Duration])) -> Vec<String> {
    let time = |task: Task| medians[task as usize];
    let beside_plain = |task| times(ratio(time(task), time(Task::Plain)));
    vec![
        pair.job.name.clone(),
        duration(time(Task::Plain)),
        beside_plain(Task::Over),
        beside_plain(Task::Build),
        bytes(4 * pair.room.len()),
    ]
}

#[cfg(test)]
mod tests {
    use super::*;
    use crate::jobs;
    use hornbeamlet::with_library;

    #[test]
    fn every_task_of_a_pair_is_done() {
        with_library(|library| {
            for job in &jobs::ordinary()[..4] {
                let mut pair = Pair::new(library, job);
                for task in TASKS {
                    pair.run(library, task);
                }
                assert_eq!(pair.room, pair.index.places());
            }
        });
    }

    #[test]
    fn a_task_has_its_place_among_all() {
        for (at, task) in TASKS.into_iter().enumerate() {
            assert_eq!(task as usize, at);
        }
    }
}
