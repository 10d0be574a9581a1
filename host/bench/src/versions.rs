//! The library before a change and after it, taking turns in one run, and then
//! the command likewise.

use crate::jobs::{self, Job};
use crate::processes::Programs;
use crate::server::{Reply, Server};
use crate::table::{self, count, duration, percent, times};
use crate::timing::{medians_of_rounds, ratio};
use std::env;
use std::path::{Path, PathBuf};
use std::time::Duration;

const HEADINGS: [&str; 6] = [
    "pair",
    "before",
    "after",
    "before : after",
    "matches",
    "over the cap",
];

const PROCESS_HEADINGS: [&str; 4] = ["pair", "before", "after", "after : before"];

/// Both tables. The paths are those of the `bench` and of the `annex` before the
/// change.
pub fn print(bench: &Path, annex: &Path) -> Result<(), String> {
    let after = env::current_exe().map_err(|error| error.to_string())?;
    let benches = [found(bench)?, after];
    let programs = Programs::versions(&found(annex)?)?;
    print_calls(&benches);
    print_processes(&programs);
    Ok(())
}

fn found(path: &Path) -> Result<PathBuf, String> {
    let complaint = |error| format!("{}: {error}", path.display());
    path.canonicalize().map_err(complaint)
}

/// The table of calls on all jobs that are compared.
fn print_calls(programs: &[PathBuf; 2]) {
    let mut rows = Vec::new();
    for group in jobs::compared() {
        rows.extend(measure(programs, rows.len(), &group));
    }
    let title = "The call `compare` before the change and after it";
    table::print(title, &HEADINGS, &rows);
}

/// The table of whole processes on ordinary pairs. What they print is not
/// compared, as the command may print something else after a change.
fn print_processes(programs: &Programs) {
    let jobs = jobs::ordinary();
    let medians = programs.medians(jobs.iter());
    let row = |(job, medians): (&Job, &[Duration])| {
        let (before, after) = (medians[0], medians[1]);
        let ratio = times(ratio(after, before));
        vec![job.name.clone(), duration(before), duration(after), ratio]
    };
    let rows: Vec<Vec<String>> = jobs.iter().zip(medians.chunks(2)).map(row).collect();
    let title = "Whole processes of `annex` before the change and after it";
    table::print(title, &PROCESS_HEADINGS, &rows);
}

/// The rows of a group of jobs, the first of which has the given index. Each
/// round starts both programs anew, since where a process comes to lie in memory
/// may make all its calls some hundredths slower, and asks the other one first.
fn measure(programs: &[PathBuf; 2], begin: usize, jobs: &[Job]) -> Vec<Vec<String>> {
    let mut before_first = false;
    let mut matches = vec![0; jobs.len()];
    let medians = medians_of_rounds(|| {
        let mut versions = Versions::start(programs);
        before_first = !before_first;
        let times = jobs.iter().enumerate().flat_map(|(at, job)| {
            let [before, after] = versions.ask(begin + at, before_first);
            let name = &job.name;
            assert_eq!(before.answer, after.answer, "{name}: two answers");
            matches[at] = after.matches;
            [before.time, after.time]
        });
        times.collect()
    });
    let by_job = medians.chunks(2).zip(matches);
    jobs.iter().zip(by_job).map(row).collect()
}

/// The two versions. The present one too is called in another process, so that
/// they differ in nothing but the library.
struct Versions {
    before: Server,
    after: Server,
}

impl Versions {
    fn start([before, after]: &[PathBuf; 2]) -> Versions {
        Versions {
            before: Server::start(before),
            after: Server::start(after),
        }
    }

    /// The replies before and after, whoever is asked first.
    fn ask(&mut self, at: usize, before_first: bool) -> [Reply; 2] {
        if before_first {
            let before = self.before.ask(at);
            [before, self.after.ask(at)]
        } else {
            let after = self.after.ask(at);
            [self.before.ask(at), after]
        }
    }
}

fn row((job, (medians, matches)): (&Job, (&[Duration], u64))) -> Vec<String> {
    vec![
        job.name.clone(),
        duration(medians[0]),
        duration(medians[1]),
        times(ratio(medians[0], medians[1])),
        count(matches),
        percent(job.share_above(job.settings.a)),
    ]
}
