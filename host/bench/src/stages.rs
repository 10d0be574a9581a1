//! Where the time of `compare` goes, stage by stage.
//!
//! The library exports whole calls only, so its stages are told apart by calls on
//! the same pair that end one stage after the other ([`End`]): a stage takes what
//! the call that ends after it takes beyond the one that ends before it. The links,
//! which come last and are one of the tallies, take what the whole call takes beyond
//! one that is refused just before them. The sweep takes what is left of a call that
//! lists nothing, less all that comes before the sweep and less the links.

use crate::jobs::Job;
use crate::lent::Lent;
use crate::table::{self, duration, percent};
use crate::timing::medians_in_turn;
use hornbeamlet::{Library, Settings, ENTRY, RECORD, REFUSED};
use std::time::Duration;

const HEADINGS: [&str; 9] = [
    "pair", "compare", "letters", "codes", "matches", "tallies", "sweep", "listing", "zeroing",
];

/// The largest least span that is accepted.
const WIDEST_SPAN: u32 = 16_384;

/// Where a call on a pair ends.
#[derive(Clone, Copy, Debug, PartialEq)]
enum End {
    /// `need`, refused for the last letter of all: it has looked at every letter.
    Letters,
    /// `need` with an N for every k-th letter: it has packed the others and passed
    /// over every place, since none has a k-mer.
    Codes,
    /// `need` with a = 1: every k-mer that both sequences have is over the cap, and
    /// there is no match to count. Rows are capped in a pass that a pair with nothing
    /// over the cap is spared, so there the matches come out too large by it, and the
    /// tallies too small.
    Matches,
    /// `need` itself, which counts M and W.
    Needs,
    /// `compare` with one record of work room too few, which puts zeros into both
    /// rooms.
    Zeroing,
    /// `compare` with the largest m: nearly nothing spans as much, and of nothing
    /// shorter is it asked whether it goes on.
    Unlisted,
    /// `compare` with room for one entry too few, refused just before the links are
    /// counted.
    Unlinked,
    /// `compare` itself.
    Whole,
}

const ENDS: [End; 8] = [
    End::Letters,
    End::Codes,
    End::Matches,
    End::Needs,
    End::Zeroing,
    End::Unlisted,
    End::Unlinked,
    End::Whole,
];

/// The table of all jobs, each group of them measured on its own.
pub fn print(library: &Library, groups: &[Vec<Job>]) {
    let rows = groups.iter().flat_map(|jobs| measure(library, jobs));
    let rows: Vec<Vec<String>> = rows.collect();
    table::print("Where the time of `compare` goes", &HEADINGS, &rows);
}

/// The rows of a group of jobs, all of whose calls take turns.
fn measure(library: &Library, jobs: &[Job]) -> Vec<Vec<String>> {
    let mut pairs: Vec<Pair> = jobs.iter().map(|job| Pair::new(library, job)).collect();
    let tasks = (0..jobs.len()).flat_map(|at| ENDS.map(|end| (at, end)));
    let tasks: Vec<(usize, End)> = tasks.collect();
    let medians = medians_in_turn(&tasks, |&(at, end)| pairs[at].run(library, end));
    let by_job = medians.chunks(ENDS.len());
    jobs.iter().zip(by_job).map(row).collect()
}

/// A job with its rooms, and its sequences changed so that a call ends early.
struct Pair<'a> {
    job: &'a Job,
    lent: Lent,
    /// The second sequence with a last letter that is none.
    no_letter: Vec<u8>,
    /// Both sequences without a k-mer.
    no_kmers: [Vec<u8>; 2],
}

impl Pair<'_> {
    /// The job must list something: only then is there a call that is refused for
    /// list room.
    fn new<'a>(library: &Library, job: &'a Job) -> Pair<'a> {
        let mut no_letter = job.second.clone();
        if let Some(last) = no_letter.last_mut() {
            *last = b'-';
        }
        Pair {
            job,
            lent: Lent::new(library, job),
            no_letter,
            no_kmers: [&job.first, &job.second].map(|it| without_kmers(it, job.settings.k)),
        }
    }

    /// One call, which must end as its kind says.
    fn run(&mut self, library: &Library, end: End) {
        let job = self.job;
        let need = |settings, [first, second]: [&Vec<u8>; 2]| library.need(settings, first, second);
        let (settings, sequences) = (job.settings, [&job.first, &job.second]);
        let (given, expected) = match end {
            End::Letters => (need(settings, [&job.first, &self.no_letter]), REFUSED + 6),
            End::Codes => (need(settings, self.no_kmers.each_ref()), 0),
            End::Matches => (need(Settings { a: 1, ..settings }, sequences), 0),
            End::Needs => (need(settings, sequences), self.lent.answer.widest),
            End::Zeroing => (self.compare(library, settings, [RECORD, 0]), 7),
            End::Unlisted => {
                let m = WIDEST_SPAN;
                let settings = Settings { m, ..settings };
                (self.compare(library, settings, [0, 0]), 0)
            }
            End::Unlinked => (self.compare(library, settings, [0, ENTRY]), 8),
            End::Whole => (self.compare(library, settings, [0, 0]), 0),
        };
        assert_eq!(given, expected, "{}: {end:?}", job.name);
    }

    /// The number that `compare` answers in rooms with so many numbers less than
    /// the job needs.
    fn compare(&mut self, library: &Library, settings: Settings, less: [usize; 2]) -> u64 {
        let Lent { work, list, .. } = &mut self.lent;
        let [work_len, list_len] = [work.len() - less[0], list.len() - less[1]];
        let (work, list) = (&mut work[..work_len], &mut list[..list_len]);
        let (first, second) = (&self.job.first, &self.job.second);
        library.compare(settings, first, second, work, list).number
    }
}

/// The sequence with an N for every k-th letter.
fn without_kmers(sequence: &[u8], k: u32) -> Vec<u8> {
    let mut sequence = sequence.to_vec();
    let k = k as usize;
    for letter in sequence.iter_mut().skip(k - 1).step_by(k) {
        *letter = b'N';
    }
    sequence
}

fn row((job, medians): (&Job, &[Duration])) -> Vec<String> {
    let time = |end: End| medians[end as usize].as_secs_f64();
    let mut row = vec![job.name.clone(), duration(medians[End::Whole as usize])];
    // What takes next to nothing may come out below it.
    row.extend(stages(time).map(|taken| percent(taken.max(0.0) / time(End::Whole))));
    row
}

/// What each stage takes, in the order of the headings, from the times of the
/// calls. Together they are the whole call.
fn stages(time: impl Fn(End) -> f64) -> [f64; 7] {
    let between = |before, after| time(after) - time(before);
    let links = between(End::Unlinked, End::Whole);
    [
        time(End::Letters),
        between(End::Letters, End::Codes),
        between(End::Codes, End::Matches),
        between(End::Matches, End::Needs) + links,
        between(End::Zeroing, End::Unlisted) - links,
        between(End::Unlisted, End::Whole),
        between(End::Needs, End::Zeroing),
    ]
}

#[cfg(test)]
mod tests {
    use super::*;
    use crate::jobs;
    use hornbeamlet::with_library;

    #[test]
    fn every_call_ends_as_its_kind_says() {
        with_library(|library| {
            for job in &jobs::ordinary()[..4] {
                let mut pair = Pair::new(library, job);
                for end in ENDS {
                    pair.run(library, end);
                }
            }
        });
    }

    #[test]
    fn the_stages_are_the_whole_call() {
        // Each call takes twice as long as the one before it, the whole one 128.
        let time = |end: End| f64::from(1 << end as u32);
        let expected = [1, 1, 2, 4 + 64, 16 - 64, 96, 8].map(f64::from);
        assert_eq!(stages(time), expected);
        assert_eq!(expected.iter().sum::<f64>(), time(End::Whole));
    }

    #[test]
    fn a_call_has_its_place_among_all() {
        for (at, end) in ENDS.into_iter().enumerate() {
            assert_eq!(end as usize, at);
        }
    }
}
