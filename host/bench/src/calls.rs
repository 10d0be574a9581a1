//! The call `compare` itself, against the reference's.

use crate::jobs::{Job, KINDS};
use crate::lent::Lent;
use crate::table::{self, bytes, count, duration, three_digits, times};
use crate::timing::{medians_in_turn, ratio};
use hornbeamlet::{Answer, Entered, Library};
use std::time::Duration;

/// The reference is left out where it would take longer than this.
const PATIENCE: Duration = Duration::from_secs(3);

const HEADINGS: [&str; 10] = [
    "pair",
    "compare",
    "ns a letter",
    "ns a match",
    "need",
    "reference",
    "matches",
    "links",
    "work room",
    "list room",
];

/// A job that was measured.
pub struct Call {
    /// The job.
    pub job: Job,
    /// The time of the library's `compare`.
    pub time: Duration,
    /// The time of its `need`.
    need: Duration,
    /// The time of the reference's `compare`, where it is not too long.
    reference: Option<Duration>,
    answer: Answer,
    /// The bytes of work room and list room.
    rooms: [usize; 2],
}

/// What is asked in a task, and of which job.
#[derive(Clone, Copy, PartialEq)]
enum Task {
    Compare(usize),
    Need(usize),
    Reference(usize),
}

/// Measures all jobs with just the rooms that each needs, the library and the
/// reference in turn.
pub fn measure(library: &Library, jobs: Vec<Job>) -> Vec<Call> {
    let mut lent: Vec<Lent> = jobs.iter().map(|job| Lent::new(library, job)).collect();
    let tasks = tasks(&jobs, &lent);
    let medians = medians_in_turn(&tasks, |task| match *task {
        Task::Compare(at) => lent[at].compare(library, &jobs[at]),
        Task::Need(at) => {
            let job = &jobs[at];
            let records = library.need(job.settings, &job.first, &job.second);
            assert_eq!(records, lent[at].answer.widest, "{}: two needs", job.name);
        }
        Task::Reference(at) => lent[at].run(&jobs[at], by_reference),
    });
    let median = |task| {
        let at = tasks.iter().position(|&it| it == task);
        at.map(|at| medians[at])
    };
    let call = |(at, (job, lent)): (usize, (Job, Lent))| Call {
        job,
        time: median(Task::Compare(at)).unwrap_or_default(),
        need: median(Task::Need(at)).unwrap_or_default(),
        reference: median(Task::Reference(at)),
        answer: lent.answer,
        rooms: [4 * lent.work.len(), 4 * lent.list.len()],
    };
    jobs.into_iter().zip(lent).enumerate().map(call).collect()
}

/// The order of a round. The library's shortest jobs come last, so that they
/// find its code in the cache and not the reference's.
fn tasks(jobs: &[Job], lent: &[Lent]) -> Vec<Task> {
    let patient = |&at: &usize| expected_time(&jobs[at], lent[at].answer) <= PATIENCE;
    let references = (0..jobs.len()).filter(patient).map(Task::Reference);
    let library = (0..jobs.len())
        .rev()
        .flat_map(|at| [Task::Need(at), Task::Compare(at)]);
    references.chain(library).collect()
}

/// The reference's answer in the library's terms.
fn by_reference(job: &Job, work: &mut [u32], list: &mut [u32]) -> Answer {
    let entered = Entered::from(job.settings);
    let settings = reference::Settings {
        k: entered.k,
        b: entered.b,
        a: entered.a,
        m: entered.m,
        strand: entered.strand,
        mask: entered.mask,
    };
    let given = reference::compare(settings, &job.first, &job.second, work, list);
    Answer {
        number: given.number,
        sequence: given.sequence,
        detail: given.detail,
        listed: given.listed,
        matches: given.matches,
        widest: given.widest,
        links: given.links,
    }
}

/// The reference walks b + 1 rows for each match and looks at every link, at
/// some nanoseconds a step.
fn expected_time(job: &Job, answer: Answer) -> Duration {
    let steps = answer.matches * u64::from(job.settings.b + 1);
    Duration::from_nanos(12 * steps + 3 * answer.links)
}

/// The table of calls, and what was left out of it.
pub fn print(title: &str, calls: &[Call]) {
    let rows: Vec<Vec<String>> = calls.iter().map(row).collect();
    table::print(title, &HEADINGS, &rows);
    let skipped = calls.iter().filter(|call| call.reference.is_none());
    let expected = skipped.map(|call| expected_time(&call.job, call.answer));
    if let Some(longest) = expected.max() {
        let [seconds, minutes] = [PATIENCE.as_secs(), longest.as_secs().div_ceil(60)];
        println!(
            "Skipped: the reference would take more than {seconds} s, up to {minutes} minutes.\n"
        );
    }
}

fn row(call: &Call) -> Vec<String> {
    let letters = call.job.first.len() + call.job.second.len();
    let nanoseconds = call.time.as_nanos() as f64;
    let a_match = match call.answer.matches {
        0 => "-".to_string(),
        matches => three_digits(nanoseconds / matches as f64),
    };
    let reference = call.reference.map(|taken| times(ratio(taken, call.time)));
    vec![
        call.job.name.clone(),
        duration(call.time),
        three_digits(nanoseconds / letters as f64),
        a_match,
        times(ratio(call.need, call.time)),
        reference.unwrap_or_else(|| "skipped".to_string()),
        count(call.answer.matches),
        count(call.answer.links),
        bytes(call.rooms[0]),
        bytes(call.rooms[1]),
    ]
}

/// How many times as long a call takes when both sequences become four times as
/// long, kind by kind. The calls are those of the ordinary jobs, kind by kind at
/// each of three lengths, and what comes after those is not looked at.
pub fn growths(calls: &[Call]) -> Vec<(&'static str, f64)> {
    let by_length: Vec<&[Call]> = calls.chunks(KINDS.len()).collect();
    let pairs = by_length[1].iter().zip(by_length[2]).zip(KINDS);
    let growth = |((shorter, longer), (kind, _)): ((&Call, &Call), (&'static str, usize))| {
        (kind, ratio(longer.time, shorter.time))
    };
    pairs.map(growth).collect()
}

/// The table of growths.
pub fn print_growths(calls: &[Call]) {
    let growths = growths(calls).into_iter();
    let rows = growths.map(|(kind, growth)| vec![kind.to_string(), times(growth)]);
    let rows: Vec<Vec<String>> = rows.collect();
    let title = "Growth from 4,096 to 16,384 letters, where 4 × is linear";
    table::print(title, &["pair", "growth"], &rows);
}
