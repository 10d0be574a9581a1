//! The rooms that a job is lent.

use crate::jobs::Job;
use hornbeamlet::{Answer, Library, ENTRY, RECORD};

/// The rooms of a job, just as large as it needs, and its answer.
pub struct Lent {
    /// The work room.
    pub work: Vec<u32>,
    /// The list room.
    pub list: Vec<u32>,
    /// The answer of every run.
    pub answer: Answer,
}

impl Lent {
    /// The library's own listing tells how much the job needs. The rooms are lent
    /// full of numbers, so that all of their memory is there before a call is timed.
    pub fn new(library: &Library, job: &Job) -> Lent {
        let listed = library.list(job.settings, &job.first, &job.second);
        let refused = |refusal| panic!("{} was refused: {refusal:?}", job.name);
        let answer = listed.unwrap_or_else(refused).answer;
        Lent {
            work: vec![1; RECORD * answer.widest as usize],
            list: vec![1; ENTRY * answer.listed as usize],
            answer,
        }
    }

    /// One run. Whoever is asked, the answer is always the same.
    pub fn run(&mut self, job: &Job, ask: impl Fn(&Job, &mut [u32], &mut [u32]) -> Answer) {
        let answer = ask(job, &mut self.work, &mut self.list);
        assert_eq!(answer, self.answer, "{}: two answers", job.name);
    }

    /// One run of the library's `compare`.
    pub fn compare(&mut self, library: &Library, job: &Job) {
        self.run(job, |job, work, list| {
            library.compare(job.settings, &job.first, &job.second, work, list)
        });
    }
}
