//! The library against the reference on random jobs: every answer, and both
//! rooms whole, lent full of other numbers and at every size around the limits.
//! Every job is swept over its index too, and some over a damaged one.
//!
//! HORNBEAMLET_JOBS, HORNBEAMLET_LONG_JOBS, HORNBEAMLET_DENSE_JOBS and
//! HORNBEAMLET_CAPPED_JOBS set how many jobs are run, HORNBEAMLET_SEED the seed of
//! the first. A failure prints the seed of its job and the question, which
//! `reference call` answers too.

#![forbid(unsafe_code)]

mod common;
mod jobs;

use common::Proved;
use hornbeamlet::with_library;
use jobs::Job;
use reference::calls::{Calls, IndexCalls, Over, Reference};
use reference::random::Random;
use reference::{Answer, Settings};
use std::collections::BTreeSet;
use std::env;
use std::fmt::{self, Arguments, Debug, Display, Formatter};
use std::iter::repeat_with;

const RECORD: usize = 8;
const ENTRY: usize = 6;
/// Numbers on either side of a lent room, which no call may touch.
const MARGIN: usize = 16;

#[test]
fn small_jobs_agree_with_the_reference() {
    let jobs = setting("HORNBEAMLET_JOBS", 20_000);
    let seen = compare_jobs(jobs, jobs::small);
    if jobs >= 5_000 {
        let all = Seen {
            compared: (0..=10).chain([12]).collect(),
            stopped: (0..=7).chain([9, 10, 12, 19]).collect(),
            built: BTreeSet::from([0, 1, 5, 6, 10, 11]),
        };
        assert_eq!(seen, all, "some answers never came");
    }
}

#[test]
fn long_jobs_agree_with_the_reference() {
    compare_jobs(setting("HORNBEAMLET_LONG_JOBS", 150), jobs::long);
}

#[test]
fn dense_jobs_agree_with_the_reference() {
    compare_jobs(setting("HORNBEAMLET_DENSE_JOBS", 40), jobs::dense);
}

#[test]
fn capped_jobs_agree_with_the_reference() {
    compare_jobs(setting("HORNBEAMLET_CAPPED_JOBS", 3_000), jobs::capped);
}

/// Totals just the cap and one more, and totals that pass it in the second
/// sequence alone and only with the first, each in many of the capped jobs.
#[test]
fn capped_jobs_have_totals_on_either_side_of_the_cap() {
    let mut ways = [0; 4];
    for seed in 1..=3_000 {
        let job = jobs::capped(&mut Random::new(seed));
        let (Settings { k, a, .. }, swept) = (job.settings, job.swept());
        let rows = swept[0].windows(k as usize);
        let totals = rows
            .filter(|kmer| !kmer.contains(&b'N'))
            .map(|kmer| jobs::totals(kmer, &swept));
        let totals: Vec<[usize; 2]> = totals.filter(|[_, columns]| *columns > 0).collect();
        let any = |test: fn(usize, usize, usize) -> bool| {
            let mut totals = totals.iter();
            totals.any(|&[rows, columns]| test(rows, columns, a as usize))
        };
        let seen = [
            any(|rows, columns, a| rows + columns == a),
            any(|rows, columns, a| rows + columns == a + 1),
            any(|_, columns, a| columns > a),
            any(|rows, columns, a| columns <= a && rows + columns > a),
        ];
        for (way, seen) in ways.iter_mut().zip(seen) {
            *way += u32::from(seen);
        }
    }
    assert!(ways.iter().all(|&jobs| jobs >= 300), "{ways:?}");
}

/// What masked letters do is seen in many of the small jobs.
#[test]
fn the_mask_setting_decides_in_many_jobs() {
    let decides = |&seed: &u64| {
        let job = jobs::small(&mut Random::new(seed));
        let needs = [0, 1].map(|mask| {
            let settings = Settings {
                mask,
                ..job.settings
            };
            reference::need(settings, &job.first, &job.second)
        });
        needs[0] != needs[1]
    };
    let jobs = (1..=3_000).filter(decides).count();
    assert!(jobs >= 300, "{jobs}");
}

fn setting(name: &str, default: u64) -> u64 {
    env::var(name).map_or(default, |text| text.parse().expect(name))
}

/// Which numbers the sweeps gave, the plain ones and those over an index, and which
/// came of building one.
#[derive(Debug, Default, PartialEq)]
struct Seen {
    compared: BTreeSet<u64>,
    stopped: BTreeSet<u64>,
    built: BTreeSet<u64>,
}

/// Runs so many jobs and tells which numbers were given.
fn compare_jobs(jobs: u64, make: fn(&mut Random) -> Job) -> Seen {
    let seed = setting("HORNBEAMLET_SEED", 1);
    let mut seen = Seen::default();
    with_library(|library| {
        for seed in seed..seed + jobs {
            let mut random = Random::new(seed);
            let job = make(&mut random);
            let asked = Asked {
                seed,
                job: &job,
                proved: Proved(library),
            };
            let sizes = asked.needs();
            let index = asked.index();
            seen.built.insert(asked.builds(&mut random, index.len()));
            let index = Index::given(&mut random, index);
            seen.compared
                .extend(asked.compares(&mut random, sizes, &index));
            seen.stopped.extend(asked.stops(&mut random, &index));
        }
    });
    seen
}

/// One job, put to both.
struct Asked<'a> {
    seed: u64,
    job: &'a Job,
    proved: Proved<'a>,
}

impl Asked<'_> {
    /// Compares the replies of `need`, and tells the records and entries there
    /// are, none where the job is refused.
    fn needs(&self) -> (usize, usize) {
        let reply = self.need_by(&Reference);
        self.agree(format_args!("need"), &self.need_by(&self.proved), &reply);
        let records = u32::try_from(reply).unwrap_or(0) as usize;
        let enough = Room::new(RECORD * records, || 0);
        let short = self.compare_by(&Reference, &enough, &Room::new(0, || 0)).0;
        (records, lacking(8, short))
    }

    /// Compares the answers and rooms of `compare`, over the index too, and tells
    /// both numbers.
    fn compares(
        &self,
        random: &mut Random,
        (records, entries): (usize, usize),
        index: &Index,
    ) -> [u64; 2] {
        let work = Room::lend(random, RECORD, records);
        let list = Room::lend(random, ENTRY, entries);
        let op = format!("compare work={} list={}", work.length, list.length);
        self.sweeps(&op, index, |calls| self.compare_by(calls, &work, &list))
    }

    /// The records that a stopped sweep needs, which names one strand and has a
    /// need of its own.
    fn stopped_needs(&self) -> usize {
        lacking(7, self.stopped_by(&Reference, &Room::new(0, || 0), 0).0)
    }

    /// Compares the answers and rooms of `stopped`, over the index too, and tells
    /// both numbers.
    fn stops(&self, random: &mut Random, index: &Index) -> [u64; 2] {
        let work = Room::lend(random, RECORD, self.stopped_needs());
        let row = self.some_row(random);
        let op = format!("stopped work={} row={row}", work.length);
        self.sweeps(&op, index, |calls| self.stopped_by(calls, &work, row))
    }

    /// Compares what a sweep gives, plain and over the index. Over one that is right
    /// the plain sweep tells what is due.
    fn sweeps<T: Debug + PartialEq>(
        &self,
        op: &str,
        index: &Index,
        sweep: impl Fn(&dyn Calls) -> (Answer, T),
    ) -> [u64; 2] {
        let expected = sweep(&Reference);
        self.agree(format_args!("{op}"), &sweep(&self.proved), &expected);
        let plain = expected.0.number;
        let expected = match index.right {
            true => expected,
            false => sweep(&index.over(&Reference)),
        };
        let given = sweep(&index.over(&self.proved));
        self.agree(format_args!("index_{op} {index}"), &given, &expected);
        [plain, expected.0.number]
    }

    /// The index, empty where it is refused.
    fn index(&self) -> Vec<u32> {
        let enough = Room::new(self.job.second.len(), || 0);
        let (answer, mut room) = self.index_by(&Reference, &enough);
        room.lent()[..answer.listed as usize].to_vec()
    }

    /// Compares the answers and rooms of `index`, and tells the number.
    fn builds(&self, random: &mut Random, places: usize) -> u64 {
        let room = Room::lend(random, 1, places);
        let expected = self.index_by(&Reference, &room);
        let given = self.index_by(&self.proved, &room);
        let op = format_args!("index_build index={}", room.length);
        self.agree(op, &given, &expected);
        expected.0.number
    }

    fn need_by(&self, calls: &impl Calls) -> u64 {
        let job = self.job;
        calls.need(job.settings, &job.first, &job.second)
    }

    fn compare_by(&self, calls: &dyn Calls, work: &Room, list: &Room) -> (Answer, [Room; 2]) {
        let (job, mut work, mut list) = (self.job, work.clone(), list.clone());
        let (lent, listed) = (work.lent(), list.lent());
        let answer = calls.compare(job.settings, &job.first, &job.second, lent, listed);
        (answer, [work, list])
    }

    fn stopped_by(&self, calls: &dyn Calls, work: &Room, row: u32) -> (Answer, Room) {
        let (job, mut work) = (self.job, work.clone());
        let answer = calls.stopped(job.settings, &job.first, &job.second, work.lent(), row);
        (answer, work)
    }

    fn index_by(&self, calls: &impl IndexCalls, room: &Room) -> (Answer, Room) {
        let (Settings { k, mask, .. }, mut room) = (self.job.settings, room.clone());
        let answer = calls.index(k, mask, &self.job.second, room.lent());
        (answer, room)
    }

    /// Any row, the ends among them, and at times one past the last.
    fn some_row(&self, random: &mut Random) -> u32 {
        let rows = self.job.first.len() as u32 + 1;
        let last = rows.saturating_sub(self.job.settings.k);
        let any = random.between(0, last as usize) as u32;
        random.one_of(&[0, 1, any, any, any, last, last, last + 1, u32::MAX])
    }

    fn agree<T: Debug + PartialEq>(&self, op: Arguments, given: &T, expected: &T) {
        if given == expected {
            return;
        }
        let settings = self.job.settings;
        panic!(
            "HORNBEAMLET_SEED={} disagrees\n\
             op={op} k={} b={} a={} m={} strand={} mask={} s={} t={}\n\
             library   {given:?}\nreference {expected:?}",
            self.seed,
            settings.k,
            settings.b,
            settings.a,
            settings.m,
            settings.strand,
            settings.mask,
            self.job.first.escape_ascii(),
            self.job.second.escape_ascii(),
        );
    }
}

/// How much of a room is asked for by the refusal of this number, and nothing by
/// another answer.
fn lacking(number: u64, short: Answer) -> usize {
    match short.number == number {
        true => short.detail as usize,
        false => 0,
    }
}

/// What is given as an index.
struct Index {
    numbers: Vec<u32>,
    /// Whether it begins with the index.
    right: bool,
}

impl Index {
    /// The index, one in five damaged, and at times with any numbers behind it.
    fn given(random: &mut Random, index: Vec<u32>) -> Index {
        let mut numbers = index.clone();
        if random.chance(200) {
            damage(random, &mut numbers);
        }
        let behind = random.one_of(&[0, 0, 1, 9]);
        numbers.extend(repeat_with(|| random.number() as u32).take(behind));
        Index {
            right: numbers.starts_with(&index),
            numbers,
        }
    }

    fn over<'a, C>(&'a self, calls: &'a C) -> Over<'a, C> {
        let index = &self.numbers;
        Over { calls, index }
    }
}

impl Display for Index {
    fn fmt(&self, to: &mut Formatter) -> fmt::Result {
        let numbers: Vec<String> = self.numbers.iter().map(u32::to_string).collect();
        match numbers.is_empty() {
            true => write!(to, "index=-"),
            false => write!(to, "index={}", numbers.join(",")),
        }
    }
}

/// Numbers of an index lost, exchanged, written twice or made others: any, or
/// neighbours, whose k-mers are often equal.
fn damage(random: &mut Random, index: &mut Vec<u32>) {
    let Some(last) = index.len().checked_sub(1) else {
        return;
    };
    let [one, any] = [(); 2].map(|()| random.between(0, last));
    let other = random.one_of(&[any, one.saturating_sub(1)]);
    match random.below(5) {
        0 => index.truncate(one),
        1 => index.swap(one, other),
        2 => index.insert(one, index[other]),
        3 => drop(index.remove(one)),
        _ => {
            let number = random.number() as u32;
            index[one] = random.one_of(&[0, u32::MAX, number, index[one] + 1, index[other]]);
        }
    }
}

/// A room within a larger slice, lent full of numbers that are not 0.
#[derive(Clone, Debug, PartialEq)]
struct Room {
    numbers: Vec<u32>,
    length: usize,
}

impl Room {
    fn new(length: usize, full: impl FnMut() -> u32) -> Room {
        Room {
            numbers: repeat_with(full).take(length + 2 * MARGIN).collect(),
            length,
        }
    }

    /// A room about as large as so many parts of one size need: nothing, one
    /// number less, just that, a remainder more, a part more, or any size.
    fn lend(random: &mut Random, part: usize, parts: usize) -> Room {
        let exact = part * parts;
        let any = random.between(0, exact + 3 * part);
        let sizes = [0, exact.saturating_sub(1), exact, exact + part - 1];
        let larger = [exact, exact + 1, exact + part, any];
        let length = random.one_of(&[sizes, larger].concat());
        Room::new(length, || random.number() as u32 | 1)
    }

    fn lent(&mut self) -> &mut [u32] {
        &mut self.numbers[MARGIN..MARGIN + self.length]
    }
}
