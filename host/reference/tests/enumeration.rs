//! Small random jobs against an enumeration of all chains, straight from the
//! definitions and with nothing of the library but its answers. Every job is
//! asked forward and over both strands, every sweep stopped on each strand. Half of
//! the sequences have letters in lower case.

use reference::{build_index, compare, need, stopped, Answer, Settings};
use std::slice::from_ref;

/// A small seeded generator (a multiplier, an addend and a high half).
struct Generator(u64);

impl Generator {
    fn below(&mut self, bound: u64) -> u64 {
        let stepped = self.0.wrapping_mul(6_364_136_223_846_793_005);
        self.0 = stepped.wrapping_add(1_442_695_040_888_963_407);
        (self.0 >> 33) % bound
    }

    fn from(&mut self, least: u64, greatest: u64) -> u32 {
        (least + self.below(greatest - least + 1)) as u32
    }

    fn one_of<'a>(&mut self, choices: &[&'a [u8]]) -> &'a [u8] {
        choices[self.below(choices.len() as u64) as usize]
    }

    fn sequence(&mut self, alphabet: &[u8], longest: u64) -> Vec<u8> {
        let length = self.below(longest + 1).max(self.below(longest + 1));
        let mut letter = || alphabet[self.below(alphabet.len() as u64) as usize];
        (0..length).map(|_| letter()).collect()
    }
}

#[derive(Clone)]
struct Job {
    settings: Settings,
    first: Vec<u8>,
    second: Vec<u8>,
}

fn random_job(seed: u64, longest: u64) -> Job {
    let mut random = Generator(seed);
    let alphabet = random.one_of(&[
        b"A",
        b"AC",
        b"AT",
        b"ATN",
        b"ACGT",
        b"ACGTRYN",
        b"a",
        b"AAa",
        b"AaT",
        b"aAcC",
        b"AAATTTat",
        b"ACGTRYNacgtryn",
    ]);
    let settings = Settings {
        k: random.from(1, 3),
        b: random.from(1, 5),
        a: random.from(1, 2 * longest),
        m: random.from(0, longest),
        strand: 0,
        mask: random.from(0, 1),
    };
    let first = random.sequence(alphabet, longest);
    let second = random.sequence(alphabet, longest);
    let is_turned = random.below(2) == 1;
    Job {
        settings,
        first,
        second: if is_turned { turned(&second) } else { second },
    }
}

/// The letters and, below each, its complement.
const COMPLEMENTS: [&[u8; 30]; 2] = [
    b"ABCDGHKMNRSTVWYabcdghkmnrstvwy",
    b"TVGHCDMKNYSABWRtvghcdmknysabwr",
];

fn turned(sequence: &[u8]) -> Vec<u8> {
    let complement = |letter: &u8| {
        let at = COMPLEMENTS[0].iter().position(|it| it == letter);
        COMPLEMENTS[1][at.unwrap()]
    };
    sequence.iter().rev().map(complement).collect()
}

type Place = (i64, i64);

/// A match with the weight of its heaviest chain, its start and the number of
/// its left extensions.
#[derive(Clone, Copy)]
struct Found {
    at: Place,
    weight: u32,
    start: Place,
    links: u64,
}

/// The k-mer at a place, in capitals. The letters that form k-mers are the bases
/// and, with mask setting 0, those in lower case too.
fn kmer(settings: Settings, sequence: &[u8], place: i64) -> Option<Vec<u8>> {
    let forming = match settings.mask {
        0 => "ACGTacgt",
        _ => "ACGT",
    };
    let from = place as usize - 1;
    let letters = &sequence[from..from + settings.k as usize];
    let formed = letters.iter().all(|it| forming.as_bytes().contains(it));
    formed.then(|| letters.to_ascii_uppercase())
}

impl Job {
    fn on_strand(&self, strand: u32) -> Settings {
        Settings {
            strand,
            ..self.settings
        }
    }

    fn b(&self) -> i64 {
        i64::from(self.settings.b)
    }

    fn places(&self, sequence: &[u8]) -> i64 {
        (sequence.len() as i64 - i64::from(self.settings.k) + 1).max(0)
    }

    /// Occurrences in both sequences together, counted anew for each k-mer.
    fn total(&self, wanted: &[u8]) -> usize {
        let occurs = |sequence: &[u8]| {
            let at =
                |&place: &i64| kmer(self.settings, sequence, place).is_some_and(|it| it == wanted);
            (1..=self.places(sequence)).filter(at).count()
        };
        occurs(&self.first) + occurs(&self.second)
    }

    fn is_match(&self, (row, column): Place) -> bool {
        let in_first = kmer(self.settings, &self.first, row);
        let in_second = kmer(self.settings, &self.second, column);
        let used = |it: &[u8]| self.total(it) <= self.settings.a as usize;
        in_first == in_second && in_first.is_some_and(|it| used(&it))
    }

    fn matches(&self) -> Vec<Place> {
        let mut found = Vec::new();
        for row in 1..=self.places(&self.first) {
            let columns = 1..=self.places(&self.second);
            let places = columns.map(|column| (row, column));
            found.extend(places.filter(|&place| self.is_match(place)));
        }
        found
    }

    fn is_left_extension(&self, other: Place, of: Place) -> bool {
        let (down, along) = (of.0 - other.0, of.1 - other.1);
        let near = 0 <= down && down <= self.b() && 0 <= along && along <= self.b();
        near && other != of
    }

    fn left_extensions(&self, matches: &[Place], of: Place) -> Vec<Place> {
        let extends = |&other: &Place| self.is_left_extension(other, of);
        matches.iter().copied().filter(extends).collect()
    }

    /// The greatest weight among all chains that end at a match, each of them
    /// walked through.
    fn heaviest(&self, matches: &[Place], end: Place) -> u32 {
        let before = self.left_extensions(matches, end).into_iter();
        let weights = before.map(|other| 1 + self.heaviest(matches, other));
        weights.max().unwrap_or(1)
    }

    /// The same number with what is found already looked up.
    fn heaviest_after(&self, found: &[Found], end: Place) -> u32 {
        let before = found.iter().filter(|it| self.is_left_extension(it.at, end));
        before.map(|it| it.weight + 1).max().unwrap_or(1)
    }

    fn find(&self, enumerate: bool) -> Vec<Found> {
        let matches = self.matches();
        let mut found: Vec<Found> = Vec::new();
        for &at in &matches {
            let weight = if enumerate {
                self.heaviest(&matches, at)
            } else {
                self.heaviest_after(&found, at)
            };
            let links = self.left_extensions(&matches, at).len() as u64;
            let start = self.start(&found, at);
            found.push(Found {
                at,
                weight,
                start,
                links,
            });
        }
        found
    }

    /// Its own place, or the start of the left extension no other beats.
    fn start(&self, found: &[Found], of: Place) -> Place {
        let before = found.iter().filter(|it| self.is_left_extension(it.at, of));
        let all: Vec<&Found> = before.collect();
        let unbeaten = all.iter().find(|it| !all.iter().any(|by| beats(by, it)));
        unbeaten.map_or(of, |it| it.start)
    }

    /// The left extensions of a match two by two, the one in the smaller row
    /// first, or the one further left in a row.
    fn pairs_before(&self, found: &[Found], of: Place) -> Vec<(Found, Found)> {
        let extends = |it: &&Found| self.is_left_extension(it.at, of);
        let before: Vec<Found> = found.iter().filter(extends).copied().collect();
        let mut pairs = Vec::new();
        for (at, &one) in before.iter().enumerate() {
            pairs.extend(before[at + 1..].iter().map(|&other| (one, other)));
        }
        pairs
    }

    fn is_closed(&self, matches: &[Place], at: Place) -> bool {
        !matches.iter().any(|&of| self.is_left_extension(at, of))
    }

    /// The rule that stood before, "there is no match (i + x, j + y) with x and y
    /// each from 1 to b".
    fn was_closed(&self, matches: &[Place], (row, column): Place) -> bool {
        let steps = 1..=self.b();
        let mut pairs = steps
            .clone()
            .flat_map(|x| steps.clone().map(move |y| (x, y)));
        !pairs.any(|(x, y)| matches.contains(&(row + x, column + y)))
    }

    /// First and last place in the first sequence, in the second, and weight.
    fn entries(&self, found: &[Found]) -> Vec<[u32; 5]> {
        let (k, m) = (i64::from(self.settings.k), i64::from(self.settings.m));
        let matches: Vec<Place> = found.iter().map(|it| it.at).collect();
        let mut list = Vec::new();
        for it in found.iter().filter(|it| self.is_closed(&matches, it.at)) {
            let ((i, j), (p, q)) = (it.at, it.start);
            if i + k - p >= m && j + k - q >= m {
                let [p, i, q, j] = [p, i + k - 1, q, j + k - 1].map(|place| place as u32);
                list.push([p, i, q, j, it.weight]);
            }
        }
        list
    }

    fn window(&self, found: &[Found], row: i64) -> Vec<Found> {
        let inside = |it: &&Found| (row - self.b()).max(1) <= it.at.0 && it.at.0 <= row;
        found.iter().filter(inside).copied().collect()
    }

    fn widest(&self, found: &[Found]) -> usize {
        let rows = 1..=self.places(&self.first);
        rows.map(|row| self.window(found, row).len())
            .max()
            .unwrap_or(0)
    }
}

fn beats(one: &Found, other: &Found) -> bool {
    if one.weight != other.weight {
        return one.weight > other.weight;
    }
    if one.at.1 != other.at.1 {
        return one.at.1 < other.at.1;
    }
    one.at.0 < other.at.0
}

/// One strand of a job: the sequences as they are swept, what is found there,
/// and for each letter of the second sequence its place before it was turned.
struct Strand {
    number: u32,
    swept: Job,
    found: Vec<Found>,
    places_before: Vec<u32>,
}

impl Strand {
    fn forward(job: &Job) -> Strand {
        Strand {
            number: 0,
            swept: job.clone(),
            found: Vec::new(),
            places_before: (1..=job.second.len() as u32).collect(),
        }
    }

    fn reverse(job: &Job) -> Strand {
        let mut strand = Strand::forward(job);
        strand.number = 1;
        strand.swept.second = turned(&job.second);
        strand.places_before.reverse();
        strand
    }

    fn both(job: &Job) -> [Strand; 2] {
        [Strand::forward(job), Strand::reverse(job)]
    }

    fn find(mut self, enumerate: bool) -> Strand {
        self.found = self.swept.find(enumerate);
        self
    }

    fn widest(&self) -> usize {
        self.swept.widest(&self.found)
    }

    fn links(&self) -> u64 {
        self.found.iter().map(|it| it.links).sum()
    }

    /// The entries with the places of the second sequence as it was given, the
    /// smaller first.
    fn entries(&self) -> Vec<u32> {
        let before = |place: u32| self.places_before[place as usize - 1];
        let given = |[p, i, q, j, weight]: [u32; 5]| {
            let (one, other) = (before(q), before(j));
            [p, i, one.min(other), one.max(other), weight, self.number]
        };
        let entries = self.swept.entries(&self.found).into_iter();
        entries.flat_map(given).collect()
    }
}

/// The answer of some strands together.
fn done(listed: usize, strands: &[Strand]) -> Answer {
    Answer {
        number: 0,
        sequence: 0,
        detail: 0,
        listed: listed as u64,
        matches: strands.iter().map(|it| it.found.len() as u64).sum(),
        widest: widest(strands) as u64,
        links: strands.iter().map(Strand::links).sum(),
    }
}

fn widest(strands: &[Strand]) -> usize {
    strands.iter().map(Strand::widest).max().unwrap_or(0)
}

fn refused(number: u64, detail: u64) -> Answer {
    Answer {
        number,
        detail,
        ..done(0, &[])
    }
}

fn records(found: &[Found]) -> Vec<u32> {
    let record = |it: &Found| {
        let (row, column) = (it.at.0 as u32, it.at.1 as u32);
        let (start_row, start_column) = (it.start.0 as u32, it.start.1 as u32);
        [row, column, it.weight, start_row, start_column, 0, 0, 0]
    };
    found.iter().flat_map(record).collect()
}

fn lent(numbers: usize) -> Vec<u32> {
    vec![u32::MAX; numbers]
}

fn padded(mut room: Vec<u32>, length: usize) -> Vec<u32> {
    room.resize(length, 0);
    room
}

/// The listing of one strand or of both, with rooms that just do, that do with
/// a remainder, and that are one number short.
fn check_listing(seed: u64, job: &Job, strands: &[Strand]) {
    let entries: Vec<u32> = strands.iter().flat_map(Strand::entries).collect();
    let widest = widest(strands);
    let (listed, fitting) = (entries.len() / 6, 8 * widest);
    let settings = job.on_strand(strands.len() as u32 - 1);
    let run = |work: usize, list: usize| {
        let (mut work, mut list) = (lent(work), lent(list));
        let answer = compare(settings, &job.first, &job.second, &mut work, &mut list);
        (answer, work, list)
    };
    let reply = need(settings, &job.first, &job.second);
    assert_eq!(reply, widest as u64, "seed {seed}");
    for more in [0, 5] {
        let list = padded(entries.clone(), entries.len() + more);
        let expected = (done(listed, strands), vec![0; fitting + more], list);
        let given = run(fitting + more, entries.len() + more);
        assert_eq!(given, expected, "seed {seed}");
    }
    if widest > 0 {
        let expected = (refused(7, widest as u64), vec![0; fitting - 1], vec![]);
        assert_eq!(run(fitting - 1, 0), expected, "seed {seed}");
    }
    if listed > 0 {
        let short = entries.len() - 1;
        let expected = (refused(8, listed as u64), vec![0; fitting], vec![0; short]);
        assert_eq!(run(fitting, short), expected, "seed {seed}");
    }
}

/// The sweep of one strand stopped after every row, and after one row too many.
/// Its records are not turned back.
fn check_stopped(seed: u64, job: &Job, strand: &Strand) {
    let widest = strand.widest();
    let rows = job.places(&job.first);
    let settings = job.on_strand(strand.number);
    let run = |row: i64, numbers: usize| {
        let mut work = lent(numbers);
        let answer = stopped(settings, &job.first, &job.second, &mut work, row as u32);
        (answer, work)
    };
    let enough = 8 * widest + 3;
    for row in 0..=rows {
        let held = strand.swept.window(&strand.found, row);
        let work = padded(records(&held), enough);
        let expected = (done(held.len(), from_ref(strand)), work);
        assert_eq!(run(row, enough), expected, "seed {seed} row {row}");
    }
    let expected = (refused(19, rows as u64), vec![0; enough]);
    assert_eq!(run(rows + 1, enough), expected, "seed {seed}");
    if widest > 0 {
        let short = 8 * widest - 1;
        let expected = (refused(7, widest as u64), vec![0; short]);
        assert_eq!(run(0, short), expected, "seed {seed}");
    }
}

/// The index: behind how many others a place stands is counted for each, those whose
/// letters come before its own and, of equal ones, those before it.
fn check_index(seed: u64, job: &Job) {
    let Settings { k, mask, .. } = job.settings;
    let own = |place| kmer(job.settings, &job.second, place).map(|it| (it, place));
    let found: Vec<(Vec<u8>, i64)> = (1..=job.places(&job.second)).filter_map(own).collect();
    let mut expected = vec![0; found.len() + 2];
    for it in &found {
        let before = found.iter().filter(|&other| other < it).count();
        expected[before] = it.1 as u32;
    }
    let mut index = lent(found.len() + 2);
    let answer = build_index(k, mask, &job.second, &mut index);
    let given = (answer, index);
    assert_eq!(given, (done(found.len(), &[]), expected), "seed {seed}");
    if let Some(short) = found.len().checked_sub(1) {
        let mut index = lent(short);
        let answer = build_index(k, mask, &job.second, &mut index);
        let expected = (refused(11, found.len() as u64), vec![0; short]);
        assert_eq!((answer, index), expected, "seed {seed}");
    }
}

/// "W is at most (b + 1)(a - 1)." The link total "is at most
/// M((b + 1) min(a - 1, b + 1) - 1). With a = 1 there are no matches".
fn check_bounds(seed: u64, job: &Job, strand: &Strand) {
    let (b, a) = (u64::from(job.settings.b), u64::from(job.settings.a));
    let of_one_match = ((b + 1) * (a - 1).min(b + 1)).saturating_sub(1);
    let most_links = strand.found.len() as u64 * of_one_match;
    assert!(strand.widest() as u64 <= (b + 1) * (a - 1), "seed {seed}");
    assert!(strand.links() <= most_links, "seed {seed}");
}

fn check(seed: u64, job: &Job, strands: &[Strand; 2]) {
    check_index(seed, job);
    check_listing(seed, job, &strands[..1]);
    check_listing(seed, job, strands);
    for strand in strands {
        check_stopped(seed, job, strand);
        check_bounds(seed, job, strand);
    }
}

#[test]
fn small_jobs_agree_with_the_enumeration_of_all_chains() {
    let (mut tried, mut with_links) = (0, [0, 0]);
    for seed in 1..=9_000 {
        let job = random_job(seed, 7);
        let strands = Strand::both(&job);
        if strands.iter().any(|it| it.swept.matches().len() > 16) {
            continue;
        }
        let strands = strands.map(|it| it.find(true));
        check(seed, &job, &strands);
        tried += 1;
        for (count, strand) in with_links.iter_mut().zip(&strands) {
            *count += u32::from(strand.found.iter().any(|it| it.links > 1));
        }
    }
    assert!(tried > 6_000, "too few jobs: {tried}");
    let enough = with_links.iter().all(|&it| it > 1_000);
    assert!(enough, "too few jobs with links: {with_links:?}");
}

#[test]
fn longer_jobs_agree_with_the_definitions_over_all_pairs() {
    for seed in 10_001..=10_300 {
        let job = random_job(seed, 24);
        let strands = Strand::both(&job).map(|it| it.find(false));
        check(seed, &job, &strands);
    }
}

/// The rule of change request 2 closes no match that was open before, so the
/// listing only shrinks.
#[test]
fn what_is_closed_was_closed_before() {
    let (mut kept, mut gone) = (0, 0);
    for seed in 20_001..=22_000 {
        let job = random_job(seed, 12);
        let matches = job.matches();
        for &at in &matches {
            let (was, is) = (job.was_closed(&matches, at), job.is_closed(&matches, at));
            assert!(was || !is, "seed {seed}: {at:?}");
            kept += u32::from(is);
            gone += u32::from(was && !is);
        }
    }
    assert!(kept > 1_000 && gone > 1_000, "{kept} kept, {gone} gone");
}

/// Change request 3: of two left extensions of one match the one at or beyond
/// the other weighs more. Of two that weigh the same, the one in the smaller
/// column so has the larger row, and the smaller row never decides.
#[test]
fn the_smaller_row_never_decides() {
    let (mut farther, mut tied) = (0, 0);
    for seed in 30_001..=31_000 {
        let job = random_job(seed, 12);
        let found = job.find(false);
        for (one, other) in found.iter().flat_map(|it| job.pairs_before(&found, it.at)) {
            let is_beyond = one.at.1 <= other.at.1;
            let is_tied = one.weight == other.weight;
            assert!(!is_beyond || one.weight < other.weight, "seed {seed}");
            assert!(!is_tied || one.at.1 > other.at.1, "seed {seed}");
            farther += u32::from(is_beyond);
            tied += u32::from(is_tied);
        }
    }
    let enough = farther > 1_000 && tied > 1_000;
    assert!(enough, "{farther} farther, {tied} tied");
}
