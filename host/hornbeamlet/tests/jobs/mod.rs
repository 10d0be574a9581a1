//! Random jobs of many kinds, each the same for the same seed.

use reference::kmers::{count, matches};
use reference::letters::{in_capitals, reverse_complement};
use reference::random::Random;
use reference::Settings;
use std::sync::OnceLock;

const BASES: &[u8] = b"ACGT";
const LETTERS: &[u8] = b"ABCDGHKMNRSTVWY";
/// Neighbours of the letters in the alphabet and in bytes, and the ends.
const NO_LETTERS: &[u8] = b"uefijlopqxzUEFIJLOPQXZ@[`{ -*.0\n\r\t\0\x7f\x80\xc1\xe1\xff";

/// Settings and two sequences.
pub struct Job {
    /// The settings.
    pub settings: Settings,
    /// The first sequence.
    pub first: Vec<u8>,
    /// The second sequence.
    pub second: Vec<u8>,
}

impl Job {
    /// The sequences with their masked letters as the mask setting takes them.
    pub fn swept(&self) -> [Vec<u8>; 2] {
        [&self.first, &self.second].map(|it| in_capitals(self.settings.mask, it))
    }
}

/// A job of at most some hundred letters; one in eight is to be refused.
pub fn small(random: &mut Random) -> Job {
    let longest = random.one_of(&[3, 10, 25, 60, 150]);
    let (first, second) = pair(random, longest);
    let mut job = Job {
        settings: small_settings(random),
        first,
        second,
    };
    if random.chance(15) {
        share_a_hash(random, &mut job, 60, 72);
    }
    if random.chance(5) {
        lengthen(random, &mut job);
    }
    turn(random, &mut job);
    mask(random, &mut job);
    if random.chance(70) {
        damage(random, &mut job);
    }
    if random.chance(70) {
        spoil(random, &mut job.settings);
    }
    job
}

/// A job of up to 16,384 letters and sometimes one more, with as many matches
/// as the reference can take in some tenths of a second.
pub fn long(random: &mut Random) -> Job {
    let longest = random.one_of(&[600, 2_000, 5_000, 16_384, 16_385]);
    let (first, second) = pair(random, longest);
    let mut job = Job {
        settings: long_settings(random),
        first,
        second,
    };
    if random.chance(100) {
        share_a_hash(random, &mut job, 64, 1_100);
    }
    turn(random, &mut job);
    mask(random, &mut job);
    lighten(&mut job);
    if random.chance(30) {
        damage(random, &mut job);
    }
    job
}

/// A job of two letters and a wide gap bound: most matches are left extensions of
/// hundreds of others, of A and T on either strand. Some break where letters are
/// masked.
pub fn dense(random: &mut Random) -> Job {
    let letters = random.one_of(&[b"AC", b"AT"]);
    let [first, second] = [(); 2].map(|()| {
        let length = random.between(200, 1_000);
        random.letters(letters, length)
    });
    let settings = Settings {
        k: random.one_of(&[4, 5, 6, 8]),
        b: random.one_of(&[16, 64, 256, 1_024]),
        a: 1_024,
        m: random.one_of(&[0, 20, 100]),
        strand: random.one_of(&[0, 1]),
        mask: random.one_of(&[0, 1]),
    };
    let mut job = Job {
        settings,
        first,
        second,
    };
    mask(random, &mut job);
    job
}

/// A job of few k-mers, with a repeat cap that is the total of one of them, one
/// less or one more: the others have totals on either side of it.
pub fn capped(random: &mut Random) -> Job {
    let letters = random.one_of(&[b"AC".as_slice(), b"ACG", b"ACGN"]);
    let k = random.between(1, 3);
    let [first, second] = [(); 2].map(|()| {
        let length = random.between(k, 80);
        random.letters(letters, length)
    });
    let settings = Settings {
        k: k as u32,
        b: random.between(1, 12) as u32,
        a: 1,
        m: random.one_of(&[0, 0, 5]),
        strand: random.one_of(&[0, 1]),
        mask: random.one_of(&[0, 1]),
    };
    let mut job = Job {
        settings,
        first,
        second,
    };
    mask(random, &mut job);
    let swept = job.swept();
    let place = random.between(0, swept[0].len() - k);
    let [rows, columns] = totals(&swept[0][place..place + k], &swept);
    job.settings.a = (rows + columns + random.below(3) - 1).max(1) as u32;
    job
}

/// How often a k-mer occurs in each of two sequences.
pub fn totals(kmer: &[u8], sequences: &[Vec<u8>; 2]) -> [usize; 2] {
    sequences.each_ref().map(|sequence| {
        let places = sequence.windows(kmer.len());
        places.filter(|it| *it == kmer).count()
    })
}

/// Two sequences that have something in common.
fn pair(random: &mut Random, longest: usize) -> (Vec<u8>, Vec<u8>) {
    match random.below(10) {
        0 | 1 => unrelated(random, longest),
        2 | 3 => repeats(random, longest),
        4 => rearranged(random, longest),
        5 => {
            let (first, second) = related(random, longest);
            (with_iupac(random, first), with_iupac(random, second))
        }
        _ => related(random, longest),
    }
}

/// Letters of a small alphabet: matches by chance alone, and many of them.
fn unrelated(random: &mut Random, longest: usize) -> (Vec<u8>, Vec<u8>) {
    let alphabet = random.one_of(&[b"A".as_slice(), b"AC", b"ACN", BASES, LETTERS]);
    let (first, second) = (random.between(0, longest), random.between(0, longest));
    (
        random.letters(alphabet, first),
        random.letters(alphabet, second),
    )
}

/// Copies of one unit, each a little different.
fn repeats(random: &mut Random, longest: usize) -> (Vec<u8>, Vec<u8>) {
    let length = random.between(1, 2 + longest / 5);
    let unit = random.letters(BASES, length);
    let differing = random.one_of(&[0, 10, 50, 150]);
    let mut copies = |letters: usize| {
        let mut sequence = Vec::new();
        while sequence.len() < letters {
            sequence.extend(random.mutated(&unit, differing));
            // A unit can lose all its letters.
            sequence.push(b'A');
        }
        sequence.truncate(letters);
        sequence
    };
    (copies(longest), copies(longest - longest / 4))
}

/// Blocks of the one in the reverse order in the other: chains break, and most
/// matches have nothing to their upper left.
fn rearranged(random: &mut Random, longest: usize) -> (Vec<u8>, Vec<u8>) {
    let first = random.letters(BASES, longest);
    let block = random.between(1, 1 + longest / 3);
    let second = first.chunks(block).rev().flatten().copied().collect();
    (first, second)
}

/// A random sequence and a mutated copy, sometimes with a stretch lost.
fn related(random: &mut Random, longest: usize) -> (Vec<u8>, Vec<u8>) {
    let length = random.between(longest / 2, longest);
    let alphabet = random.one_of(&[b"AC".as_slice(), BASES, BASES, BASES]);
    let first = random.letters(alphabet, length);
    let differing = random.one_of(&[0, 10, 50, 100, 200]);
    let mut second = random.mutated(&first, differing);
    second.truncate(longest);
    if random.chance(300) && !second.is_empty() {
        let from = random.below(second.len());
        let to = random.between(from, second.len());
        second.drain(from..to);
    }
    (first, second)
}

fn with_iupac(random: &mut Random, mut sequence: Vec<u8>) -> Vec<u8> {
    let share = random.one_of(&[5, 30, 200]);
    for letter in &mut sequence {
        if random.chance(share) {
            *letter = random.one_of(LETTERS);
        }
    }
    sequence
}

/// Half of the second sequences are turned round, and a fifth in part: what they
/// share with the first is found on the reverse strand, or on both.
fn turn(random: &mut Random, job: &mut Job) {
    let last = job.second.len();
    let from = random.between(0, last);
    let part = from..random.between(from, last);
    match random.below(10) {
        0 | 1 => {
            let turned = reverse_complement(&job.second[part.clone()]);
            job.second.splice(part, turned);
        }
        2..=6 => job.second = reverse_complement(&job.second),
        _ => {}
    }
}

/// Half of the jobs have masked letters: a share of each sequence, in stretches as
/// repeats are delivered or each by itself.
fn mask(random: &mut Random, job: &mut Job) {
    if random.chance(500) {
        return;
    }
    for sequence in [&mut job.first, &mut job.second] {
        let share = random.one_of(&[0, 5, 50, 200, 500, 1_000]);
        let longest = random.one_of(&[1, 1, 5, 40]);
        let mut rest = sequence.as_mut_slice();
        while !rest.is_empty() {
            let length = random.between(1, longest.min(rest.len()));
            let (stretch, behind) = rest.split_at_mut(length);
            if random.chance(share) {
                stretch.make_ascii_lowercase();
            }
            rest = behind;
        }
    }
}

/// One sequence as long as is accepted or a little longer, or both.
fn lengthen(random: &mut Random, job: &mut Job) {
    let length = random.one_of(&[16_384, 16_385, 16_400]);
    let which = random.between(1, 3);
    if which != 2 {
        job.first.resize(length, b'N');
    }
    if which != 1 {
        job.second.resize(length, b'N');
    }
}

/// One to three letters that are none, anywhere or at an end.
fn damage(random: &mut Random, job: &mut Job) {
    for _ in 0..random.between(1, 3) {
        let sequence = if random.chance(500) {
            &mut job.first
        } else {
            &mut job.second
        };
        if let Some(last) = sequence.len().checked_sub(1) {
            let anywhere = random.between(0, last);
            let at = random.one_of(&[0, anywhere, anywhere, last]);
            sequence[at] = random.one_of(NO_LETTERS);
        }
    }
}

fn small_settings(random: &mut Random) -> Settings {
    let k = random.one_of(&[1, 2, 3, 4, 5, 6, 8, 11]);
    let k = if random.chance(30) { 31 } else { k };
    let near = random.between(1, 12) as u32;
    let far = random.between(1, 80) as u32;
    let few = random.between(1, 12) as u32;
    let many = random.between(1, 200) as u32;
    let span = random.between(0, 30) as u32;
    Settings {
        k,
        b: random.one_of(&[1, near, near, far, 1_024]),
        a: random.one_of(&[1, 2, few, many, many, 1_024]),
        m: random.one_of(&[0, 0, span, span, 16_384]),
        strand: random.one_of(&[0, 1, 1]),
        mask: random.one_of(&[0, 1]),
    }
}

fn long_settings(random: &mut Random) -> Settings {
    let near = random.between(1, 100) as u32;
    let far = random.between(1, 1_024) as u32;
    let few = random.between(2, 40) as u32;
    let span = random.between(0, 400) as u32;
    Settings {
        k: random.one_of(&[5, 7, 9, 11, 13, 16, 21, 31]),
        b: random.one_of(&[near, far, 300, 1_024]),
        a: random.one_of(&[2, few, few, 200, 1_024]),
        m: random.one_of(&[0, span, 100]),
        strand: random.one_of(&[0, 1, 1]),
        mask: random.one_of(&[0, 1]),
    }
}

/// One setting or more outside the table, just so or by far.
fn spoil(random: &mut Random, settings: &mut Settings) {
    for _ in 0..random.between(1, 2) {
        match random.below(6) {
            0 => settings.k = random.one_of(&[0, 32, 33, 64, u32::MAX]),
            1 => settings.b = random.one_of(&[0, 1_025, u32::MAX]),
            2 => settings.a = random.one_of(&[0, 1_025, u32::MAX]),
            3 => settings.m = random.one_of(&[16_385, u32::MAX]),
            4 => settings.strand = random.one_of(&[2, 3, 256, 257, u32::MAX]),
            _ => settings.mask = random.one_of(&[2, 3, 256, 257, u32::MAX]),
        }
    }
}

/// Lowers a and then b until the reference's walk over rows stays short on both
/// strands.
fn lighten(job: &mut Job) {
    const MOST_MATCHES: u64 = 100_000;
    const MOST_STEPS: u64 = 5_000_000;
    let Settings { k, a, .. } = job.settings;
    let mut a = a;
    let [first, second] = job.swept();
    let turned = reverse_complement(&second);
    let on = |a: u32, second: &[u8]| count(&matches(k as usize, a as usize, &first, second));
    let found = |a: u32| on(a, &second) + on(a, &turned);
    while found(a) > MOST_MATCHES {
        a /= 2;
    }
    job.settings.a = a;
    let most = MOST_STEPS / found(a).max(1);
    job.settings.b = job.settings.b.min(most.max(1) as u32);
}

/// The length of the k-mers that share a hash.
const SHARING: u32 = 13;

/// Sequences of k-mers that the library's table puts into one list, each k-mer
/// followed by an N. With more than 64 of them in the second sequence, as it
/// stands or turned round, the library gives up its table and sorts instead,
/// which no random sequence makes it do.
fn share_a_hash(random: &mut Random, job: &mut Job, least: usize, most: usize) {
    let mut kmers = sharing_kmers()[..random.between(least, most)].to_vec();
    job.settings.k = SHARING;
    job.second = kmers.concat();
    random.shuffle(&mut kmers);
    kmers.truncate(random.between(1, kmers.len()));
    let again = kmers[..random.between(0, kmers.len())].concat();
    job.first = [kmers.concat(), again].concat();
    job.first.truncate(16_384);
}

/// 1,100 k-mers of one hash, each with its N. A code is one more than two bits
/// a base, the first base highest; the hash is written after the library's.
fn sharing_kmers() -> &'static [Vec<u8>] {
    static FOUND: OnceLock<Vec<Vec<u8>>> = OnceLock::new();
    FOUND.get_or_init(|| {
        let all = 0..1 << (2 * SHARING);
        let sharing = all.filter(|packed| hash(packed + 1) == 0);
        sharing.take(1_100).map(kmer_and_n).collect()
    })
}

fn hash(code: u64) -> u64 {
    (code * 1_640_531_527) / 131_072 % 32_768
}

fn kmer_and_n(packed: u64) -> Vec<u8> {
    let shifts = (0..SHARING).rev().map(|base| 2 * base);
    let mut letters: Vec<u8> = shifts
        .map(|shift| BASES[(packed >> shift & 3) as usize])
        .collect();
    letters.push(b'N');
    letters
}
