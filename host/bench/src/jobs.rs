//! The jobs that are measured, the same in every run.

use hornbeamlet::{Settings, Strands, LONGEST};
use reference::random::Random;
use std::collections::HashMap;

/// The kinds of ordinary pairs, and how many letters of a thousand differ.
pub const KINDS: [(&str, usize); 4] = [("1 %", 10), ("5 %", 50), ("10 %", 100), ("repeats", 10)];

/// A job and its name in the tables.
#[derive(Clone)]
pub struct Job {
    /// Its name.
    pub name: String,
    /// The settings.
    pub settings: Settings,
    /// The first sequence.
    pub first: Vec<u8>,
    /// The second sequence.
    pub second: Vec<u8>,
}

impl Job {
    /// The share of the first sequence's places whose k-mer occurs more than so
    /// many times in both sequences together, the second as it stands.
    pub fn share_above(&self, total: u32) -> f64 {
        let k = self.settings.k as usize;
        let totals = totals(&[&self.first, &self.second], k);
        let above = |kmer: &&[u8]| totals.get(kmer).is_some_and(|&occurs| occurs > total);
        let places = self.first.windows(k);
        places.clone().filter(above).count() as f64 / places.len() as f64
    }
}

/// How often each k-mer occurs in all of the sequences together.
fn totals<'a>(sequences: &[&'a [u8]], k: usize) -> HashMap<&'a [u8], u32> {
    let words = sequences.iter().flat_map(|sequence| sequence.windows(k));
    let mut totals = HashMap::new();
    for kmer in words.filter(|word| !word.contains(&b'N')) {
        *totals.entry(kmer).or_default() += 1;
    }
    totals
}

/// The settings of the command `annex` where none are given, but on the forward
/// strand alone: a job over both is two sweeps, and has a line of its own.
fn ordinary_settings() -> Settings {
    Settings {
        strand: Strands::Forward,
        ..Settings::default()
    }
}

/// The jobs on which two libraries are compared, in groups to be measured each
/// on its own: those of the last take a second, and all others far less.
pub fn compared() -> [Vec<Job>; 2] {
    let [short, long] = worst_by_time();
    [[longest(), over_the_cap(), short].concat(), long]
}

/// The jobs whose time is told stage by stage, grouped in the same way.
pub fn staged() -> [Vec<Job>; 2] {
    let [short, long] = worst_by_time();
    [[longest(), short].concat(), long]
}

/// The worst jobs, those that take a second apart from all others: two letters
/// have few k-mers, and so the most matches.
fn worst_by_time() -> [Vec<Job>; 2] {
    let of_two_letters = |job: &Job| job.first.iter().all(|letter| b"AC".contains(letter));
    let (long, short) = worst().into_iter().partition(of_two_letters);
    [short, long]
}

/// Pairs of three lengths, and of every kind at each length: a sequence and a
/// changed copy of it. The longest of the first kind comes once more at the end,
/// over both strands.
pub fn ordinary() -> Vec<Job> {
    let mut random = Random::new(1);
    let mut jobs = Vec::new();
    for (letters, shown) in [(1_024, "1,024"), (4_096, "4,096"), (LONGEST, "16,384")] {
        for (kind, differing) in KINDS {
            let first = match kind {
                "repeats" => repeat_rich(&mut random, letters, &OF_EIGHT),
                _ => random.letters(b"ACGT", letters),
            };
            let name = format!("{shown}, {kind}");
            jobs.push(with_a_copy(&mut random, name, first, differing));
        }
    }
    jobs.push(over_both_strands(&jobs[jobs.len() - KINDS.len()]));
    jobs
}

/// The jobs that are compared over an index too: the ordinary ones, and one whose
/// k-mers the library has to sort where it has no index.
pub fn indexed() -> Vec<Job> {
    let sorted = worst().pop();
    ordinary().into_iter().chain(sorted).collect()
}

/// The ordinary jobs of the greatest length, the one over both strands included.
fn longest() -> Vec<Job> {
    ordinary().split_off(2 * KINDS.len())
}

/// A sequence and a copy of it in which so many letters of a thousand differ.
fn with_a_copy(random: &mut Random, name: String, first: Vec<u8>, differing: usize) -> Job {
    let mut second = random.mutated(&first, differing);
    second.truncate(LONGEST);
    Job {
        name,
        settings: ordinary_settings(),
        first,
        second,
    }
}

fn over_both_strands(job: &Job) -> Job {
    let mut job = job.clone();
    job.name += ", both strands";
    job.settings.strand = Strands::Both;
    job
}

/// Repeats: families of nearly equal copies, strewn among letters that occur
/// once.
struct Families {
    /// How many copies a family has.
    copies: usize,
    /// How many letters the copied unit has.
    unit: usize,
    /// How many letters of a thousand differ in a copy.
    differing: usize,
    /// For each copy, how many letters that occur once.
    once: usize,
}

/// Half of the letters in repeats. A k-mer of theirs occurs some twelve times in
/// a sequence and its copy together.
const OF_EIGHT: Families = Families {
    copies: 8,
    unit: 64,
    differing: 20,
    once: 64,
};

/// Three quarters of the letters in repeats. A k-mer of theirs occurs over a
/// hundred times in a sequence and its copy together.
const OF_SIXTY_FOUR: Families = Families {
    copies: 64,
    unit: 96,
    differing: 10,
    once: 32,
};

fn repeat_rich(random: &mut Random, letters: usize, families: &Families) -> Vec<u8> {
    let of_a_family = families.copies * (families.unit + families.once);
    let mut pieces = Vec::new();
    for _ in 0..letters / of_a_family {
        let unit = random.letters(b"ACGT", families.unit);
        for _ in 0..families.copies {
            pieces.push(random.mutated(&unit, families.differing));
            pieces.push(random.letters(b"ACGT", families.once));
        }
    }
    random.shuffle(&mut pieces);
    let mut sequence = pieces.concat();
    sequence.resize(letters, b'A');
    sequence
}

/// Pairs with k-mers over the repeat cap, which no ordinary pair has: the longest
/// of those with repeats once more under a smaller cap, a pair as rich in repeats
/// as sequences get, and one that has no k-mer under the cap, so that there is no
/// match at all.
pub fn over_the_cap() -> Vec<Job> {
    let mut random = Random::new(3);
    let mut repeats = longest().swap_remove(KINDS.len() - 1);
    repeats.name += ", a 8";
    repeats.settings.a = 8;
    let first = repeat_rich(&mut random, LONGEST, &OF_SIXTY_FOUR);
    let name = "16,384, families of 64".to_string();
    let families = with_a_copy(&mut random, name, first, 10);
    let unused = Job {
        name: "16,384, all over the cap".to_string(),
        settings: Settings {
            k: 5,
            ..ordinary_settings()
        },
        first: all_words(&mut random, b"AC"),
        second: all_words(&mut random, b"AC"),
    };
    vec![repeats, families, unused]
}

/// Jobs that ask for as much room or time as any that is accepted, or nearly.
pub fn worst() -> Vec<Job> {
    let mut random = Random::new(2);
    let strewn = all_words(&mut random, b"AC");
    let others = all_words(&mut random, b"AC");
    let cycle = de_bruijn_cycle().repeat(LONGEST / 32);
    let (falling, rising) = antidiagonal();
    let (sharing, shuffled) = sharing_a_hash(&mut random);
    let strewn_of_four = all_words(&mut random, b"ACGT");
    vec![
        worst_job("32 k-mers, random order", 5, strewn.clone(), others),
        and_reversed("32 k-mers, second reversed", strewn),
        worst_job("32 k-mers in cycles", 5, cycle.clone(), cycle.clone()),
        and_reversed("cycles, second reversed", cycle),
        and_reversed("1,024 k-mers, second reversed", strewn_of_four),
        worst_job("antidiagonal", 6, falling, rising),
        worst_job("k-mers that share a hash", 13, sharing, shuffled),
    ]
}

/// A sequence of words of five letters, and the same read from its end.
fn and_reversed(name: &str, first: Vec<u8>) -> Job {
    let reversed = first.iter().rev().copied().collect();
    worst_job(name, 5, first, reversed)
}

fn worst_job(name: &str, k: u32, first: Vec<u8>, second: Vec<u8>) -> Job {
    Job {
        name: name.to_string(),
        settings: Settings {
            k,
            b: 1_024,
            a: 1_024,
            m: 0,
            ..ordinary_settings()
        },
        first,
        second,
    }
}

/// 16,384 letters of an alphabet that hold each of its words of five letters
/// equally often, in random order: of two letters the 32 words 512 times each, of
/// four the 1,024 words 16 times. Two sequences of two letters hold each word
/// 1,024 times, just what the repeat cap allows.
///
/// It is a walk through all edges of a graph: at each word of four letters,
/// equally many edges append each letter. As many edges lead in as lead out, so a
/// walk that takes them in any order closes where it began, and walks begun at
/// edges left over are put in between (Hierholzer's way).
fn all_words(random: &mut Random, alphabet: &[u8]) -> Vec<u8> {
    let letters = alphabet.len();
    let words_of_four = letters.pow(4);
    let times = LONGEST / (letters * words_of_four);
    let leaving: Vec<usize> = (0..letters * times).map(|edge| edge / times).collect();
    let mut edges = vec![leaving; words_of_four];
    for leaving in &mut edges {
        random.shuffle(leaving);
    }
    let mut open = vec![(0, 0)];
    let mut walk = Vec::with_capacity(LONGEST);
    while let Some(&(word, appended)) = open.last() {
        match edges[word].pop() {
            Some(letter) => open.push(((word * letters + letter) % words_of_four, letter)),
            None => {
                walk.push(alphabet[appended]);
                open.pop();
            }
        }
    }
    walk.reverse();
    // The first of these is where the walk began, not an edge.
    walk.split_off(1)
}

/// 32 letters that hold, read in a circle, each word of five letters once.
fn de_bruijn_cycle() -> Vec<u8> {
    b"AAAAACAAACCAACACAACCCACACCACCCCC".to_vec()
}

/// k-mers that each occur once in either sequence, first to last in the one and
/// last to first in the other, an N after each: no match has any other to its
/// upper left, so every search for one is in vain.
fn antidiagonal() -> (Vec<u8>, Vec<u8>) {
    let kmers: Vec<Vec<u8>> = (0..LONGEST as u64 / 7)
        .map(|packed| kmer_and_n(packed, 6))
        .collect();
    let reversed: Vec<Vec<u8>> = kmers.iter().rev().cloned().collect();
    (kmers.concat(), reversed.concat())
}

/// k-mers that the library's table puts into one list, an N after each, so that
/// it has to sort instead. A code is the packed k-mer and 1; the hash is written
/// after the library's.
fn sharing_a_hash(random: &mut Random) -> (Vec<u8>, Vec<u8>) {
    let hash = |code: u64| (code * 1_640_531_527) / 131_072 % 32_768;
    let sharing = (0..1 << 26).filter(|packed| hash(packed + 1) == 0);
    let kmers = sharing
        .take(LONGEST / 14)
        .map(|packed| kmer_and_n(packed, 13));
    let kmers: Vec<Vec<u8>> = kmers.collect();
    let mut shuffled = kmers.clone();
    random.shuffle(&mut shuffled);
    (kmers.concat(), shuffled.concat())
}

/// The k-mer of a packed number, two bits a base, with an N after it.
fn kmer_and_n(packed: u64, k: u32) -> Vec<u8> {
    let shifts = (0..k).rev().map(|base| 2 * base);
    let bases = shifts.map(|shift| b"ACGT"[(packed >> shift & 3) as usize]);
    bases.chain([b'N']).collect()
}

#[cfg(test)]
mod tests {
    use super::*;

    #[test]
    fn the_worst_jobs_are_as_their_names_say() {
        for job in worst() {
            assert!(job.first.len() <= LONGEST && job.second.len() <= LONGEST);
            if job.settings.k == 5 {
                let of_four_letters = job.name.starts_with("1,024");
                holds_all_words(&job, if of_four_letters { 1_024 } else { 32 });
            }
            if job.name.ends_with("second reversed") {
                assert!(job.first.iter().rev().eq(&job.second), "{}", job.name);
            }
        }
    }

    /// So many words in either sequence, each equally often but for the four that
    /// a walk misses which does not end where it began.
    fn holds_all_words(job: &Job, words: usize) {
        let each = (LONGEST / words) as u32;
        for sequence in [&job.first, &job.second] {
            let totals = totals(&[sequence], 5);
            assert_eq!(totals.len(), words, "{}", job.name);
            assert!(totals
                .values()
                .all(|total| (each - 4..=each).contains(total)));
        }
    }

    #[test]
    fn the_worst_jobs_of_two_letters_are_those_that_take_a_second() {
        let [short, long] = worst_by_time();
        let names: Vec<&str> = short.iter().map(|job| job.name.as_str()).collect();
        let expected = [
            "1,024 k-mers, second reversed",
            "antidiagonal",
            "k-mers that share a hash",
        ];
        assert_eq!(names, expected);
        assert_eq!(short.len() + long.len(), worst().len());
    }

    #[test]
    fn the_last_of_the_jobs_over_an_index_makes_the_library_sort() {
        let last = indexed().pop().map(|job| job.name);
        assert_eq!(last.as_deref(), Some("k-mers that share a hash"));
    }

    #[test]
    fn no_ordinary_job_is_over_the_cap() {
        for job in ordinary() {
            assert_eq!(job.share_above(job.settings.a), 0.0, "{}", job.name);
        }
    }

    /// The share of a sequence's places whose k-mer lies whole in a copied unit.
    fn share_in_units(job: &Job, families: &Families) -> f64 {
        let places = families.unit + 1 - job.settings.k as usize;
        places as f64 / (families.unit + families.once) as f64
    }

    /// Of the k-mers that lie whole in a repeat, those at a changed letter are not
    /// over the cap.
    #[test]
    fn the_jobs_over_the_cap_are_as_their_names_say() {
        let jobs = over_the_cap();
        let names: Vec<&str> = jobs.iter().map(|job| job.name.as_str()).collect();
        let kinds = ["repeats, a 8", "families of 64", "all over the cap"];
        assert_eq!(names, kinds.map(|kind| format!("16,384, {kind}")));
        for job in &jobs {
            assert!(job.first.len() == LONGEST && job.second.len() <= LONGEST);
        }
        let [repeats, families, unused] = [0, 1, 2].map(|at| &jobs[at]);
        let in_units = share_in_units(repeats, &OF_EIGHT);
        assert!((0.7..0.8).contains(&(repeats.share_above(8) / in_units)));
        let in_units = share_in_units(families, &OF_SIXTY_FOUR);
        assert!((0.9..1.0).contains(&(families.share_above(20) / in_units)));
        assert!((0.8..0.9).contains(&(families.share_above(100) / in_units)));
        let totals = totals(&[&unused.first, &unused.second], 5);
        assert!(totals.len() == 32 && totals.values().all(|&total| total > 1_000));
    }
}
