//! The index by hand: what is built, which slices are refused as none of the
//! sequence's own, and the sweeps over an index beside the plain ones, in answer and
//! in every number of both rooms.

#![forbid(unsafe_code)]

mod common;

use common::Proved;
use hornbeamlet::{with_library, Masked, Refusal, BOTH, FORWARD, LONGEST};
use hornbeamlet::{MASKED_BREAK, MASKED_FORM, RECORD};
use reference::calls::{Calls, IndexCalls, Over, Reference};
use reference::letters::reverse_complement;
use reference::random::Random;
use reference::{Answer, Settings};
use std::fmt::{self, Debug, Formatter};

/// What a room holds before a call.
const STALE: u32 = 77;
/// It has AC at places 1 and 5, CA at 4, GT at 8 and TA at 9.
const SECOND: &[u8] = b"ACNCACNGTA";
/// So this is its index with k 2.
const INDEX: [u32; 5] = [1, 5, 4, 8, 9];

fn settings(k: u32) -> Settings {
    Settings {
        k,
        b: 12,
        a: 40,
        m: 0,
        strand: BOTH,
        mask: MASKED_FORM,
    }
}

/// The answer to an index of so many places.
fn indexed(places: u64) -> Answer {
    Answer {
        number: 0,
        sequence: 0,
        detail: 0,
        listed: places,
        matches: 0,
        widest: 0,
        links: 0,
    }
}

fn refused(number: u64, sequence: u64, detail: u64) -> Answer {
    Answer {
        number,
        sequence,
        detail,
        ..indexed(0)
    }
}

/// What is built in a slice of so many numbers that were others before.
fn built(
    calls: &impl IndexCalls,
    (k, mask): (u32, u32),
    second: &[u8],
    numbers: usize,
) -> (Answer, Vec<u32>) {
    let mut index = vec![STALE; numbers];
    let answer = calls.index(k, mask, second, &mut index);
    (answer, index)
}

/// The index alone, as it is built in a slice that is long enough.
fn index_by(calls: &impl IndexCalls, taken: (u32, u32), second: &[u8]) -> Vec<u32> {
    let (answer, mut index) = built(calls, taken, second, second.len());
    assert_eq!(answer, indexed(answer.listed));
    index.truncate(answer.listed as usize);
    index
}

#[test]
fn an_index_in_a_slice_too_short_just_as_long_and_longer() {
    with_library(|library| {
        let run = |numbers| built(&Proved(library), (2, MASKED_FORM), SECOND, numbers);
        for short in 0..INDEX.len() {
            assert_eq!(run(short), (refused(11, 0, 5), vec![0; short]));
        }
        assert_eq!(run(5), (indexed(5), INDEX.to_vec()));
        assert_eq!(run(6), (indexed(5), [&INDEX[..], &[0]].concat()));
        assert_eq!(run(1_000).1[INDEX.len()..], [0; 995]);
    });
}

#[test]
fn masked_letters_have_places_in_an_index_or_none() {
    with_library(|library| {
        let run = |mask, numbers| built(&Proved(library), (2, mask), b"caCAacaA", numbers);
        let formed = vec![4, 7, 2, 5, 1, 3, 6];
        assert_eq!(run(MASKED_FORM, 7), (indexed(7), formed));
        assert_eq!(run(MASKED_BREAK, 2), (indexed(1), vec![3, 0]));
        assert_eq!(run(MASKED_BREAK, 0), (refused(11, 0, 1), vec![]));
    });
}

/// One kind of k-mer has its places in their order; those of 31 letters each fill a
/// code, from its lowest bits to its highest.
#[test]
fn the_longest_sequences_have_an_index() {
    with_library(|library| {
        for (letter, k) in [(b'A', 1), (b'T', 31), (b'A', 31), (b'T', 1)] {
            let index = index_by(&Proved(library), (k, MASKED_FORM), &[letter; LONGEST]);
            assert!(index.into_iter().eq(1..=(LONGEST as u32 + 1 - k)));
        }
        let falling = [vec![b'T'; 31], vec![b'G'; 31], vec![b'A'; 31]].concat();
        let index = index_by(&Proved(library), (31, MASKED_FORM), &falling);
        assert_eq!([&index[..1], &index[62..]].concat(), [63, 1]);
        assert_eq!(index, index_by(&Reference, (31, MASKED_FORM), &falling));
    });
}

/// Sequences without a k-mer: shorter than k, or broken at every place.
const WITHOUT_KMERS: [(u32, u32, &[u8]); 5] = [
    (31, MASKED_FORM, &[b'A'; 30]),
    (2, MASKED_FORM, b"ANRA"),
    (2, MASKED_BREAK, b"acgtA"),
    (1, MASKED_FORM, b""),
    (1, MASKED_BREAK, b"Nacgtn"),
];

#[test]
fn a_sequence_without_kmers_has_an_empty_index() {
    with_library(|library| {
        for (k, mask, second) in WITHOUT_KMERS {
            let run = |numbers| built(&Proved(library), (k, mask), second, numbers);
            assert_eq!(run(0), (indexed(0), vec![]));
            assert_eq!(run(3), (indexed(0), vec![0; 3]));
        }
    });
}

/// Each check comes before all that follow it, and before that of the slice.
#[test]
fn what_is_refused_leaves_the_slice_as_it_was() {
    let [fits, over] = [LONGEST, LONGEST + 1].map(|letters| {
        let mut second = vec![b'A'; letters];
        second[LONGEST - 1] = b'u';
        second
    });
    let cases: [(u32, u32, &[u8], Answer); 8] = [
        (0, 2, &over, refused(1, 0, 0)),
        (32, 2, &over, refused(1, 0, 0)),
        (u32::MAX, 2, &over, refused(1, 0, 0)),
        (1, 2, &over, refused(10, 0, 0)),
        (31, u32::MAX, &over, refused(10, 0, 0)),
        (1, MASKED_BREAK, &over, refused(5, 2, 0)),
        (1, MASKED_FORM, &fits, refused(6, 2, 16_384)),
        (2, MASKED_FORM, b"ACGTuACGu", refused(6, 2, 5)),
    ];
    with_library(|library| {
        for (k, mask, second, refusal) in cases {
            for numbers in [0, 4, 20_000] {
                let given = built(&Proved(library), (k, mask), second, numbers);
                assert_eq!(given, (refusal, vec![STALE; numbers]));
            }
        }
    });
}

/// Two sequences and the settings that they are compared with.
#[derive(Clone)]
struct Pair {
    settings: Settings,
    first: Vec<u8>,
    second: Vec<u8>,
}

/// An answer, and the rooms after it.
type Swept = (Answer, Vec<Vec<u32>>);

impl Pair {
    fn new(settings: Settings, first: &[u8], second: &[u8]) -> Pair {
        Pair {
            settings,
            first: first.to_vec(),
            second: second.to_vec(),
        }
    }

    /// The pair forward, and on the other strand: over both or reverse.
    fn by_strand(&self) -> [Pair; 2] {
        [FORWARD, BOTH].map(|strand| {
            let mut pair = self.clone();
            pair.settings.strand = strand;
            pair
        })
    }

    /// What indices of its second sequence are built for.
    fn taken(&self) -> (u32, u32) {
        (self.settings.k, self.settings.mask)
    }

    /// `compare` in rooms of so many numbers.
    fn compared(&self, calls: &impl Calls, rooms: [usize; 2]) -> Swept {
        let [mut work, mut list] = rooms.map(|numbers| vec![STALE; numbers]);
        let Pair { first, second, .. } = self;
        let answer = calls.compare(self.settings, first, second, &mut work, &mut list);
        (answer, vec![work, list])
    }

    /// `stopped` at a row, in work room of so many numbers.
    fn stopped(&self, calls: &impl Calls, numbers: usize, row: u32) -> Swept {
        let mut work = vec![STALE; numbers];
        let answer = calls.stopped(self.settings, &self.first, &self.second, &mut work, row);
        (answer, vec![work])
    }

    /// The comparison in rooms that are enough and that are short in one way or
    /// another, and the stopped sweep at these rows, all by either strand setting.
    fn swept(&self, calls: &impl Calls, rows: &[u32]) -> Vec<Swept> {
        let swept = self.by_strand().into_iter().flat_map(|pair| {
            let needed = calls.need(pair.settings, &pair.first, &pair.second) as usize * RECORD;
            let rooms = [[needed, 3_000], [needed + 9, 5], [needed.max(1) - 1, 6]];
            let compared = rooms.map(|rooms| pair.compared(calls, rooms));
            let stopped = rows.iter().map(|&row| pair.stopped(calls, needed, row));
            compared.into_iter().chain(stopped).collect::<Vec<Swept>>()
        });
        swept.collect()
    }

    /// All rows, and two that there are not.
    fn every_row(&self) -> Vec<u32> {
        (0..=self.first.len() as u32 + 1).collect()
    }

    /// Over its index, whatever stands behind that, the pair gives what it gives
    /// without, which is what the separate program gives.
    fn agrees(&self, rows: &[u32]) {
        let expected = self.swept(&Reference, rows);
        let index = index_by(&Reference, self.taken(), &self.second);
        with_library(|library| {
            let calls = &Proved(library);
            assert!(self.swept(calls, rows) == expected, "{self:?}");
            let built = index_by(calls, self.taken(), &self.second);
            assert_eq!(built, index, "{self:?}");
            for behind in [&[][..], &[0], &[u32::MAX, 1, 1]] {
                let index = &[&built, behind].concat();
                let over = self.swept(&Over { calls, index }, rows);
                assert!(over == expected, "{self:?}, {behind:?} behind its index");
            }
        });
    }

    /// Every sweep refuses the slice, in rooms that are enough and that are not, and
    /// leaves them and the slice as they were.
    fn refuses(&self, index: &[u32]) {
        let before = index.to_vec();
        with_library(|library| {
            for pair in self.by_strand() {
                pair.refuses_by(&Over {
                    calls: &Proved(library),
                    index,
                });
            }
        });
        assert_eq!(index, before);
        let calls = &Reference;
        self.refuses_by(&Over { calls, index });
    }

    fn refuses_by<C: IndexCalls>(&self, over: &Over<C>) {
        let compared = [[3_000, 3_000], [7, 3_000], [3_000, 5], [0, 0]];
        let stopped = [(3_000, 1), (3_000, u32::MAX), (7, 0), (0, u32::MAX)];
        let left = |rooms: &[usize]| {
            let rooms = rooms.iter().map(|&numbers| vec![STALE; numbers]);
            (refused(12, 0, 0), rooms.collect())
        };
        for rooms in compared {
            let given = self.compared(over, rooms);
            assert_eq!(given, left(&rooms), "{self:?} {:?}", over.index);
        }
        for (numbers, row) in stopped {
            let given = self.stopped(over, numbers, row);
            assert_eq!(given, left(&[numbers]), "{self:?} {:?}", over.index);
        }
    }
}

impl Debug for Pair {
    fn fmt(&self, to: &mut Formatter) -> fmt::Result {
        let [first, second] = [&self.first, &self.second].map(|it| it.escape_ascii());
        write!(to, "{:?} {first} {second}", self.settings)
    }
}

/// Pairs whose second sequences have k-mers that are equal, neighbours or alone.
fn small_pairs() -> [Pair; 4] {
    let masked = Settings {
        mask: MASKED_BREAK,
        ..settings(3)
    };
    [
        Pair::new(settings(2), b"CACACGTAAC", SECOND),
        Pair::new(settings(1), b"AACA", b"AAAAA"),
        Pair::new(masked, b"ACGTACGTTGCA", b"ACGTTaACGTTGCATT"),
        Pair::new(settings(31), &[b'A'; 33], &[b'A'; 34]),
    ]
}

#[test]
fn small_pairs_over_an_index_at_every_row() {
    for pair in small_pairs() {
        pair.agrees(&pair.every_row());
    }
}

/// Each of these pairs with its index, and where each number of it stands.
fn every_number() -> impl Iterator<Item = (Pair, Vec<u32>, usize)> {
    small_pairs().into_iter().flat_map(|pair| {
        let index = index_by(&Reference, pair.taken(), &pair.second);
        (0..index.len()).map(move |at| (pair.clone(), index.clone(), at))
    })
}

#[test]
fn a_slice_that_ends_early_is_refused() {
    for (pair, index, at) in every_number() {
        pair.refuses(&index[..at]);
    }
}

/// None of the places, one past the last, the place before the right one or behind
/// it, one that stands elsewhere, and what has the same low bits.
#[test]
fn a_slice_with_one_number_changed_is_refused() {
    for (pair, mut index, at) in every_number() {
        let (right, next) = (index[at], index[(at + 1) % index.len()]);
        let near = [right - 1, right + 1, next];
        let far = [0, pair.second.len() as u32 + 1, right + 65_536, u32::MAX];
        for other in [&near[..], &far].concat() {
            index[at] = other;
            pair.refuses(&index);
        }
    }
}

/// Any two: also of equal k-mers, which stand by place.
#[test]
fn a_slice_with_two_numbers_exchanged_is_refused() {
    for (pair, index, at) in every_number() {
        for other in 0..at {
            let mut exchanged = index.clone();
            exchanged.swap(at, other);
            pair.refuses(&exchanged);
        }
    }
}

/// The numbers behind move up or down, and the slice is long enough all the same.
#[test]
fn a_slice_with_a_number_lost_or_written_twice_is_refused() {
    for (pair, index, at) in every_number() {
        let (before, rest) = index.split_at(at);
        pair.refuses(&[before, &rest[1..], &[0, 0]].concat());
        // The last one written twice stands behind the index.
        if rest.len() > 1 {
            pair.refuses(&[before, &rest[..1], rest].concat());
        }
    }
}

/// The same places in another order, or counted from 0 or from 2.
#[test]
fn places_in_another_order_or_counted_otherwise_are_refused() {
    let pair = Pair::new(settings(2), b"CACACGTAAC", SECOND);
    pair.refuses(&[1, 4, 5, 8, 9]);
    pair.refuses(&[9, 8, 4, 5, 1]);
    pair.refuses(&[0, 4, 3, 7, 8]);
    pair.refuses(&[2, 6, 5, 9, 10]);
    pair.refuses(&[0; 10]);
    pair.refuses(&[u32::MAX; 10]);
}

/// Each is the index of something, but not of this sequence with this k and mask
/// setting.
#[test]
fn the_index_of_something_else_is_refused() {
    let (first, second) = (b"ACGTTGCAACGTAGG", b"TTACGTTgcaACGTA");
    let pair = Pair::new(settings(3), first, second);
    let turned = reverse_complement(second);
    let cases: [(u32, u32, &[u8]); 7] = [
        (2, MASKED_FORM, second),
        (4, MASKED_FORM, second),
        (3, MASKED_BREAK, second),
        (3, MASKED_FORM, first),
        (3, MASKED_FORM, &turned),
        (3, MASKED_FORM, &second[1..]),
        (3, MASKED_FORM, b"TTACGTTgcaACGTT"),
    ];
    for (k, mask, sequence) in cases {
        let index = index_by(&Reference, (k, mask), sequence);
        pair.refuses(&index);
        let mut own = pair.clone();
        (own.settings.k, own.settings.mask) = (k, mask);
        own.second = sequence.to_vec();
        own.agrees(&[0, 5, 12]);
    }
}

/// Every check up to that of letters comes before that of the index.
#[test]
fn what_is_refused_before_the_index_is_looked_at() {
    let over = vec![b'A'; LONGEST + 1];
    let with = |change: fn(&mut Settings)| {
        let mut settings = settings(2);
        change(&mut settings);
        Pair::new(settings, b"ACu", SECOND)
    };
    let of = |first: &[u8], second: &[u8]| Pair::new(settings(2), first, second);
    let cases = [
        (with(|it| it.k = 0), refused(1, 0, 0)),
        (with(|it| it.k = 32), refused(1, 0, 0)),
        (with(|it| it.b = 1_025), refused(2, 0, 0)),
        (with(|it| it.a = 0), refused(3, 0, 0)),
        (with(|it| it.m = 16_385), refused(4, 0, 0)),
        (with(|it| it.strand = 2), refused(9, 0, 0)),
        (with(|it| it.mask = 2), refused(10, 0, 0)),
        (of(&over, b"u"), refused(5, 1, 0)),
        (of(b"u", &over), refused(5, 2, 0)),
        (of(b"ACu", b"u"), refused(6, 1, 3)),
        (of(b"ACG", b"ACNCACNGu"), refused(6, 2, 9)),
    ];
    with_library(|library| {
        let calls = &Proved(library);
        for (pair, refusal) in cases {
            for index in [&[][..], &INDEX, &[STALE; 20]] {
                let over = Over { calls, index };
                let rooms = [9, 6].map(|numbers| vec![STALE; numbers]);
                assert_eq!(pair.compared(&over, [9, 6]), (refusal, rooms.to_vec()));
                assert_eq!(pair.stopped(&over, 9, 1), (refusal, rooms[..1].to_vec()));
            }
        }
    });
}

#[test]
fn any_slice_begins_with_the_index_of_a_sequence_without_kmers() {
    for (k, mask, second) in WITHOUT_KMERS {
        let settings = Settings {
            mask,
            ..settings(k)
        };
        let pair = Pair::new(settings, b"ACGTACGTA", second);
        pair.agrees(&pair.every_row());
        with_library(|library| {
            let calls = &Proved(library);
            let plain = pair.swept(calls, &[0, 1]);
            for index in [&[][..], &[0; 4], &[1, 2, 3], &[u32::MAX]] {
                assert!(pair.swept(&Over { calls, index }, &[0, 1]) == plain);
            }
        });
    }
}

/// Every k, and k-mers of the first sequence that come before, among and after those
/// of the second: runs of A and of T stand in either or in both.
#[test]
fn every_k_over_an_index() {
    let mut random = Random::new(1);
    let (low, high) = (vec![b'A'; 34], vec![b'T'; 34]);
    for k in 1..=31 {
        let core = random.letters(b"CG", 60);
        let other = random.mutated(&core, 30);
        let ends = [&low[..], &core, &high].concat();
        for (first, second) in [(&ends, &other), (&other, &ends), (&ends, &ends)] {
            Pair::new(settings(k), first, second).agrees(&[1, 40, 90]);
        }
    }
}

/// 120 k-mers of 31 letters, an N after each: so many letters before and so many
/// behind are one and the same in all, and those in between each k-mer's own.
fn sharing(random: &mut Random, letter: u8, [before, behind]: [usize; 2]) -> Vec<Vec<u8>> {
    let kmer = |_| {
        let own = random.letters(b"ACGT", 31 - before - behind);
        let shared = [before, behind].map(|letters| vec![letter; letters]);
        [&shared[0], &own, &shared[1], &b"N"[..]].concat()
    };
    (0..120).map(kmer).collect()
}

/// Codes that lie badly: all in a narrow range of high bits, the lowest, the highest
/// or another, or all with the same low bits.
#[test]
fn kmers_that_share_most_of_their_letters() {
    let mut random = Random::new(2);
    for shared in [[24, 0], [0, 24], [12, 12], [27, 3]] {
        for letter in *b"ACGT" {
            let mut kmers = sharing(&mut random, letter, shared);
            let second = kmers.concat();
            random.shuffle(&mut kmers);
            let pair = Pair::new(settings(31), &kmers[40..].concat(), &second);
            pair.agrees(&[0, 1, 1_000, 2_530, 2_531]);
        }
    }
}

/// Runs of one letter with few changes, periods, and one letter alone.
#[test]
fn repeats_over_an_index() {
    let mut random = Random::new(3);
    let run = vec![b'A'; 700];
    let mut pairs = vec![
        Pair::new(
            settings(31),
            &random.mutated(&run, 15),
            &random.mutated(&run, 15),
        ),
        Pair::new(settings(31), &run, &random.mutated(&run, 5)),
        Pair::new(settings(7), &[b'T'; 27], &[b'A'; 26]),
    ];
    for unit in [
        &b"AC"[..],
        b"ACGT",
        b"AAAAC",
        b"ACGTTGCA",
        b"AAAAACAAACCAACACAACCCACACCACCCCC",
    ] {
        let [first, second] = [70, 90].map(|letters| unit.repeat(letters / unit.len()));
        pairs.push(Pair::new(settings(5), &first, &second));
        pairs.push(Pair::new(
            settings(31),
            &second,
            &reverse_complement(&first),
        ));
    }
    for pair in &pairs {
        pair.agrees(&[0, 1, 20, 40]);
    }
}

/// An index of as many places as there can be, with k-mers that occur once, over both
/// strands.
#[test]
fn a_pair_of_the_longest_sequences_over_an_index() {
    let mut random = Random::new(4);
    let first = random.letters(b"ACGT", LONGEST);
    let mut second = random.mutated(&first, 20);
    second.resize(LONGEST, b'C');
    second[4_000..9_000].reverse();
    let pair = Pair::new(settings(16), &first, &second);
    pair.agrees(&[10_000]);
    let index = index_by(&Reference, pair.taken(), &second);
    for at in [0, 8_000, index.len() - 2] {
        let mut exchanged = index.clone();
        exchanged.swap(at, at + 1);
        pair.refuses(&exchanged);
    }
    pair.refuses(&index[..index.len() - 1]);
}

#[test]
fn the_wrapper_keeps_an_index_and_lists_over_it() {
    let asked = hornbeamlet::Settings {
        k: 2,
        b: 3,
        a: 9,
        m: 0,
        masked: Masked::Break,
        ..hornbeamlet::Settings::default()
    };
    with_library(|library| {
        let index = library.build_index(asked, SECOND).unwrap();
        assert_eq!(index.places(), INDEX);
        // The last sequence has an index that this one goes on from.
        for second in [SECOND, b"ACNCACNGtA"] {
            for first in [&b"CACACGTAAC"[..], b"GTGTNTAC", b"acac", b""] {
                let listing = library.list(asked, first, second);
                assert_eq!(library.list_indexed(asked, first, second, &index), listing);
            }
        }
        let refusal = |number, sequence, detail| Refusal {
            number,
            sequence,
            detail,
        };
        let other = library.list_indexed(asked, b"ACAC", b"TANCACNGTA", &index);
        assert_eq!(other, Err(refusal(12, 0, 0)));
        let bad = library.list_indexed(asked, b"ACAu", SECOND, &index);
        assert_eq!(bad, Err(refusal(6, 1, 4)));
        let over = vec![b'A'; LONGEST + 1];
        assert_eq!(library.build_index(asked, &over), Err(refusal(5, 2, 0)));
        assert_eq!(library.build_index(asked, b"ACu"), Err(refusal(6, 2, 3)));
        let none = hornbeamlet::Settings { k: 0, ..asked };
        assert_eq!(library.build_index(none, SECOND), Err(refusal(1, 0, 0)));
    });
}
