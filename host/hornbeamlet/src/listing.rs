//! From settings and sequences to a listing, with rooms lent as needed.

use crate::{Answer, Entered, Index, Library, Refusal, Strand, ENTRY, FORWARD, RECORD};

/// Records the work room holds at the first try: 64 kB, enough for an ordinary
/// pair, one full of repeats too. More would cost all of them time, as the library
/// writes zeros over whole rooms.
const FIRST_RECORDS: usize = 2_048;
/// Entries the list room holds at the first try: 12 kB.
const FIRST_ENTRIES: usize = 512;

/// The number of the refusal of work room that is too short, whose detail is how
/// many records are needed.
const WORK_SHORT: u64 = 7;
/// That of list room that is too short, whose detail is how many entries there
/// are.
const LIST_SHORT: u64 = 8;

/// One entry: the chain of a closed match, which goes no further, from its start
/// to its last letters. On either strand the places are those of the sequences
/// as they stand.
#[derive(Clone, Copy, Debug, PartialEq, Eq)]
pub struct Entry {
    /// First place in the first sequence.
    pub first_start: u32,
    /// Last place in the first sequence.
    pub first_end: u32,
    /// First place in the second sequence.
    pub second_start: u32,
    /// Last place in the second sequence.
    pub second_end: u32,
    /// The weight of the chain, its number of matches.
    pub weight: u32,
    /// The strand of the second sequence.
    pub strand: Strand,
}

impl Entry {
    fn new(numbers: &[u32]) -> Entry {
        Entry {
            first_start: numbers[0],
            first_end: numbers[1],
            second_start: numbers[2],
            second_end: numbers[3],
            weight: numbers[4],
            strand: match numbers[5] {
                FORWARD => Strand::Forward,
                _ => Strand::Reverse,
            },
        }
    }

    /// The span in the first sequence, in bases.
    pub fn first_span(&self) -> u32 {
        self.first_end + 1 - self.first_start
    }

    /// The span in the second sequence, in bases.
    pub fn second_span(&self) -> u32 {
        self.second_end + 1 - self.second_start
    }
}

/// A whole listing.
#[derive(Clone, Debug, PartialEq, Eq)]
pub struct Listing {
    /// The answer; its number is 0.
    pub answer: Answer,
    /// The entries in their order, the forward ones first.
    pub entries: Vec<Entry>,
}

impl Library {
    /// The listing of a job. Rooms of some size are lent at first and, where the
    /// library tells that one was short, just as large as it asks for: three calls
    /// at most, and one for an ordinary job. What is refused then is one of 1 to 6,
    /// 9 or 10.
    pub fn list(
        &self,
        settings: impl Into<Entered>,
        first: &[u8],
        second: &[u8],
    ) -> Result<Listing, Refusal> {
        let settings = settings.into();
        lend(|work, list| self.compare(settings, first, second, work, list))
    }

    /// The same listing, by the index of the second sequence. One that is not for
    /// this sequence, k and mask setting is refused by 12.
    pub fn list_indexed(
        &self,
        settings: impl Into<Entered>,
        first: &[u8],
        second: &[u8],
        index: &Index,
    ) -> Result<Listing, Refusal> {
        let (settings, index) = (settings.into(), index.places());
        lend(|work, list| self.compare_indexed(settings, first, second, index, work, list))
    }
}

/// The listing of a comparison that is made in the work room and the list room that
/// it is lent.
fn lend(compare: impl Fn(&mut [u32], &mut [u32]) -> Answer) -> Result<Listing, Refusal> {
    let mut work = vec![0; RECORD * FIRST_RECORDS];
    let mut list = vec![0; ENTRY * FIRST_ENTRIES];
    loop {
        let answer = compare(&mut work, &mut list);
        match answer.number {
            WORK_SHORT => work = vec![0; RECORD * answer.detail as usize],
            LIST_SHORT => list = vec![0; ENTRY * answer.detail as usize],
            _ => return listing(answer, &list),
        }
    }
}

fn listing(answer: Answer, list: &[u32]) -> Result<Listing, Refusal> {
    if let Some(refusal) = answer.refusal() {
        return Err(refusal);
    }
    let listed = list.chunks_exact(ENTRY).take(answer.listed as usize);
    let entries = listed.map(Entry::new).collect();
    Ok(Listing { answer, entries })
}
