//! The comparisons that were asked for, one after the other.

use crate::progress::Progress;
use crate::{sha256, words};
use asked::records::Record;
use asked::Sequences;
use hornbeamlet::{with_library, Library, Listing, Refusal, Settings};

/// All that was compared.
pub struct Report<'a> {
    /// The settings.
    pub settings: Settings,
    /// The first sequence.
    pub first: Sequence<'a>,
    /// How many second sequences there are.
    pub seconds: usize,
    /// Each second sequence with what came of it, in their order. Where the
    /// settings or the first sequence are refused it ends with the first.
    pub comparisons: Vec<Comparison<'a>>,
}

/// A record, how many of its letters are masked, and their SHA-256.
pub struct Sequence<'a> {
    /// The record.
    pub record: &'a Record,
    /// How many of its letters are in lower case.
    pub masked: usize,
    /// The digest, in hexadecimal digits.
    pub digest: String,
}

impl Sequence<'_> {
    fn new(record: &Record) -> Sequence<'_> {
        Sequence {
            record,
            masked: masked(&record.letters),
            digest: sha256::hexadecimal(&record.letters),
        }
    }
}

/// How many letters are in lower case. They are counted in bytes, as many as a byte
/// holds: such a pass takes many letters at a time, and one that counts in larger
/// numbers ten times as long.
fn masked(letters: &[u8]) -> usize {
    let lower = |few: &[u8]| -> u8 {
        let each = few.iter().map(|it| u8::from(it.is_ascii_lowercase()));
        each.sum()
    };
    let counts = letters.chunks(u8::MAX.into()).map(lower);
    counts.map(usize::from).sum()
}

/// One second sequence and what came of it.
pub struct Comparison<'a> {
    /// Its number among all second sequences, from 1.
    pub number: usize,
    /// The second sequence.
    pub second: Sequence<'a>,
    /// What came of it.
    pub outcome: Outcome,
}

/// What came of a comparison.
pub enum Outcome {
    /// A listing with clauses.
    Clauses(Listing),
    /// A listing without any, and why there are none.
    NoClause(Listing, String),
    /// A refusal, also in plain words.
    Refused(Refusal, String),
}

/// How many second sequences came out in which way.
#[derive(Debug, Default, PartialEq, Eq)]
pub struct Tally {
    /// Those with clauses.
    pub with: usize,
    /// Those without any.
    pub without: usize,
    /// Those refused.
    pub refused: usize,
    /// Those that were not looked at, since what was refused would meet them too.
    pub unseen: usize,
    /// The clauses of all.
    pub clauses: usize,
}

impl Report<'_> {
    /// Every refusal in plain words.
    pub fn refusals(&self) -> Vec<&str> {
        let outcomes = self.comparisons.iter().map(|it| &it.outcome);
        let words = outcomes.filter_map(|outcome| match outcome {
            Outcome::Refused(_, words) => Some(words.as_str()),
            _ => None,
        });
        words.collect()
    }

    /// Whether several second sequences were asked for.
    pub fn is_batch(&self) -> bool {
        self.seconds > 1
    }

    /// Whether nothing came of any of them.
    pub fn all_refused(&self) -> bool {
        let refused = |it: &Comparison| matches!(it.outcome, Outcome::Refused(..));
        self.comparisons.iter().all(refused)
    }

    /// How the second sequences came out.
    pub fn tally(&self) -> Tally {
        let mut tally = Tally {
            unseen: self.seconds - self.comparisons.len(),
            ..Tally::default()
        };
        for comparison in &self.comparisons {
            match &comparison.outcome {
                Outcome::Clauses(listing) => {
                    tally.with += 1;
                    tally.clauses += listing.entries.len();
                }
                Outcome::NoClause(..) => tally.without += 1,
                Outcome::Refused(..) => tally.refused += 1,
            }
        }
        tally
    }
}

/// Compares the first sequence with each of the others. A refused one does not
/// stop the rest, unless the same refusal would meet them all.
pub fn compare(settings: Settings, sequences: &Sequences) -> Report<'_> {
    let listed = with_library(|library| list_each(library, settings, sequences));
    let numbered = (1..).zip(listed);
    let compared = numbered.zip(&sequences.seconds);
    let compared = compared.map(|((number, listed), record)| Comparison {
        number,
        second: Sequence::new(record),
        outcome: outcome(settings, sequences, number, listed),
    });
    Report {
        settings,
        first: Sequence::new(&sequences.first),
        seconds: sequences.seconds.len(),
        comparisons: compared.collect(),
    }
}

fn list_each(
    library: &Library,
    settings: Settings,
    sequences: &Sequences,
) -> Vec<Result<Listing, Refusal>> {
    let Sequences { first, seconds } = sequences;
    let mut progress = Progress::of(seconds.len());
    let mut listed = Vec::with_capacity(seconds.len());
    for second in seconds {
        progress.show(listed.len());
        listed.push(library.list(settings, &first.letters, &second.letters));
        if listed.last().is_some_and(recurs) {
            break;
        }
    }
    listed
}

/// Whether a refusal is of the settings or the first sequence.
fn recurs(listed: &Result<Listing, Refusal>) -> bool {
    let recurs = |it: &Refusal| matches!(it.number, 1..=4 | 9 | 10) || it.sequence == 1;
    listed.as_ref().is_err_and(recurs)
}

fn outcome(
    settings: Settings,
    sequences: &Sequences,
    number: usize,
    listed: Result<Listing, Refusal>,
) -> Outcome {
    match listed {
        Ok(listing) if listing.entries.is_empty() => {
            let why = words::no_clause(settings, sequences, number, listing.answer);
            Outcome::NoClause(listing, why)
        }
        Ok(listing) => Outcome::Clauses(listing),
        Err(refusal) => {
            let words = words::refused(settings, sequences, number, refusal);
            Outcome::Refused(refusal, words)
        }
    }
}

#[cfg(test)]
mod tests {
    use super::*;

    #[test]
    fn masked_letters_are_counted_past_what_a_byte_holds() {
        assert_eq!(masked(b""), 0);
        assert_eq!(masked(b"AcGtN-@[`{\xE1"), 2);
        for length in [254, 255, 256, 510, 511, 16_384] {
            assert_eq!(masked(&vec![b'n'; length]), length);
            assert_eq!(masked(&vec![b'N'; length]), 0);
        }
    }
}
