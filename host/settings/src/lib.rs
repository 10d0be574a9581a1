//! The settings of a job, by name and as the numbers that cross the boundary.
//! They stand apart from the library, so that a command line can be read before
//! the library is built.

#![forbid(unsafe_code)]

use std::fmt::{self, Display, Formatter};
use std::ops::RangeInclusive;

/// The k-mer lengths that are accepted.
pub const K: RangeInclusive<u32> = 1..=31;
/// The gap bounds that are accepted.
pub const B: RangeInclusive<u32> = 1..=1_024;
/// The repeat caps that are accepted.
pub const A: RangeInclusive<u32> = 1..=1_024;
/// The least spans that are accepted.
pub const M: RangeInclusive<u32> = 0..=16_384;
/// The longest sequence that is accepted.
pub const LONGEST: usize = 16_384;

/// The strand setting for the second sequence as it stands.
pub const FORWARD: u32 = 0;
/// The strand setting of `compare` and `need` for the second sequence as it
/// stands and, in a sweep of its own, turned round.
pub const BOTH: u32 = 1;
/// The strand setting of `stopped` for the second sequence turned round.
pub const REVERSE: u32 = 1;

/// The mask setting with which masked letters form k-mers, as their capitals do.
pub const MASKED_FORM: u32 = 0;
/// The mask setting with which masked letters break k-mers, as N does.
pub const MASKED_BREAK: u32 = 1;

/// The strands that are compared.
#[derive(Clone, Copy, Debug, PartialEq, Eq)]
pub enum Strands {
    /// The second sequence as it stands.
    Forward,
    /// As it stands and, in a sweep of its own, turned round.
    Both,
}

/// One strand of the second sequence.
#[derive(Clone, Copy, Debug, PartialEq, Eq)]
pub enum Strand {
    /// As the sequence stands.
    Forward,
    /// Turned round: read from its end, each letter as its complement.
    Reverse,
}

/// What masked letters do: those in lower case, as repeats are delivered.
#[derive(Clone, Copy, Debug, PartialEq, Eq)]
pub enum Masked {
    /// They form k-mers, as their capitals do.
    Form,
    /// They break k-mers, as N does.
    Break,
}

impl Display for Strands {
    fn fmt(&self, to: &mut Formatter) -> fmt::Result {
        to.pad(match self {
            Strands::Forward => "forward",
            Strands::Both => "both",
        })
    }
}

impl Display for Strand {
    fn fmt(&self, to: &mut Formatter) -> fmt::Result {
        to.pad(match self {
            Strand::Forward => "forward",
            Strand::Reverse => "reverse",
        })
    }
}

impl Display for Masked {
    fn fmt(&self, to: &mut Formatter) -> fmt::Result {
        to.pad(match self {
            Masked::Form => "form",
            Masked::Break => "break",
        })
    }
}

/// The settings of a job, by default those of the command `annex`.
#[derive(Clone, Copy, Debug, PartialEq, Eq)]
pub struct Settings {
    /// The k-mer length, 1 to 31.
    pub k: u32,
    /// The gap bound, 1 to 1,024.
    pub b: u32,
    /// The repeat cap, 1 to 1,024.
    pub a: u32,
    /// The least span in bases, 0 to 16,384.
    pub m: u32,
    /// The strands.
    pub strand: Strands,
    /// What masked letters do.
    pub masked: Masked,
}

/// With k 13 two unrelated sequences of this size hardly ever have a clause, and
/// with k 11 most of the longest do; 300 steps over the usual insertions; a k-mer
/// seen more than 20 times tells nothing about where it belongs. Both strands,
/// since half the references are stored turned round: whoever does not know which
/// would read an empty listing as nothing shared. Masked letters form k-mers for the
/// same reason, and the repeat cap is there for those that occur too often.
impl Default for Settings {
    fn default() -> Settings {
        Settings {
            k: 13,
            b: 300,
            a: 20,
            m: 100,
            strand: Strands::Both,
            masked: Masked::Form,
        }
    }
}

impl Settings {
    /// The same settings for the stopped sweep, which is of one strand.
    pub fn on(self, strand: Strand) -> Entered {
        let strand = match strand {
            Strand::Forward => FORWARD,
            Strand::Reverse => REVERSE,
        };
        let entered = Entered::from(self);
        Entered { strand, ..entered }
    }
}

/// The settings as the numbers that cross the boundary. Any may be asked for;
/// those outside the library's table are refused by number.
#[derive(Clone, Copy, Debug, PartialEq, Eq)]
pub struct Entered {
    /// The k-mer length.
    pub k: u32,
    /// The gap bound.
    pub b: u32,
    /// The repeat cap.
    pub a: u32,
    /// The least span in bases.
    pub m: u32,
    /// The strand: [`FORWARD`] or [`BOTH`], and [`FORWARD`] or [`REVERSE`] for
    /// the stopped sweep.
    pub strand: u32,
    /// The mask setting: [`MASKED_FORM`] or [`MASKED_BREAK`].
    pub mask: u32,
}

impl From<Settings> for Entered {
    fn from(settings: Settings) -> Entered {
        let Settings { k, b, a, m, .. } = settings;
        Entered {
            k,
            b,
            a,
            m,
            strand: match settings.strand {
                Strands::Forward => FORWARD,
                Strands::Both => BOTH,
            },
            mask: match settings.masked {
                Masked::Form => MASKED_FORM,
                Masked::Break => MASKED_BREAK,
            },
        }
    }
}

#[cfg(test)]
mod tests {
    use super::*;

    #[test]
    fn the_defaults_are_accepted() {
        let Settings { k, b, a, m, .. } = Settings::default();
        assert!(K.contains(&k) && B.contains(&b) && A.contains(&a) && M.contains(&m));
    }

    #[test]
    fn strands_cross_as_their_numbers() {
        let settings = Settings::default();
        let forward = Settings {
            strand: Strands::Forward,
            ..settings
        };
        assert_eq!(Entered::from(settings).strand, 1);
        assert_eq!(Entered::from(forward).strand, 0);
        assert_eq!(settings.on(Strand::Forward).strand, 0);
        assert_eq!(forward.on(Strand::Reverse).strand, 1);
    }

    #[test]
    fn what_masked_letters_do_crosses_as_its_number() {
        let settings = Settings::default();
        let breaking = Settings {
            masked: Masked::Break,
            ..settings
        };
        assert_eq!(Entered::from(settings).mask, 0);
        assert_eq!(Entered::from(breaking).mask, 1);
        assert_eq!(breaking.on(Strand::Reverse).mask, 1);
    }
}
