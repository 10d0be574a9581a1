//! A refusal and what it says.

use crate::{Answer, A, B, K, LONGEST, M};
use std::error::Error;
use std::fmt::{self, Display, Formatter};
use std::ops::RangeInclusive;

/// A refusal and its particulars.
#[derive(Clone, Copy, Debug, PartialEq, Eq)]
pub struct Refusal {
    /// Its number, never 0.
    pub number: u64,
    /// 0, or the sequence refused.
    pub sequence: u64,
    /// Place, room or number of rows or places, by the number.
    pub detail: u64,
}

impl Answer {
    /// The refusal, where the answer is one.
    pub fn refusal(&self) -> Option<Refusal> {
        let refusal = Refusal {
            number: self.number,
            sequence: self.sequence,
            detail: self.detail,
        };
        Some(refusal).filter(|it| it.number != 0)
    }
}

impl Error for Refusal {}

impl Display for Refusal {
    fn fmt(&self, to: &mut Formatter) -> fmt::Result {
        let which = match self.sequence {
            1 => "first",
            _ => "second",
        };
        let detail = self.detail;
        write!(to, "refused, number {}: ", self.number)?;
        match self.number {
            1 => outside(to, "k", K),
            2 => outside(to, "b", B),
            3 => outside(to, "a", A),
            4 => outside(to, "m", M),
            5 => write!(to, "the {which} sequence has more than {LONGEST} letters"),
            6 => write!(
                to,
                "place {detail} of the {which} sequence has no letter of ABCDGHKMNRSTVWY, \
                 capital or lower case"
            ),
            7 => write!(to, "work room for {detail} records is needed"),
            8 => write!(to, "list room for {detail} entries is needed"),
            9 => write!(to, "the strand is neither 0 nor 1"),
            10 => write!(to, "the mask setting is neither 0 nor 1"),
            11 => write!(to, "index room for {detail} places is needed"),
            12 => write!(
                to,
                "the index is not that of the second sequence for this k and mask setting"
            ),
            19 => write!(to, "the row is above the number of rows, {detail}"),
            _ => write!(to, "sequence {}, detail {detail}", self.sequence),
        }
    }
}

fn outside(to: &mut Formatter, name: &str, accepted: RangeInclusive<u32>) -> fmt::Result {
    let (least, greatest) = accepted.into_inner();
    write!(to, "{name} is not {least} to {greatest}")
}

#[cfg(test)]
mod tests {
    use super::*;

    #[test]
    fn every_refusal_says_what_it_is() {
        let said = |number, sequence, detail| {
            let refusal = Refusal {
                number,
                sequence,
                detail,
            };
            refusal.to_string()
        };
        assert_eq!(said(1, 0, 0), "refused, number 1: k is not 1 to 31");
        assert_eq!(said(4, 0, 0), "refused, number 4: m is not 0 to 16384");
        assert_eq!(
            said(5, 1, 0),
            "refused, number 5: the first sequence has more than 16384 letters"
        );
        assert_eq!(
            said(6, 2, 7),
            "refused, number 6: place 7 of the second sequence has no letter of ABCDGHKMNRSTVWY, \
             capital or lower case"
        );
        let words = [
            (7, "records"),
            (8, "entries"),
            (9, "strand"),
            (10, "mask"),
            (11, "places"),
            (12, "index"),
            (19, "rows"),
        ];
        for (number, word) in words {
            assert!(said(number, 0, 3).contains(word));
        }
        assert_eq!(said(30, 2, 7), "refused, number 30: sequence 2, detail 7");
    }
}
