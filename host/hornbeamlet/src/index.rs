//! The index of a second sequence, for those that many first ones are compared with.

use crate::{Entered, Library, Refusal, LONGEST};

/// The index of a second sequence for one k and one mask setting, without a number
/// to spare.
///
/// ```
/// use hornbeamlet::{with_library, Settings};
///
/// let settings = Settings { k: 2, b: 2, a: 8, m: 0, ..Settings::default() };
/// let reference = b"ACGGT";
/// with_library(|library| {
///     let index = library.build_index(settings, reference)?;
///     assert_eq!(index.places(), [1, 2, 3, 4]);
///     for strain in [b"ACCGT", b"ACGGA"] {
///         let listing = library.list_indexed(settings, strain, reference, &index)?;
///         assert_eq!(listing, library.list(settings, strain, reference)?);
///     }
///     Ok::<(), hornbeamlet::Refusal>(())
/// })
/// .unwrap();
/// ```
#[derive(Clone, Debug, PartialEq, Eq)]
pub struct Index {
    places: Vec<u32>,
}

impl Index {
    /// The places of the sequence that have a k-mer, counted from 1, by packed k-mer
    /// and then by place.
    pub fn places(&self) -> &[u32] {
        &self.places
    }
}

impl Library {
    /// The index of a second sequence for the settings' k and what they say of masked
    /// letters; the others are not looked at. What is refused is one of 1, 10, 5 or 6.
    pub fn build_index(
        &self,
        settings: impl Into<Entered>,
        second: &[u8],
    ) -> Result<Index, Refusal> {
        let Entered { k, mask, .. } = settings.into();
        // A sequence has no more places than letters.
        let mut places = vec![0; second.len().min(LONGEST)];
        let answer = self.index(k, mask, second, &mut places);
        if let Some(refusal) = answer.refusal() {
            return Err(refusal);
        }
        places.truncate(answer.listed as usize);
        places.shrink_to_fit();
        Ok(Index { places })
    }
}
