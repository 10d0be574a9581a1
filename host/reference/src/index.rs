//! The index of the second sequence, and the sweeps over it.

use crate::answers::{
    check_inputs, check_k, check_length, check_letters, check_mask, compare, done, refused,
    stopped, Answer, Settings,
};
use crate::kmers;
use crate::letters::in_capitals;

/// "Add an index of the second sequence, never turned, in lent 32-bit numbers".
/// "When built, numbers after the index become zeros; index room too short becomes
/// all zeros." The places in it are told as the first tally.
pub fn build_index(k: u32, mask: u32, second: &[u8], lent: &mut [u32]) -> Answer {
    if let Err(refusal) = check_second(k, mask, second) {
        return refusal;
    }
    lent.fill(0);
    let index = index_of(k, mask, second);
    let places = index.len() as u64;
    match lent.get_mut(..index.len()) {
        Some(front) => front.copy_from_slice(&index),
        // "11, index room below the number of such places (the detail)"
        None => return refused(11, 0, places),
    }
    done(places, 0, 0, 0)
}

/// "A sweep over an index returns the same answer, listing and room contents as the
/// plain one."
pub fn compare_indexed(
    settings: Settings,
    first: &[u8],
    second: &[u8],
    index: &[u32],
    work: &mut [u32],
    list: &mut [u32],
) -> Answer {
    match check_indexed(settings, first, second, index) {
        Ok(()) => compare(settings, first, second, work, list),
        Err(refusal) => refusal,
    }
}

/// The stopped sweep over an index, likewise.
pub fn stopped_indexed(
    settings: Settings,
    first: &[u8],
    second: &[u8],
    index: &[u32],
    work: &mut [u32],
    row: u32,
) -> Answer {
    match check_indexed(settings, first, second, index) {
        Ok(()) => stopped(settings, first, second, work, row),
        Err(refusal) => refusal,
    }
}

/// "building checks 1, 10, 5, 6 (sequence 2)", which leave the index room as it was.
fn check_second(k: u32, mask: u32, second: &[u8]) -> Result<(), Answer> {
    check_k(k)?;
    check_mask(mask)?;
    check_length(2, second)?;
    check_letters(2, second)
}

/// "sweeping, after 6, 12, the slice does not begin with that index". "A wrong or
/// short index is left unchanged with both rooms", and "the numbers after it change
/// nothing".
fn check_indexed(
    settings: Settings,
    first: &[u8],
    second: &[u8],
    slice: &[u32],
) -> Result<(), Answer> {
    check_inputs(settings, first, second)?;
    let index = index_of(settings.k, settings.mask, second);
    match slice.starts_with(&index) {
        true => Ok(()),
        false => Err(refused(12, 0, 0)),
    }
}

/// The index of a sequence "with the capitals and this break" of the mask setting.
fn index_of(k: u32, mask: u32, second: &[u8]) -> Vec<u32> {
    kmers::index(&in_capitals(mask, second), k as usize)
}
