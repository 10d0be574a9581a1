//! The library's writer and reader of frames against the reference's: values at
//! and past the end of each field, pieces and slices of every size about their
//! limits, and lines damaged in every way. Where the document says in a few words
//! what a case gets, that is asked for too.

#![forbid(unsafe_code)]

mod both;
mod reading;
mod writing;

use hornbeamlet::kinds::{
    DONE, END, ENTRY, FIRST_PIECE, JOB, REFUSED, REVERSE_ENTRY, SECOND_PIECE,
};

/// The greatest values of fields of 1, 2, 4 and 8 bytes.
const ONE: u64 = 0xFF;
const TWO: u64 = 0xFFFF;
const FOUR: u64 = 0xFFFF_FFFF;
const EIGHT: u64 = u64::MAX;

/// The kinds that are not pieces, and the greatest value of each field.
const FIELDS: [(u32, &[u64]); 6] = [
    (JOB, &[ONE, TWO, TWO, TWO, ONE]),
    (END, &[]),
    (ENTRY, &[TWO; 5]),
    (DONE, &[FOUR, FOUR, FOUR, EIGHT]),
    (REVERSE_ENTRY, &[TWO; 5]),
    (REFUSED, &[ONE, ONE, FOUR]),
];
const PIECES: [u32; 2] = [FIRST_PIECE, SECOND_PIECE];
/// The kinds that have a reader.
const READ: [u32; 4] = [ENTRY, DONE, REVERSE_ENTRY, REFUSED];

/// What is no kind: neighbours of the kinds, numbers of which the lowest byte is
/// a kind, and the greatest.
fn no_kinds() -> impl Iterator<Item = u32> {
    let between = (0..1).chain(5..16).chain(19..31).chain(32..300);
    between.chain([65_536 + ENTRY, 1 << 31 | DONE, u32::MAX])
}
