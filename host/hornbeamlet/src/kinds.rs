//! The kinds of frames, each with its values in their order.
//!
//! ```
//! use hornbeamlet::{kinds, with_library, LINE};
//!
//! with_library(|library| {
//!     let (mut line, mut values) = ([0; LINE], [0; 5]);
//!     let length = library.write_frame(kinds::REFUSED, &[6, 2, 4], &mut line);
//!     let line = &line[..length as usize];
//!     assert_eq!(line, b"1F06060200000004CF\n");
//!     assert_eq!(library.read_frame(kinds::REFUSED, line, &mut values), 0);
//!     assert_eq!(values, [6, 2, 4, 0, 0]);
//! });
//! ```

/// A job: k, b, a, m, strand. It means mask setting 0, and one with another has no
/// frame.
pub const JOB: u32 = 0x01;
/// A piece of the first sequence: 1 to 128 letter codes from 1 to 15, those of
/// capitals.
pub const FIRST_PIECE: u32 = 0x02;
/// A piece of the second sequence, likewise.
pub const SECOND_PIECE: u32 = 0x03;
/// The end of an input: no values.
pub const END: u32 = 0x04;
/// A forward entry: first start, first end, second start, second end, weight.
pub const ENTRY: u32 = 0x10;
/// Done: listed, M, W, link total.
pub const DONE: u32 = 0x11;
/// A reverse entry: the values of a forward one.
pub const REVERSE_ENTRY: u32 = 0x12;
/// Refused: number, sequence, detail.
pub const REFUSED: u32 = 0x1F;
