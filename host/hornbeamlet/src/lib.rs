//! The proved library as safe Rust: the C boundary of `include/hornbeamlet.h`
//! with slices for pointers and lengths, and the way to a listing that lends the
//! rooms that are needed.
//!
//! All unsafe code of the host is in the module `boundary`.
//!
//! ```
//! use hornbeamlet::{with_library, Settings, Strand};
//!
//! let settings = Settings { k: 2, b: 2, a: 8, m: 0, ..Settings::default() };
//! let listing = with_library(|library| library.list(settings, b"ACCGT", b"ACGGT")).unwrap();
//! assert_eq!(listing.answer.matches, 7);
//! assert_eq!(listing.entries[0].weight, 3);
//! assert_eq!(listing.entries[1].strand, Strand::Reverse);
//! ```

#![deny(unsafe_op_in_unsafe_fn)]

mod boundary;
#[forbid(unsafe_code)]
mod index;
#[forbid(unsafe_code)]
pub mod kinds;
#[forbid(unsafe_code)]
mod listing;
#[forbid(unsafe_code)]
mod refusal;
#[forbid(unsafe_code)]
mod stack;

pub use index::Index;
pub use listing::{Entry, Listing};
pub use refusal::Refusal;
pub use settings::{
    Entered, Masked, Settings, Strand, Strands, A, B, BOTH, FORWARD, K, LONGEST, M, MASKED_BREAK,
    MASKED_FORM, REVERSE,
};
pub use stack::{with_library, Library};

/// The version of the command and of this wrapper.
pub const VERSION: &str = env!("CARGO_PKG_VERSION");
/// The identity of the kit that the library was proved with.
pub const KIT: &str = env!("HORNBEAMLET_KIT");

/// Numbers of work room in one record.
pub const RECORD: usize = 8;
/// Numbers of list room in one entry.
pub const ENTRY: usize = 6;
/// Bytes of the longest line of a frame, with its line feed.
pub const LINE: usize = 135;
/// What `need` and `write_frame` add to the number of a refusal.
pub const REFUSED: u64 = 4_294_967_296;

/// The seven numbers of an answer.
#[derive(Clone, Copy, Debug, PartialEq, Eq)]
pub struct Answer {
    /// 0 when done, else the number of the refusal.
    pub number: u64,
    /// 0, or the sequence refused.
    pub sequence: u64,
    /// The particulars of the refusal.
    pub detail: u64,
    /// Entries listed; for the stopped sweep, records held; for an index, its places.
    pub listed: u64,
    /// M, the number of matches, over both strands their sum.
    pub matches: u64,
    /// W, the most matches in any b + 1 rows, over both strands the larger.
    pub widest: u64,
    /// The link total, over both strands their sum.
    pub links: u64,
}
