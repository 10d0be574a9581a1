//! A separate reference for the chain listing, its rooms and its frames.
//!
//! It follows the words of the document "Build description and exact rules"
//! (01-scope), of change requests 1, "Reverse strand", 2, "Intervals that do go
//! on", 5, "Soft-masked letters", and 6, "Column index" (02-change-requests), and
//! keeps to the slow and obvious way: k-mers are compared as letters, all matches of
//! a job are held at once, every rule is looked up by walking the rows it speaks of,
//! and a given index is held against one made anew. Comments in quotation marks are
//! sentences of the two documents.
//!
//! The rule on where records are kept from one match to the next binds the
//! build this reference is compared with. Here only what the rooms hold
//! afterwards is rendered.

#![forbid(unsafe_code)]

pub mod answers;
pub mod boundary;
pub mod calls;
pub mod chains;
pub mod frames;
pub mod index;
pub mod kmers;
pub mod letters;
pub mod program;
pub mod random;

pub use answers::{compare, need, stopped, Answer, Settings};
pub use boundary::{read_frame, write_frame};
pub use frames::{
    read_done, read_entry, read_refused, read_reverse_entry, write_done, write_end, write_entry,
    write_first_piece, write_job, write_refused, write_reverse_entry, write_second_piece, Reading,
};
pub use index::{build_index, compare_indexed, stopped_indexed};
pub use program::chain;
