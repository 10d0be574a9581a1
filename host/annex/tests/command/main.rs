//! The command as a user types it: whole outputs, every complaint and every
//! exit status.

#![forbid(unsafe_code)]

mod batches;
mod faults;
mod formats;
mod json;
mod letters;
mod masked;
mod paf;
mod provenance;
mod refusals;
mod strands;
mod streams;
mod support;
