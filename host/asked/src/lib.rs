//! What is asked of the command `annex`: its options, its files and the records
//! in them. None of it needs the library, so that a fault is told at once where
//! the library has still to be built.

#![forbid(unsafe_code)]

mod lines;
pub mod numbers;
pub mod options;
pub mod records;
pub mod sources;
pub mod streams;
pub mod warnings;

use options::{Options, Request};
use records::Record;
use sources::Source;
use std::env;
use std::fs::Metadata;
use std::process::ExitCode;

/// The exit status where the command line or a file is at fault and nothing was
/// compared, or where what came of it could not be told.
pub const AT_FAULT: u8 = 2;

/// Runs a command: reads its words and answers them, or complains.
pub fn run(answer: impl FnOnce(Request) -> Result<ExitCode, Vec<String>>) -> ExitCode {
    let request = options::parse(env::args_os().skip(1)).map_err(|it| vec![it]);
    request.and_then(answer).unwrap_or_else(|complaints| {
        // Where it cannot be told, the status is the same.
        let _told = streams::complain(&complaints);
        ExitCode::from(AT_FAULT)
    })
}

/// The records of all files that were named.
#[derive(Debug)]
pub struct Sequences {
    /// The first sequence.
    pub first: Record,
    /// Every second sequence: file by file, record by record.
    pub seconds: Vec<Record>,
}

impl Sequences {
    /// A second sequence in words, by its number where there are several.
    pub fn which(&self, number: usize) -> String {
        match self.seconds.len() {
            1 => "the second sequence".to_string(),
            _ => format!("record {number}"),
        }
    }
}

/// Reads every file that was named, or tells every one that is at fault.
pub fn read(options: &Options) -> Result<Sequences, Vec<String>> {
    let mut faults = Vec::new();
    let first = records::read_one(&options.first).map_err(|fault| faults.push(fault));
    let mut seconds = Vec::new();
    for source in &options.seconds {
        match records::read_all(source) {
            Ok(records) => seconds.extend(records),
            Err(fault) => faults.push(fault),
        }
    }
    match first {
        Ok(first) if faults.is_empty() => Ok(Sequences { first, seconds }),
        _ => Err(faults),
    }
}

/// Every file that is at fault. What can be read only once, as standard input and
/// pipes are, is left for the comparison.
pub fn faults(options: &Options) -> Vec<String> {
    let first = again(&options.first).and_then(|it| records::read_one(it).err());
    let seconds = options.seconds.iter().filter_map(again);
    let seconds = seconds.filter_map(|it| records::read_all(it).err());
    first.into_iter().chain(seconds).collect()
}

/// A source that can be read again, or cannot be read at all.
fn again(source: &Source) -> Option<&Source> {
    let Source::File(path) = source else {
        return None;
    };
    let once = |it: Metadata| !it.is_file() && !it.is_dir();
    Some(source).filter(|_| !path.metadata().is_ok_and(once))
}
