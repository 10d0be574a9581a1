//! `cargo run --release -p bench`: one run, all figures. Times are medians of
//! many runs; what one program takes is given as a multiple of another's, both
//! measured here and now, since only such ratios carry over.
//!
//! `bench --k` tells instead what k-mers of other lengths do to a listing, and
//! times nothing. `bench --index` prints the table of calls over an index alone.
//!
//! `bench --before BENCH ANNEX` compares with an earlier revision: BENCH is its
//! `bench`, linked with its library, and ANNEX its command. See tools/bench-before.
//! `bench --serve` is either side of the two libraries.

#![forbid(unsafe_code)]

mod bounds;
mod calls;
mod indexed;
mod jobs;
mod lengths;
mod lent;
mod processes;
mod server;
mod stages;
mod table;
mod timing;
mod versions;

use hornbeamlet::{with_library, Library};
use processes::{Processes, Programs};
use std::env;
use std::ffi::OsString;
use std::io::{stdin, stdout};
use std::path::Path;
use std::process::ExitCode;

fn main() -> ExitCode {
    let words: Vec<OsString> = env::args_os().skip(1).collect();
    let end = match words.as_slice() {
        [] => print_all(),
        [word] if word == server::SERVE => {
            with_library(|library| server::serve(library, stdin().lock(), stdout()))
        }
        [word] if word == "--k" => {
            with_library(lengths::print);
            Ok(())
        }
        [word] if word == "--index" => {
            with_library(print_indexed);
            Ok(())
        }
        [word, bench, annex] if word == "--before" => {
            versions::print(Path::new(bench), Path::new(annex))
        }
        _ => Err("usage: bench [--k | --index | --before BENCH ANNEX | --serve]".to_string()),
    };
    match end {
        Ok(()) => ExitCode::SUCCESS,
        Err(complaint) => {
            eprintln!("bench: {complaint}");
            ExitCode::from(2)
        }
    }
}

fn print_all() -> Result<(), String> {
    let programs = Programs::find()?;
    with_library(|library| {
        let ordinary = calls::measure(library, jobs::ordinary());
        calls::print("The call `compare` on ordinary pairs", &ordinary);
        calls::print_growths(&ordinary);
        let processes = Processes::measure(&programs, &ordinary);
        processes.print();
        let over = calls::measure(library, jobs::over_the_cap());
        calls::print("The call `compare` where k-mers are over the cap", &over);
        let worst = calls::measure(library, jobs::worst());
        calls::print("The call `compare` on the worst jobs accepted", &worst);
        print_indexed(library);
        stages::print(library, &jobs::staged());
        bounds::print(&ordinary, &processes, &worst);
    });
    Ok(())
}

fn print_indexed(library: &Library) {
    indexed::print(library, &jobs::indexed());
}
