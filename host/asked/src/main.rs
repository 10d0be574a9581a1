//! `asked`: all of `annex` that needs no library, for the script `annex` to run
//! before it builds one. Exit status: 0 where a comparison is asked for and its
//! files can be read; 2 where the command line or a file is at fault, which is
//! then told; 3 where help or version was asked for and is told.

#![forbid(unsafe_code)]

use asked::options::{Request, HELP};
use asked::streams::print;
use std::process::ExitCode;

const ANSWERED: u8 = 3;

const VERSION: &str = concat!(
    "annex ",
    env!("CARGO_PKG_VERSION"),
    ", not proved in this folder yet\n"
);

fn main() -> ExitCode {
    asked::run(answer)
}

fn answer(request: Request) -> Result<ExitCode, Vec<String>> {
    let text = match request {
        Request::Help => HELP,
        Request::Version => VERSION,
        Request::Compare(options) => {
            let faults = asked::faults(&options);
            return match faults.is_empty() {
                true => Ok(ExitCode::SUCCESS),
                false => Err(faults),
            };
        }
    };
    print(text).map_err(|it| vec![it])?;
    Ok(ExitCode::from(ANSWERED))
}
