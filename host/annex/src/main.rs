//! `annex FIRST SECOND...`: the stretches that two sequences share, as numbered
//! clauses. Each file is read once and the output written once.

#![forbid(unsafe_code)]

mod compare;
mod formats;
mod progress;
mod sha256;
mod words;

use asked::options::{Options, Request, HELP};
use asked::streams::{complain, print};
use asked::{warnings, AT_FAULT};
use std::process::ExitCode;

/// Something was refused.
const REFUSED: u8 = 1;

fn main() -> ExitCode {
    asked::run(answer)
}

fn answer(request: Request) -> Result<ExitCode, Vec<String>> {
    let text = match request {
        Request::Help => HELP.to_string(),
        Request::Version => words::version() + "\n",
        Request::Compare(options) => return compare(&options),
    };
    print(&text).map_err(|it| vec![it])?;
    Ok(ExitCode::SUCCESS)
}

fn compare(options: &Options) -> Result<ExitCode, Vec<String>> {
    let sequences = asked::read(options)?;
    let warned = complain(&warnings::of(&sequences));
    let report = compare::compare(options.settings, &sequences);
    print(&formats::render(options.format, &report)).map_err(|it| vec![it])?;
    let refusals = report.refusals();
    let told = complain(&refusals);
    Ok(match refusals.is_empty() {
        _ if !warned || !told => ExitCode::from(AT_FAULT),
        false => ExitCode::from(REFUSED),
        true => ExitCode::SUCCESS,
    })
}
