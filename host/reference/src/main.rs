//! `reference chain` reads frames on standard input and writes frames on
//! standard output. `reference call QUESTION` answers one question.

#![forbid(unsafe_code)]

use std::env;
use std::io::{self, Read, Write};
use std::process::ExitCode;

fn main() -> ExitCode {
    let arguments: Vec<String> = env::args_os()
        .skip(1)
        .map(|argument| argument.to_string_lossy().into_owned())
        .collect();
    let words: Vec<&str> = arguments.iter().map(String::as_str).collect();
    match run(&words) {
        Ok(()) => ExitCode::SUCCESS,
        Err(complaint) => {
            eprintln!("reference: {complaint}");
            ExitCode::from(2)
        }
    }
}

fn run(words: &[&str]) -> Result<(), String> {
    match words {
        ["chain"] => chain().map_err(|error| error.to_string()),
        ["call", question] => call(question),
        _ => Err("use: reference chain | reference call QUESTION".to_string()),
    }
}

fn chain() -> io::Result<()> {
    let mut input = Vec::new();
    io::stdin().lock().read_to_end(&mut input)?;
    let mut output = io::stdout().lock();
    output.write_all(&reference::chain(&input))?;
    output.flush()
}

fn call(question: &str) -> Result<(), String> {
    let answer = reference::calls::answer(question)?;
    writeln!(io::stdout().lock(), "{answer}").map_err(|error| error.to_string())
}
