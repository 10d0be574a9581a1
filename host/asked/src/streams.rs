//! What the command writes.

use std::io::{self, ErrorKind, Write};

/// Writes to standard output, at once. A reader that has seen enough and closed
/// the pipe is no error.
pub fn print(text: &str) -> Result<(), String> {
    let mut output = io::stdout().lock();
    let written = output.write_all(text.as_bytes());
    match written.and_then(|()| output.flush()) {
        Err(error) if error.kind() != ErrorKind::BrokenPipe => {
            Err(format!("the output could not be written: {error}"))
        }
        _ => Ok(()),
    }
}

/// Writes each complaint to standard error as a line of its own, at once. Whether
/// it could: one who cannot be told must at least see it by the exit status.
#[must_use]
pub fn complain<T: AsRef<str>>(complaints: &[T]) -> bool {
    let line = |complaint: &T| format!("annex: {}\n", complaint.as_ref());
    let lines: String = complaints.iter().map(line).collect();
    io::stderr().write_all(lines.as_bytes()).is_ok()
}
