//! How far a long run has come, on a terminal and nowhere else.

use std::io::{self, IsTerminal, Write};
use std::time::{Duration, Instant};

/// Often enough to see it move, seldom enough to cost nothing.
const PAUSE: Duration = Duration::from_millis(100);

/// A line on standard error that is wiped away in the end.
pub struct Progress {
    of: usize,
    shown: Option<Instant>,
    on_terminal: bool,
}

impl Progress {
    /// Of so many comparisons; a single one is over before it is read.
    pub fn of(comparisons: usize) -> Progress {
        Progress {
            of: comparisons,
            shown: None,
            on_terminal: comparisons > 1 && io::stderr().is_terminal(),
        }
    }

    /// So many are done.
    pub fn show(&mut self, done: usize) {
        let recent = self.shown.is_some_and(|shown| shown.elapsed() < PAUSE);
        if self.on_terminal && !recent {
            self.shown = Some(Instant::now());
            write(&format!("\rannex: {done} of {} compared", self.of));
        }
    }
}

impl Drop for Progress {
    fn drop(&mut self) {
        if self.shown.is_some() {
            write("\r\x1B[K");
        }
    }
}

/// Progress that cannot be shown is no reason to stop.
fn write(text: &str) {
    let _ = io::stderr().write_all(text.as_bytes());
}
