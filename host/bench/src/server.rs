//! The library in another process: a line with the index of a job goes in, and
//! a line with the time of one call and its answer comes out.

use crate::jobs::{self, Job};
use crate::lent::Lent;
use crate::timing::time;
use hornbeamlet::Library;
use std::cell::LazyCell;
use std::collections::HashMap;
use std::io::{BufRead, BufReader, Lines, Write};
use std::path::{Path, PathBuf};
use std::process::{Child, ChildStdout, Command, Stdio};
use std::time::Duration;

/// The word that asks this program to serve.
pub const SERVE: &str = "--serve";

/// What one call took and gave.
#[derive(Debug, PartialEq)]
pub struct Reply {
    /// The time of the call.
    pub time: Duration,
    /// The matches that it counted.
    pub matches: u64,
    /// Its whole answer, as it is printed.
    pub answer: String,
}

impl Reply {
    fn to_line(&self) -> String {
        let nanoseconds = self.time.as_nanos();
        format!("{nanoseconds} {} {}", self.matches, self.answer)
    }

    fn from_line(line: &str) -> Option<Reply> {
        let mut words = line.splitn(3, ' ');
        Some(Reply {
            time: Duration::from_nanos(words.next()?.parse().ok()?),
            matches: words.next()?.parse().ok()?,
            answer: words.next()?.to_string(),
        })
    }
}

/// Serves until there are no more requests. A job's rooms are made when it is
/// first asked for, and the jobs at the first request: a process that is not
/// asked does nothing that could disturb another.
pub fn serve(
    library: &Library,
    requests: impl BufRead,
    mut replies: impl Write,
) -> Result<(), String> {
    let jobs = LazyCell::new(|| jobs::compared().concat());
    let mut lent = HashMap::new();
    for request in requests.lines() {
        let request = request.map_err(|error| error.to_string())?;
        let at = index(&request, &jobs).ok_or(format!("no job has the index {request}"))?;
        let job = &jobs[at];
        let lent = lent.entry(at).or_insert_with(|| Lent::new(library, job));
        let reply = Reply {
            time: time(|| lent.compare(library, job)),
            matches: lent.answer.matches,
            answer: format!("{:?}", lent.answer),
        };
        writeln!(replies, "{}", reply.to_line()).map_err(|error| error.to_string())?;
    }
    Ok(())
}

fn index(request: &str, jobs: &[Job]) -> Option<usize> {
    request.parse().ok().filter(|&at| at < jobs.len())
}

/// A process that serves.
pub struct Server {
    program: PathBuf,
    process: Child,
    replies: Lines<BufReader<ChildStdout>>,
}

impl Server {
    /// Starts this program, or that of an earlier revision with the same jobs.
    pub fn start(program: &Path) -> Server {
        let started = Command::new(program)
            .arg(SERVE)
            .stdin(Stdio::piped())
            .stdout(Stdio::piped())
            .spawn();
        let shown = program.display();
        let mut process = started.unwrap_or_else(|error| panic!("{shown}: {error}"));
        let replies = process.stdout.take().expect("its output is a pipe");
        Server {
            program: program.to_path_buf(),
            process,
            replies: BufReader::new(replies).lines(),
        }
    }

    /// One call on the job of this index.
    pub fn ask(&mut self, at: usize) -> Reply {
        let reply = self.request(at);
        reply.unwrap_or_else(|| panic!("{} gave no reply", self.program.display()))
    }

    fn request(&mut self, at: usize) -> Option<Reply> {
        writeln!(self.process.stdin.as_mut()?, "{at}").ok()?;
        Reply::from_line(&self.replies.next()?.ok()?)
    }
}

impl Drop for Server {
    /// It has nothing to lose, and one that gave no reply may not end by itself.
    fn drop(&mut self) {
        let _ = self.process.kill();
        let _ = self.process.wait();
    }
}

#[cfg(test)]
mod tests {
    use super::*;
    use hornbeamlet::with_library;

    fn served(requests: &str) -> (Result<(), String>, String) {
        let mut replies = Vec::new();
        let end = with_library(|library| serve(library, requests.as_bytes(), &mut replies));
        (end, String::from_utf8(replies).unwrap())
    }

    #[test]
    fn a_request_has_one_reply_and_it_is_read_as_it_was_written() {
        let (end, replies) = served("0\n0\n");
        assert_eq!(end, Ok(()));
        let lines: Vec<&str> = replies.lines().collect();
        let read: Vec<Reply> = lines.iter().copied().flat_map(Reply::from_line).collect();
        assert_eq!(read.len(), 2);
        assert_eq!(read[0].answer, read[1].answer);
        assert!(read[0].matches > 0 && !read[0].time.is_zero());
        assert_eq!([read[0].to_line(), read[1].to_line()], lines[..]);
    }

    #[test]
    fn other_requests_end_it() {
        let past_the_last = jobs::compared().concat().len().to_string();
        for request in [past_the_last.as_str(), "-1", "", "one"] {
            let (end, replies) = served(&format!("{request}\n"));
            assert_eq!(end, Err(format!("no job has the index {request}")));
            assert!(replies.is_empty());
        }
        assert_eq!(served(""), (Ok(()), String::new()));
    }
}
