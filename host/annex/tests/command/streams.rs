//! Outputs that are closed or full.

use crate::support::{ended, examples, Folder, P5};
use std::fs::File;
use std::process::Stdio;

fn job() -> String {
    format!("{P5} p5.txt p5.txt")
}

/// What is written there is refused, where there is such a device.
fn full() -> Option<File> {
    File::options().write(true).open("/dev/full").ok()
}

#[test]
fn a_reader_that_has_seen_enough_is_no_fault() {
    let folder = examples("closed");
    let mut command = folder.command(&job());
    let mut running = command
        .stdout(Stdio::piped())
        .stderr(Stdio::piped())
        .spawn()
        .unwrap();
    drop(running.stdout.take());
    let run = ended(running.wait_with_output().unwrap());
    assert_eq!((run.status, run.complaints.as_str()), (0, ""));
}

#[test]
fn an_output_that_cannot_be_written_is_a_fault() {
    let Some(full) = full() else { return };
    let folder = examples("full");
    let run = ended(folder.command(&job()).stdout(full).output().unwrap());
    assert_eq!(run.status, 2);
    assert!(run
        .complaints
        .starts_with("annex: the output could not be written: "));
}

/// Whoever cannot be told of a refusal, a fault or a warning sees it by the exit
/// status.
#[test]
fn a_complaint_that_cannot_be_written_is_a_fault() {
    let files: [(&str, &[u8]); 2] = [("a.txt", b"ACGT"), ("name.fa", b">name\n")];
    let folder = Folder::new("full-error", &files);
    for line in ["-k 0 a.txt a.txt", "a.txt", "a.txt name.fa"] {
        let Some(full) = full() else { return };
        let run = ended(folder.command(line).stderr(full).output().unwrap());
        assert_eq!(run.status, 2, "{line}");
    }
    let Some(full) = full() else { return };
    let run = ended(folder.command("a.txt a.txt").stderr(full).output().unwrap());
    assert_eq!(run.status, 0);
}
