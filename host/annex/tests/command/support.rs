//! Folders with files, and runs of the command in them.

use hornbeamlet::{KIT, VERSION};
use std::fs;
use std::io::Write;
use std::path::{Path, PathBuf};
use std::process::{Command, Output, Stdio};

/// The settings of the document's first example.
pub const P1: &str = "-k 2 -b 2 -a 8 -m 0";
/// Those of its fifth.
pub const P5: &str = "-k 1 -b 1 -a 6 -m 0";

/// A folder of its own for each test, in which the command is run.
pub struct Folder(pub PathBuf);

/// What came of a run.
#[derive(Debug, PartialEq)]
pub struct Run {
    pub status: i32,
    pub output: String,
    pub complaints: String,
}

impl Folder {
    pub fn new(test: &str, files: &[(&str, &[u8])]) -> Folder {
        let path = Path::new(env!("CARGO_TARGET_TMPDIR")).join(test);
        let _ = fs::remove_dir_all(&path);
        fs::create_dir_all(&path).unwrap();
        for (name, bytes) in files {
            fs::write(path.join(name), bytes).unwrap();
        }
        Folder(path)
    }

    pub fn command(&self, line: &str) -> Command {
        let mut command = Command::new(env!("CARGO_BIN_EXE_annex"));
        command.current_dir(&self.0).args(line.split_whitespace());
        command.stdin(Stdio::null());
        command
    }

    pub fn run(&self, line: &str) -> Run {
        ended(self.command(line).output().unwrap())
    }

    /// A run that is given something on standard input. It may end before it has
    /// read all of it.
    pub fn fed(&self, line: &str, input: &[u8]) -> Run {
        let mut command = self.command(line);
        command.stdin(Stdio::piped()).stdout(Stdio::piped());
        let mut running = command.stderr(Stdio::piped()).spawn().unwrap();
        let _ = running.stdin.take().unwrap().write_all(input);
        ended(running.wait_with_output().unwrap())
    }

    /// The output of a run that is done without complaint.
    pub fn done(&self, line: &str) -> String {
        let run = self.run(line);
        assert_eq!((run.status, run.complaints.as_str()), (0, ""), "{line}");
        run.output
    }

    /// The complaint of a run that writes nothing else.
    pub fn complaint(&self, line: &str, status: i32) -> String {
        let run = self.run(line);
        assert_eq!((run.status, run.output.as_str()), (status, ""), "{line}");
        let complaint = run.complaints.strip_prefix("annex: ").unwrap();
        complaint.strip_suffix('\n').unwrap().to_string()
    }
}

pub fn ended(output: Output) -> Run {
    Run {
        status: output.status.code().unwrap(),
        output: String::from_utf8(output.stdout).unwrap(),
        complaints: String::from_utf8(output.stderr).unwrap(),
    }
}

/// P1 in FASTA and P5 in plain letters.
pub fn examples(test: &str) -> Folder {
    Folder::new(
        test,
        &[
            ("p1-first.fa", b">p1-first\nACCGT\n"),
            ("p1-second.fa", b">p1-second of the document\nACG\nGT\n"),
            ("p5.txt", b"AAA\n"),
        ],
    )
}

/// The repository's own examples.
pub fn own_examples() -> Folder {
    let top = Path::new(env!("CARGO_MANIFEST_DIR")).join("../..");
    Folder(top.join("examples"))
}

/// An output that is kept in a file, in which two words stand for the version and
/// for the kit, which change by themselves.
pub fn golden(name: &str) -> String {
    let folder = Path::new(env!("CARGO_MANIFEST_DIR")).join("tests/command/golden");
    let kept = fs::read_to_string(folder.join(name)).unwrap();
    kept.replace("@VERSION@", VERSION).replace("@KIT@", KIT)
}

/// The lines of an output that are no comments.
pub fn uncommented(output: &str) -> Vec<&str> {
    output
        .lines()
        .filter(|line| !line.starts_with('#'))
        .collect()
}
