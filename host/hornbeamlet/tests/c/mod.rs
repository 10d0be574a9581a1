//! C programs against the header. The compiler is the one Rust links with.

use crate::native::top;
use std::path::{Path, PathBuf};
use std::process::Command;

/// The P1 and P4 of the document, asked from C, with letters in lower case.
pub const DOCUMENT: &str = "host/hornbeamlet/tests/header.c";

/// What that program prints.
pub const ANSWERS: &str = "\
2 3 2
1 1 1
0 0 0 1 3 2 2 list 1 5 1 5 3 0 0 0 0 0 0 0
7 0 2 0 0 0 0 list 0 0 0 0 0 0 0 0 0 0 0 0
0 0 0 2 7 3 7 list 1 5 1 5 3 0 1 5 1 5 4 1
7 0 3 0 0 0 0 list 0 0 0 0 0 0 0 0 0 0 0 0
0 0 0 2 4 2 2 list 3 5 2 5 2 0 3 5 1 3 2 1
10 0 0 0 0 0 0 list 3 5 2 5 2 0 3 5 1 3 2 1
0 0 0 2 3 2 2 work 3 2 2
0 0 0 3 4 3 5 work 2 2 2
0 0 0 1 2 2 1 work 0 0 0
11 0 4 0 0 0 0 index 0 0 0 0 0
0 0 0 4 0 0 0 index 1 2 3 4 0
0 0 0 1 3 2 2 list 1 5 1 5 3 0 0 0 0 0 0 0
0 0 0 2 7 3 7 list 1 5 1 5 3 0 1 5 1 5 4 1
12 0 0 0 0 0 0 list 1 5 1 5 3 0 1 5 1 5 4 1
0 0 0 2 3 2 2 work 3 2 2
0 0 0 3 4 3 5 work 2 2 2
1 0 0 0 0 0 0 index 1 2 3 4 0
11140000000100000003000000020000000000000002D3
0 1 3 2 2 0
23 0 0 0 0 0
1
";

/// A file of the tests' own, which the names tell apart.
pub fn scratch(name: &str) -> PathBuf {
    Path::new(env!("CARGO_TARGET_TMPDIR")).join(name)
}

/// The program of this name, made of a source without a warning and linked as
/// the flags say.
pub fn compile(name: &str, source: &Path, flags: &[String]) -> PathBuf {
    let program = scratch(name);
    let compiled = Command::new("cc")
        .args(["-std=c99", "-pedantic", "-Wall", "-Wextra", "-Werror"])
        .arg("-o")
        .arg(&program)
        .arg(top().join(source))
        .args(flags)
        .output()
        .unwrap();
    let complaints = String::from_utf8_lossy(&compiled.stderr);
    assert!(compiled.status.success(), "{complaints}");
    program
}

/// The flag for the header's folder.
pub fn include() -> String {
    format!("-I{}", top().join("include").display())
}

/// What a program prints that ends well.
pub fn printed(command: &mut Command) -> String {
    let run = command.output().unwrap();
    let complaints = String::from_utf8_lossy(&run.stderr);
    assert!(run.status.success(), "{command:?}: {complaints}");
    String::from_utf8(run.stdout).unwrap()
}
