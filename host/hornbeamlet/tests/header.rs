//! The header serves a C program: it compiles without a warning, links with the
//! archive and gives the document's answers. So does the example in its head.

#![forbid(unsafe_code)]

mod c;
mod native;

use c::{compile, include, printed, scratch, ANSWERS, DOCUMENT};
use native::{folder, top};
use std::fs;
use std::path::Path;
use std::process::Command;

/// What the example prints.
const ENTRIES: &str = "\
1 to 20, 23 to 42, weight 8, forward
21 to 40, 1 to 20, weight 8, reverse
";

#[test]
fn a_c_program_gets_the_documents_answers() {
    assert_eq!(answered("header", Path::new(DOCUMENT)), ANSWERS);
}

#[test]
fn the_headers_example_is_a_whole_program() {
    let source = scratch("example.c");
    fs::write(&source, example()).unwrap();
    assert_eq!(answered("example", &source), ENTRIES);
}

/// What a program prints that is linked with the archive.
fn answered(name: &str, source: &Path) -> String {
    let archive = folder().join("libhornbeamlet.a");
    let flags = [include(), archive.display().to_string()];
    printed(&mut Command::new(compile(name, source, &flags)))
}

/// The example: of the last part of the head comment, the lines that stand three
/// blanks in, and the empty ones.
fn example() -> String {
    let header = fs::read_to_string(top().join("include/hornbeamlet.h")).unwrap();
    let (_, part) = header.split_once("\n * EXAMPLE\n").unwrap();
    let (part, _) = part.split_once("\n */\n").unwrap();
    let lines = part.lines().map(|line| line.strip_prefix(" *").unwrap());
    let code = lines.filter_map(|line| match line {
        "" => Some(line),
        _ => line.strip_prefix("   "),
    });
    code.map(|line| format!("{line}\n")).collect()
}
