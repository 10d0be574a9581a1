//! The example in Python gives what the wrapper gives. Where there is no Python
//! the tests say so and pass.

#![forbid(unsafe_code)]

mod native;

use hornbeamlet::{with_library, Entry, Listing, Masked, Refusal, Settings};
use native::{folder, top};
use std::collections::BTreeSet;
use std::fs;
use std::path::{Path, PathBuf};
use std::process::{Command, Output};

const HEADING: &str = "clause\tfirst_start\tfirst_end\tsecond_start\tsecond_end\tweight\tstrand\n";

#[test]
fn the_command_lists_what_the_wrapper_lists() {
    let files = ["strain.fa", "reference.fa"].map(|name| top().join("examples").join(name));
    let Some(told) = command(&files) else { return };
    let [first, second] = files.each_ref().map(|file| letters(file));
    let listing = listed(Settings::default(), &first, &second).unwrap();
    assert!(!listing.entries.is_empty());
    let clauses = (1..).zip(&listing.entries).map(clause);
    assert_eq!(text(&told.stderr), "");
    assert_eq!(
        text(&told.stdout),
        HEADING.to_owned() + &clauses.collect::<String>()
    );
    assert_eq!(told.status.code(), Some(0));
}

#[test]
fn the_command_tells_a_refusal() {
    let files = [
        written("good.fa", ">good\nACGT\n"),
        written("bad.fa", ">bad\nAC\nGu\n"),
    ];
    let Some(told) = command(&files) else { return };
    let refusal = listed(Settings::default(), b"ACGT", b"ACGu").unwrap_err();
    let (number, sequence, detail) = (refusal.number, refusal.sequence, refusal.detail);
    let expected = format!("refusal {number}, sequence {sequence}, detail {detail}\n");
    assert!(
        text(&told.stderr).ends_with(&expected),
        "{}",
        text(&told.stderr)
    );
    assert_eq!((number, sequence, detail), (6, 2, 4));
    assert_eq!(told.status.code(), Some(1));
}

#[test]
fn the_command_tells_bad_usage_and_bad_files() {
    let missing = top().join("examples/missing.fa");
    let two = written("two.fa", ">one\nACGT\n>two\nACGT\n");
    for files in [vec![], vec![missing, two.clone()], vec![two.clone(), two]] {
        let Some(told) = command(&files) else { return };
        assert_eq!(told.status.code(), Some(2), "{files:?}");
        assert_eq!(text(&told.stderr).lines().count(), 1, "{files:?}");
    }
}

/// More entries than the module lends room for at first.
#[test]
fn the_module_lends_what_refusal_8_names() {
    let (first, second) = ("ACGTTGCA".repeat(90), "TGCAN".repeat(70));
    let arguments = format!("'{first}', b'{second}', k=3, b=1, a=1024, m=0");
    let Some(told) = module(&arguments) else {
        return;
    };
    let settings = Settings {
        k: 3,
        b: 1,
        a: 1_024,
        m: 0,
        ..Settings::default()
    };
    let listing = listed(settings, first.as_bytes(), second.as_bytes()).unwrap();
    assert!(listing.entries.len() > 64);
    assert_eq!(told, numbers(&listing));
}

#[test]
fn the_module_takes_masked_letters_as_it_is_asked_to() {
    let (first, second) = ("ACGTTGCAacgttgCAGGT", "ACGTTGCANACGTTG");
    let arguments = format!("'{first}', '{second}', k=4, b=8, m=0");
    let asked = [
        (Masked::Form, ""),
        (Masked::Form, ", mask=MASKED_FORM"),
        (Masked::Break, ", mask=MASKED_BREAK"),
    ];
    let mut all_told = BTreeSet::new();
    for (masked, mask) in asked {
        let Some(told) = module(&(arguments.clone() + mask)) else {
            return;
        };
        let settings = Settings {
            k: 4,
            b: 8,
            m: 0,
            masked,
            ..Settings::default()
        };
        let listing = listed(settings, first.as_bytes(), second.as_bytes()).unwrap();
        assert_eq!(told, numbers(&listing), "{masked}");
        all_told.insert(told);
    }
    assert_eq!(all_told.len(), 2);
}

/// One that is none, and others whose lowest 32 bits are not what was asked for.
#[test]
fn the_module_tells_a_mask_setting_that_is_none() {
    for mask in ["2", "-1", "2**32", "2**32 + 1"] {
        let Some(told) = module(&format!("'A', 'A', mask={mask}")) else {
            return;
        };
        assert_eq!(told, "refusal 10, sequence 0, detail 0\n");
    }
}

/// What the module gives for these arguments, in one line.
fn module(arguments: &str) -> Option<String> {
    let asked = format!(
        "from hornbeamlet import compare, Refused, MASKED_FORM, MASKED_BREAK
try:
    listing = compare({arguments})
    print(*listing[:4], *(n for entry in listing.entries for n in entry))
except Refused as refusal:
    print(refusal)"
    );
    let told = python(&["-c".into(), asked.into()])?;
    assert_eq!(text(&told.stderr), "");
    Some(text(&told.stdout).to_string())
}

fn listed(settings: Settings, first: &[u8], second: &[u8]) -> Result<Listing, Refusal> {
    with_library(|library| library.list(settings, first, second))
}

fn numbers(listing: &Listing) -> String {
    let answer = listing.answer;
    let mut words = [answer.listed, answer.matches, answer.widest, answer.links]
        .map(|number| number.to_string())
        .to_vec();
    words.extend(listing.entries.iter().flat_map(fields));
    words.join(" ") + "\n"
}

fn clause((clause, entry): (u32, &Entry)) -> String {
    format!("{clause}\t{}\n", fields(entry).join("\t"))
}

fn fields(entry: &Entry) -> [String; 6] {
    [
        entry.first_start.to_string(),
        entry.first_end.to_string(),
        entry.second_start.to_string(),
        entry.second_end.to_string(),
        entry.weight.to_string(),
        entry.strand.to_string(),
    ]
}

/// The letters of a file of one record.
fn letters(file: &Path) -> Vec<u8> {
    let text = fs::read_to_string(file).unwrap();
    let lines = text.lines().filter(|line| !line.starts_with('>'));
    lines.collect::<String>().into_bytes()
}

fn written(name: &str, text: &str) -> PathBuf {
    let file = Path::new(env!("CARGO_TARGET_TMPDIR")).join(name);
    fs::write(&file, text).unwrap();
    file
}

fn command(files: &[PathBuf]) -> Option<Output> {
    let script = top().join("examples/hornbeamlet.py");
    let words: Vec<PathBuf> = [script].into_iter().chain(files.iter().cloned()).collect();
    python(&words)
}

/// What Python says, or nothing where it is not there.
fn python(words: &[PathBuf]) -> Option<Output> {
    let mut command = Command::new("python3");
    command.env("HORNBEAMLET_NATIVE", folder().canonicalize().unwrap());
    command.env("PYTHONPATH", top().join("examples"));
    command.env("PYTHONDONTWRITEBYTECODE", "1");
    let said = command.args(words).output().ok();
    if said.is_none() {
        println!("python3 is not there, so this is not tried");
    }
    said
}

fn text(bytes: &[u8]) -> &str {
    std::str::from_utf8(bytes).unwrap()
}
