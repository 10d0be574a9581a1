//! What a listing says of where it comes from.

use crate::support::{examples, own_examples, Folder, P1};
use hornbeamlet::{KIT, VERSION};
use std::process::Command;

#[test]
fn the_version_names_the_kit() {
    let folder = examples("version");
    let version = folder.done("--version");
    assert_eq!(version, format!("annex {VERSION}, proved with {KIT}\n"));
    assert_eq!(folder.done("-V p5.txt"), version);
    assert!(!KIT.is_empty() && KIT != "unknown kit");
}

/// What README shows an auditor, done by the system's own commands.
#[test]
fn the_digests_are_those_of_an_auditor() {
    let folder = own_examples();
    let recomputed = |file: &str| {
        let line = format!("grep -v '>' {file} | tr -d '\\n' | sha256sum");
        let mut shell = Command::new("sh");
        let output = shell.args(["-c", &line]).current_dir(&folder.0).output();
        String::from_utf8_lossy(&output.unwrap().stdout[..64]).into_owned()
    };
    if Command::new("sha256sum").arg("--version").output().is_err() {
        println!("sha256sum is not there, so this is not tried");
        return;
    }
    let digests = ["strain.fa", "reference.fa"].map(recomputed);
    for format in ["", "--tsv", "--json", "--paf"] {
        let output = folder.done(&format!("strain.fa reference.fa {format}"));
        for digest in &digests {
            assert_eq!(output.matches(digest.as_str()).count(), 1, "{format}");
        }
    }
}

/// Version, kit, settings and both files, in every format.
#[test]
fn every_format_names_what_was_compared() {
    let folder = examples("named");
    for format in ["", "--tsv", "--json", "--paf"] {
        let output = folder.done(&format!("{P1} p1-first.fa p1-second.fa {format}"));
        for word in [VERSION, KIT, "p1-first.fa", "p1-second.fa", "both", "form"] {
            assert!(output.contains(word), "{format}: {word}");
        }
    }
    for format in ["--tsv", "--paf"] {
        let output = folder.done(&format!("{P1} p1-first.fa p1-second.fa {format}"));
        let settings = r#"{"k":2,"b":2,"a":8,"m":0,"strand":"both","masked":"form"}"#;
        assert!(output.contains(&format!("\n#settings {settings}\n")));
    }
}

/// A name that has a line end in it does not end a line of the listing.
#[test]
fn the_name_of_a_file_stays_on_its_line() {
    let folder = Folder::new("odd-name", &[("a\tb\nc.fa", b">x\nACCGT\n")]);
    for format in ["--tsv", "--paf"] {
        let mut command = folder.command(&format!("{P1} {format}"));
        let output = command.args(["a\tb\nc.fa", "a\tb\nc.fa"]).output().unwrap();
        let output = String::from_utf8(output.stdout).unwrap();
        assert_eq!(output.matches(r#""file":"a\\tb\\nc.fa""#).count(), 2);
    }
}
