//! Letters in lower case: they form k-mers as capitals do, or break them.

use crate::support::{own_examples, uncommented, Folder};
use std::fs;
use std::process::Command;

const SETTINGS: &str = "-k 5 -b 5 -m 0 --tsv";

/// A strain whose middle is masked, and what it shares: the whole as capitals, the
/// whole masked, and the whole turned round with another stretch masked.
fn masked(test: &str) -> Folder {
    Folder::new(
        test,
        &[
            (
                "strain.fa",
                b">strain\nGATTACAGGC\nggatcacagt\nCTACACTGCT\n",
            ),
            (
                "capitals.fa",
                b">capitals\nGATTACAGGCGGATCACAGTCTACACTGCT\n",
            ),
            ("lower.fa", b">lower\ngattacaggcggatcacagtctacactgct\n"),
            ("turned.fa", b">turned\nAGCAGTGTAGACTGTGATCCgcctgTAATC\n"),
        ],
    )
}

/// The clauses with a second sequence, without the names and the record.
fn clauses(folder: &Folder, line: &str) -> Vec<String> {
    let output = folder.done(&format!("{SETTINGS} {line}"));
    let rows = uncommented(&output).into_iter().skip(1);
    let rows = rows.map(|row| row.split('\t').skip(2).take(7).collect::<Vec<&str>>());
    rows.map(|row| row.join(" ")).collect()
}

#[test]
fn masked_letters_are_listed_as_their_capitals() {
    let folder = masked("as-capitals");
    for (second, strand) in [
        ("capitals.fa", "forward"),
        ("lower.fa", "forward"),
        ("turned.fa", "reverse"),
    ] {
        let whole = [format!("1 1 30 1 30 26 {strand}")];
        for line in ["", "--masked form"] {
            assert_eq!(
                clauses(&folder, &format!("{line} strain.fa {second}")),
                whole
            );
        }
    }
}

/// What is masked in either sequence is in no match, and parts the clauses by its
/// length. The mask is turned round with its sequence.
#[test]
fn masked_letters_break_kmers_where_they_are_to() {
    let folder = masked("broken");
    let line = "--masked break strain.fa";
    assert_eq!(
        clauses(&folder, &format!("{line} capitals.fa")),
        ["1 1 10 1 10 6 forward", "2 21 30 21 30 6 forward"]
    );
    assert_eq!(
        clauses(&folder, &format!("{line} turned.fa")),
        ["1 1 5 26 30 1 reverse", "2 21 30 1 10 6 reverse"]
    );
}

/// Each sequence tells how many of its letters are masked, also where they form
/// k-mers, and each listing what they did.
#[test]
fn every_format_tells_how_many_letters_are_masked() {
    let folder = masked("counted");
    let line = "-k 5 -m 0 strain.fa lower.fa capitals.fa";
    for masked in ["form", "break"] {
        let line = format!("{line} --masked {masked}");
        let text = folder.done(&line);
        assert!(text.contains("\nFirst: strain, 30 letters, 10 masked, in strain.fa\n"));
        assert!(text.contains("\nRecord 1: lower, 30 letters, 30 masked, in lower.fa\n"));
        assert!(text.contains("\nRecord 2: capitals, 30 letters, none masked, in capitals.fa\n"));
        let setting = format!("\n  masked letters   {masked}\n");
        assert_eq!(text.matches(&setting).count(), 2, "{text}");
        for format in ["--tsv", "--json", "--paf"] {
            let output = folder.done(&format!("{line} {format}"));
            for (name, count) in [("strain", 10), ("lower", 30), ("capitals", 0)] {
                let told = format!(
                    r#""name":"{name}","file":"{name}.fa","letters":30,"masked":{count},"sha256""#
                );
                assert_eq!(output.matches(&told).count(), 1, "{output}");
            }
            let setting = format!(r#""strand":"both","masked":"{masked}"}}"#);
            assert_eq!(output.matches(&setting).count(), 1, "{output}");
        }
    }
}

/// What README shows for RNA leaves names and the mask as they are.
#[test]
fn rna_is_taken_as_the_readme_shows() {
    let readme = fs::read_to_string(own_examples().0.join("../README.md")).unwrap();
    let (_, line) = readme.split_once("`awk ").unwrap();
    let (line, _) = line.split_once(" rna.fa | ./annex strain.fa -`").unwrap();
    let folder = Folder::new("rna", &[("rna.fa", b">Uu one\nACGUuacguN\nUUuu\n")]);
    let mut shell = Command::new("sh");
    shell.args(["-c", &format!("awk {line} rna.fa")]);
    let output = shell.current_dir(&folder.0).output().unwrap();
    let output = String::from_utf8(output.stdout).unwrap();
    assert_eq!(output, ">Uu one\nACGTtacgtN\nTTtt\n");
}
