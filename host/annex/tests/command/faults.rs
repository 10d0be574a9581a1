//! Every fault of the command line and of a file. Nothing is written to standard
//! output then.

use crate::support::{examples, Folder};
use std::fs;

#[test]
fn every_fault_of_the_command_line() {
    let folder = examples("usage");
    let files = "two files at least are needed, FIRST and SECOND, and";
    for (line, words) in [
        ("", format!("{files} 0 given (annex --help)")),
        ("p5.txt", format!("{files} 1 given (annex --help)")),
        (
            "--fast p5.txt p5.txt",
            "there is no option --fast (annex --help)".to_string(),
        ),
        (
            "p5.txt p5.txt -k",
            "-k needs a whole number from 1 to 31 after it".to_string(),
        ),
        (
            "-k=5 p5.txt p5.txt",
            "-k needs a whole number from 1 to 31, not '=5'".to_string(),
        ),
        (
            "-k -1 p5.txt p5.txt",
            "-k needs a whole number from 1 to 31, not '-1'".to_string(),
        ),
        (
            "-m 1,6384 p5.txt p5.txt",
            "-m needs a whole number from 0 to 16,384, not '1,6384'".to_string(),
        ),
        (
            "--strand reverse p5.txt p5.txt",
            "--strand needs forward or both, not 'reverse'".to_string(),
        ),
        (
            "p5.txt p5.txt --strand",
            "--strand needs forward or both after it".to_string(),
        ),
        (
            "--masked soft p5.txt p5.txt",
            "--masked needs form or break, not 'soft'".to_string(),
        ),
        (
            "p5.txt p5.txt --masked",
            "--masked needs form or break after it".to_string(),
        ),
        (
            "--tsv --json p5.txt p5.txt",
            "only one of --tsv, --json and --paf can be had at once".to_string(),
        ),
        (
            "- -",
            "standard input, -, can be read only once".to_string(),
        ),
    ] {
        assert_eq!(folder.complaint(line, 2), words);
    }
    let empty = folder.command("p5.txt p5.txt -k").arg("").output().unwrap();
    let told = String::from_utf8(empty.stderr).unwrap();
    assert_eq!(
        told,
        "annex: -k needs a whole number from 1 to 31, not ''\n"
    );
}

#[test]
fn numbers_may_have_their_commas() {
    let folder = examples("commas");
    let output = folder.done("-b 1,024 -m 16,384 p5.txt p5.txt");
    assert!(output.contains("\n  gap bound     b   1,024 "));
}

#[test]
fn every_fault_of_a_file() {
    let folder = Folder::new(
        "faults",
        &[
            ("a.txt", b"ACGT"),
            ("empty.fa", b""),
            ("blank.fa", b"\n\r\n"),
            ("binary.fa", b">x\nAC\0GT"),
            ("many.fa", b">1\nA\n>2\nA\n"),
            ("late.fa", b"ACGT\n>1\nA\n"),
        ],
    );
    fs::create_dir(folder.0.join("folder")).unwrap();
    let empty = "the file is empty, without a name line and letters; was it written to its end?";
    for (line, words) in [
        ("missing.fa a.txt", "missing.fa: there is no such file"),
        ("a.txt missing.fa", "missing.fa: there is no such file"),
        (
            "a.txt folder",
            "folder: this is a directory; name the files in it",
        ),
        ("empty.fa a.txt", &format!("empty.fa: {empty}")),
        ("a.txt blank.fa", &format!("blank.fa: {empty}")),
        (
            "a.txt binary.fa",
            "binary.fa: this is not text: byte 00 at place 3 of line 2; \
             save the sequence as plain text",
        ),
        (
            "many.fa a.txt",
            "many.fa: this holds 2 records and FIRST must hold one; a file of many goes second",
        ),
        (
            "a.txt late.fa",
            "late.fa: letters stand before the first name line, which is line 2; \
             begin the file with a name line, >name",
        ),
    ] {
        assert_eq!(folder.complaint(line, 2), words);
    }
}

/// Of many files all that are at fault are told, and nothing is compared.
#[test]
fn every_file_at_fault_is_told_at_once() {
    let folder = Folder::new("all-faults", &[("a.txt", b"ACGT"), ("empty.fa", b"")]);
    let run = folder.run("missing.fa a.txt gone.fa empty.fa --tsv");
    let told: Vec<&str> = run.complaints.lines().collect();
    assert_eq!((run.status, run.output.as_str(), told.len()), (2, "", 3));
    assert_eq!(told[0], "annex: missing.fa: there is no such file");
    assert_eq!(told[1], "annex: gone.fa: there is no such file");
    assert!(told[2].starts_with("annex: empty.fa: the file is empty"));
}

#[test]
fn other_kinds_of_files_are_named() {
    let kinds: [(&str, &[u8], &str); 8] = [
        (
            "x.gz",
            b"\x1F\x8B\x08\0\0",
            "the file is compressed (gzip); unpack it first",
        ),
        (
            "x.xz",
            b"\xFD7zXZ\0\0",
            "the file is compressed (xz); unpack it first",
        ),
        (
            "x.bz2",
            b"BZh91AY&SY",
            "the file is compressed (bzip2); unpack it first",
        ),
        (
            "x.zst",
            b"\x28\xB5\x2F\xFD\x04",
            "the file is compressed (zstd); unpack it first",
        ),
        ("x.zip", b"PK\x03\x04\x14\0", "the file is a zip archive"),
        (
            "x.fq",
            b"@read\nACGT\n+\nIIII\n",
            "the file is FASTQ; turn it into FASTA first",
        ),
        (
            "x.gb",
            b"LOCUS       X 4 bp\nORIGIN\n",
            "the file is GenBank; turn it into FASTA first",
        ),
        (
            "x.txt",
            b"\xFF\xFEA\0C\0",
            "the file is text in UTF-16; save it as plain text",
        ),
    ];
    let files: Vec<(&str, &[u8])> = kinds.iter().map(|it| (it.0, it.1)).collect();
    let folder = Folder::new("kinds", &files);
    fs::write(folder.0.join("a.txt"), "ACGT").unwrap();
    for (name, _, words) in kinds {
        for line in [format!("{name} a.txt"), format!("a.txt {name} --json")] {
            let complaint = folder.complaint(&line, 2);
            assert!(
                complaint.starts_with(&format!("{name}: {words}")),
                "{complaint}"
            );
        }
    }
}

/// A file that is no sequence of this size is not read to its end: an endless one
/// is told as well.
#[test]
fn reading_stops_where_a_file_is_too_large() {
    let folder = Folder::new("large", &[("a.txt", b"ACGT")]);
    let large = b"ACGT\n".repeat(210_000);
    fs::write(folder.0.join("large.fa"), &large).unwrap();
    let told = "the file is larger than 1 MiB, and no sequence of up to 16,384 letters takes so \
                much; give the one that is meant in a file of its own";
    assert_eq!(
        folder.complaint("large.fa a.txt", 2),
        format!("large.fa: {told}")
    );
    let run = folder.fed("- a.txt", &large.repeat(4));
    assert_eq!(run.complaints, format!("annex: standard input: {told}\n"));
    // As a second file it may have many records, and this one is just too long.
    assert!(folder
        .complaint("a.txt large.fa", 1)
        .starts_with("refused, number 5: "));
}
