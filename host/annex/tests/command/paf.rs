//! The format PAF as its own readers take it.

use crate::support::{own_examples, uncommented, Folder};
use std::fs;
use std::process::Command;

/// Column 10 counts bases of the block in column 11, so that it is never more, and
/// the tags stand behind the twelve columns.
#[test]
fn no_line_has_more_matching_bases_than_bases() {
    let files: [(&str, &[u8]); 2] = [("a.txt", &[b'A'; 40]), ("b.txt", &b"ACCA".repeat(60))];
    let folder = Folder::new("repeats", &files);
    let mut heavier = 0;
    for line in [
        "-k 1 -b 1 -m 0 a.txt a.txt",
        "-k 3 -b 40 b.txt b.txt",
        "-k 9 b.txt b.txt",
    ] {
        let output = folder.done(&format!("-a 1000 --paf {line}"));
        for line in uncommented(&output) {
            let columns: Vec<&str> = line.split('\t').collect();
            let number = |at: usize| columns[at].parse::<u64>().unwrap();
            let tag = |at: usize, name| columns[at].strip_prefix(name).unwrap().parse::<u64>();
            assert!(number(9) <= number(10), "{line}");
            assert!(number(3) - number(2) <= number(10) && number(8) - number(7) <= number(10));
            assert!(tag(12, "cm:i:").unwrap() >= number(9));
            assert!(tag(13, "cl:i:").unwrap() >= 1 && tag(14, "rc:i:") == Ok(1));
            heavier += u64::from(tag(12, "cm:i:").unwrap() > number(10));
        }
    }
    assert!(
        heavier > 0,
        "the jobs have no clause whose weight is above its bases"
    );
}

/// miniasm is a reader of the format that others rely on. It drops what it cannot
/// read, so what it keeps tells what it read.
#[test]
fn miniasm_reads_every_line() {
    if Command::new("miniasm").arg("-V").output().is_err() {
        println!("miniasm is not there, so this is not tried");
        return;
    }
    let folder = own_examples();
    let output = folder.done("-k 5 -m 0 --paf strain.fa reference.fa turned.fa");
    let file = Folder::new("miniasm", &[]).0.join("listing.paf");
    fs::write(&file, &output).unwrap();
    // No clause is too short or too light for it.
    let mut miniasm = Command::new("miniasm");
    miniasm
        .args(["-R", "-s", "0", "-m", "0", "-h", "100000"])
        .arg(&file);
    let told = String::from_utf8_lossy(&miniasm.output().unwrap().stderr).into_owned();
    let hits = format!("read {} hits", uncommented(&output).len());
    assert!(told.contains(&hits), "{hits}: {told}");
}
