//! Many second sequences, from one file, from several and from standard input.

use crate::support::{uncommented, Folder, P1};

fn files(test: &str) -> Folder {
    Folder::new(
        test,
        &[
            ("first.fa", b">x\nACCGT\n"),
            ("one.fa", b">one\nACGGT\n"),
            ("two.fa", b">two\nACCGT\n>one\nACGGT\n"),
            ("bad.fa", b">bad\nACG-T\n"),
            ("good.fa", b"A"),
            ("many.fa", b">1\nA\n>2\nA\n"),
        ],
    )
}

#[test]
fn several_files_are_one_batch() {
    let folder = files("several");
    let together = folder.run(&format!("{P1} --tsv first.fa one.fa two.fa"));
    assert_eq!(together.status, 0);
    let expected = "annex: warning: records 1, 3 have the same name, one; \
                    their numbers tell them apart\n";
    assert_eq!(together.complaints, expected);
    let records = uncommented(&together.output);
    let records = records.iter().map(|line| line.rsplit('\t').next().unwrap());
    assert!(records.eq(["record", "1", "1", "2", "2", "3", "3"]));
    let files = together
        .output
        .lines()
        .filter(|line| line.starts_with("#second"));
    let files: Vec<&str> = files.collect();
    assert_eq!(files.len(), 3);
    for (line, file) in files.iter().zip(["one.fa", "two.fa", "two.fa"]) {
        assert!(line.contains(&format!(",\"file\":\"{file}\",")), "{line}");
    }
}

/// Each record of a batch has the clauses that it has alone.
#[test]
fn a_record_of_a_batch_is_compared_as_alone() {
    let folder = files("alone");
    let clauses = |output: &str| -> Vec<String> {
        let rows = uncommented(output).into_iter().skip(1);
        let without_record = rows.map(|row| row.rsplit_once('\t').unwrap().0.to_string());
        without_record.collect()
    };
    let alone = folder.done(&format!("{P1} --tsv first.fa one.fa"));
    let batch = folder.run(&format!("{P1} --tsv first.fa bad.fa one.fa two.fa"));
    assert_eq!(clauses(&batch.output)[..2], clauses(&alone));
}

#[test]
fn one_dash_is_standard_input() {
    let folder = files("input");
    let named = folder.done(&format!("{P1} first.fa one.fa"));
    let listing = |output: &str| output.split_once("\n\n  ").unwrap().1.to_string();
    let second = folder.fed(&format!("{P1} first.fa -"), b">one\nACGGT\n");
    assert_eq!((second.status, second.complaints.as_str()), (0, ""));
    assert!(second
        .output
        .contains("\nSecond: one, 5 letters, none masked, in standard input\n"));
    assert_eq!(listing(&second.output), listing(&named));
    let first = folder.fed(&format!("{P1} - one.fa"), b"ACCGT");
    assert!(first
        .output
        .contains("\nFirst: standard-input, 5 letters, none masked, in standard input\n"));
    assert_eq!(listing(&first.output), listing(&named));
    let empty = folder.fed("first.fa -", b"");
    assert!(empty
        .complaints
        .starts_with("annex: standard input: the file is empty, "));
    assert_eq!(empty.status, 2);
}

/// A batch whose output goes into a file has all there: who was refused and why,
/// and how many came out in which way.
#[test]
fn a_redirected_batch_tells_refusals_in_words() {
    let folder = files("redirected");
    let words = "refused, number 6: record 2, bad, has the letter '-' at place 4, \
                 on line 2 of bad.fa; a gap is no letter; take it out";
    let text = folder.run(&format!("{P1} first.fa one.fa bad.fa"));
    assert!(text
        .output
        .contains(&format!("\n  Not compared: {words}.\n")));
    let summary = "\n\n2 records: 1 with clauses (2 clauses in all), 0 without, 1 refused.\n";
    assert!(text.output.ends_with(summary));
    for format in ["--tsv", "--paf"] {
        let output = folder
            .run(&format!("{P1} {format} first.fa one.fa bad.fa"))
            .output;
        assert!(output.contains(&format!(",\"refusal\":\"{words}\"}}\n")));
        let batch = r#"{"records":2,"with_clauses":1,"without":0,"refused":1,"not_compared":0,"#;
        assert!(output.contains(&format!("\n#batch {batch}\"clauses\":2}}\n")));
    }
    let all = folder.run(&format!("{P1} first.fa bad.fa bad.fa"));
    assert_eq!(all.output.matches("  Not compared: ").count(), 2);
    assert!(all
        .output
        .ends_with("\n2 records: 0 with clauses (0 clauses in all), 0 without, 2 refused.\n"));
    assert_eq!(all.status, 1);
}

#[test]
fn a_refusal_of_settings_or_first_sequence_is_told_once() {
    let folder = files("once");
    assert!(folder
        .complaint("-k 0 good.fa many.fa", 1)
        .starts_with("refused, number 1: "));
    assert!(folder
        .complaint("bad.fa many.fa", 1)
        .starts_with("refused, number 6: "));
    let run = folder.run("-b 0 --json good.fa many.fa");
    assert_eq!(run.output.matches("\"number\":2").count(), 1);
    assert!(run.output.contains("\"refused\":1,\"not_compared\":1,"));
    assert_eq!((run.status, run.complaints.lines().count()), (1, 1));
}

/// Where nothing was compared, there is nothing that looks like a listing.
#[test]
fn a_refusal_of_all_leaves_no_headings() {
    let folder = files("no-headings");
    for format in ["--tsv", "--paf"] {
        let run = folder.run(&format!("{P1} {format} first.fa bad.fa"));
        assert!(uncommented(&run.output).is_empty());
        assert!(run.output.contains("\"refusal\":\"refused, number 6: "));
        assert_eq!(run.status, 1);
    }
}
