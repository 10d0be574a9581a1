//! Sequences that have no clause because of their own letters, and the lines on
//! which letters stand.

use crate::support::{examples, Folder, P1};

/// A good sequence, and files that each hold one that has no k-mer.
fn odd(test: &str) -> Folder {
    Folder::new(
        test,
        &[
            ("good.fa", b">good\nACCGTACCGTACCGT\n"),
            ("name.fa", b">name ACCGTACCGTACCGT\n"),
            ("cut.fa", b">cut"),
            ("short.fa", b">short\nACCGTACCGTAC\n"),
            ("one.fa", b">one\nA\n"),
            ("all-n.fa", b">all-n\nNNNNNNNNNNNNNNNNNNNN\n"),
            ("broken.fa", b">broken\nACCGTNACCGTNACCGTNACCGT\n"),
            ("masked.fa", b">masked\nACCGTACCGTAcCGTACCGTACCGT\n"),
        ],
    )
}

/// Each sentence stands in all formats.
fn told(folder: &Folder, line: &str, sentence: &str) {
    let ends = [
        ("", format!("\n  No clause: {sentence}.\n")),
        ("--tsv", format!(",\"no_clause\":\"{sentence}\"}}\n")),
        ("--paf", format!(",\"no_clause\":\"{sentence}\"}}\n")),
        ("--json", format!("\"no_clause\":\"{sentence}\",")),
    ];
    for (format, end) in ends {
        let run = folder.run(&format!("{line} {format}"));
        assert_eq!(run.status, 0, "{line}");
        assert!(run.output.contains(&end), "{line}: {}", run.output);
    }
}

#[test]
fn a_sequence_without_a_kmer_has_a_sentence_of_its_own() {
    let folder = odd("no-kmer");
    let second = "the second sequence";
    let broken = "has no 13 letters in a row that are A, C, G or T, so no k-mer";
    for (file, sentence) in [
        ("name.fa", format!("{second}, name, has no letters")),
        ("cut.fa", format!("{second}, cut, has no letters")),
        (
            "short.fa",
            format!("{second}, short, has 12 letters, fewer than the k-mer length, 13"),
        ),
        (
            "one.fa",
            format!("{second}, one, has 1 letter, fewer than the k-mer length, 13"),
        ),
        ("all-n.fa", format!("{second}, all-n, {broken}")),
        ("broken.fa", format!("{second}, broken, {broken}")),
    ] {
        told(&folder, &format!("good.fa {file}"), &sentence);
    }
    let both = format!("the first sequence, cut, has no letters; {second}, all-n, {broken}");
    told(&folder, "cut.fa all-n.fa", &both);
    let neither =
        format!("the first sequence, cut, has no letters; {second}, name, has no letters");
    told(&folder, "-k 1 -b 1 -a 1 -m 0 cut.fa name.fa", &neither);
}

/// A masked base breaks a k-mer where it is to, and that is said where nothing else
/// does.
#[test]
fn a_sequence_without_a_kmer_that_is_not_masked_has_its_own_sentence() {
    let folder = odd("no-unmasked-kmer");
    let bases = "has no 14 letters in a row that are A, C, G or T";
    let line = "-k 14 --masked break good.fa";
    told(
        &folder,
        &format!("{line} masked.fa"),
        &format!(
            "the second sequence, masked, {bases} and not masked, so no k-mer (--masked break)"
        ),
    );
    told(
        &folder,
        &format!("{line} broken.fa"),
        &format!("the second sequence, broken, {bases}, so no k-mer"),
    );
    let formed = folder.done("-k 14 -m 0 good.fa masked.fa");
    assert!(formed.contains("\n  masked letters   form\n") && !formed.contains("No clause"));
    let enough = folder.done("-k 13 -m 0 --masked break good.fa masked.fa");
    assert!(enough.contains("\n  masked letters   break\n") && !enough.contains("No clause"));
}

#[test]
fn a_sequence_of_no_letters_is_warned_of() {
    let folder = odd("warned");
    let warned = |line: &str| {
        let run = folder.run(line);
        assert_eq!(run.status, 0);
        run.complaints
    };
    let ends = "has a name and no letters; what stands on a name line is not read as letters\n";
    assert_eq!(
        warned("good.fa name.fa"),
        format!("annex: warning: the second sequence, name, on line 1 of name.fa, {ends}")
    );
    assert_eq!(
        warned("cut.fa good.fa --json"),
        format!("annex: warning: the first sequence, cut, on line 1 of cut.fa, {ends}")
    );
    assert_eq!(
        warned("good.fa good.fa short.fa cut.fa --tsv"),
        format!("annex: warning: record 3, cut, on line 1 of cut.fa, {ends}")
    );
    for file in ["short.fa", "one.fa", "all-n.fa", "broken.fa"] {
        assert_eq!(warned(&format!("good.fa {file}")), "");
    }
}

#[test]
fn no_clause_is_said_so() {
    let folder = examples("none");
    let too_short = folder.done("-k 2 -b 2 -a 8 -m 6 p1-first.fa p1-second.fa");
    assert!(too_short.ends_with(
        "\n  No clause: none would span 6 bases in both sequences, on either strand.\n"
    ));
    let too_frequent = folder.done("-k 1 -b 1 -a 5 -m 0 p5.txt p5.txt");
    assert!(too_frequent.ends_with(
        "\n  No clause: the two have no k-mer in common that is used, on either strand.\n"
    ));
}

/// What is compared is what stands after the name of each file and its digest.
fn compared(output: &str) -> String {
    let lines = output.lines().filter(|line| !line.contains(", in "));
    lines.collect::<Vec<&str>>().join("\n")
}

#[test]
fn line_ends_of_any_kind_make_no_difference() {
    let folder = Folder::new(
        "line-ends",
        &[
            ("lf.fa", b">x\nACC\nGT\n>y\nAC\n"),
            ("crlf.fa", b">x\r\nACC\r\nGT\r\n>y\r\nAC\r\n"),
            ("cr.fa", b">x\rACC\rGT\r>y\rAC\r"),
            ("first.fa", b"ACCGT\r\n"),
        ],
    );
    let unix = compared(&folder.done(&format!("{P1} first.fa lf.fa")));
    assert!(unix.contains("SHA-256"));
    for other in ["crlf.fa", "cr.fa"] {
        let other = folder.done(&format!("{P1} first.fa {other}"));
        assert_eq!(unix, compared(&other));
    }
}

#[test]
fn more_clauses_than_the_list_room_first_lent() {
    // An N after each A: with b 1 no match reaches another, and all are listed.
    let folder = Folder::new("many-clauses", &[("an.txt", &b"AN".repeat(25))]);
    let output = folder.done("-k 1 -b 1 -a 1000 -m 0 --tsv an.txt an.txt");
    let lines = crate::support::uncommented(&output);
    assert_eq!(lines.len(), 1 + 625);
    assert_eq!(
        lines[625],
        "an.txt\tan.txt\t625\t49\t49\t49\t49\t1\tforward\t1"
    );
}
