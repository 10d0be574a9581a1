//! Both strands and the forward one alone.

use crate::support::{golden, own_examples, uncommented, Folder};

/// A strain's stretch, a reference that is stored turned round, and a stretch
/// that is its own reverse complement.
fn strands(test: &str) -> Folder {
    Folder::new(
        test,
        &[
            ("strain.fa", b">strain\nGATTACAGGC\n"),
            ("reference.fa", b">reference\nCCGATTACAGGCA\n"),
            ("turned.fa", b">turned\nTGCCTGTAATCGG\n"),
            ("palindrome.fa", b">palindrome\nGAATTC\n"),
        ],
    )
}

const STRANDS: &str = "-k 5 -b 5 -m 0";

#[test]
fn a_turned_reference_is_listed_as_reverse() {
    let folder = strands("turned");
    let done = |format: &str| folder.done(&format!("{STRANDS} {format} strain.fa turned.fa"));
    assert_eq!(done(""), golden("turned-small.txt"));
    assert_eq!(
        uncommented(&done("--tsv"))[1],
        "strain\tturned\t1\t1\t10\t2\t11\t6\treverse\t1"
    );
    assert_eq!(
        uncommented(&done("--paf")),
        ["strain\t10\t0\t10\t-\tturned\t13\t1\t11\t6\t10\t255\tcm:i:6\tcl:i:1\trc:i:1"]
    );
    let json = done("--json");
    assert!(json.contains(r#""settings":{"k":5,"b":5,"a":20,"m":0,"strand":"both","#));
    assert!(
        json.contains(r#""clauses":[{"clause":1,"first_start":1,"first_end":10,"second_start":2,"#)
    );
    assert!(json.contains(r#""second_end":11,"weight":6,"strand":"reverse"}]"#));
}

#[test]
fn the_forward_strand_alone_has_nothing_of_a_turned_reference() {
    let folder = strands("forward-only");
    let line = format!("{STRANDS} --strand forward strain.fa");
    let output = folder.done(&format!("{line} turned.fa"));
    assert!(output.contains("\n  strand           forward\n"));
    assert!(output.ends_with(
        "\n  No clause: the two have no k-mer in common that is used, on the forward strand.\n"
    ));
    let tsv = folder.done(&format!("{line} turned.fa --tsv"));
    assert_eq!(uncommented(&tsv).len(), 1);
    let tsv = folder.done(&format!("{line} reference.fa --tsv"));
    assert!(tsv.ends_with("\nstrain\treference\t1\t1\t10\t3\t12\t6\tforward\t1\n"));
}

/// The columns of a listing's clauses, without its headings.
fn rows(tsv: &str) -> Vec<Vec<&str>> {
    let lines = uncommented(tsv).into_iter().skip(1);
    lines.map(|line| line.split('\t').collect()).collect()
}

#[test]
fn the_forward_clauses_come_first_and_are_those_of_a_forward_run() {
    let folder = own_examples();
    for second in ["reference.fa", "turned.fa"] {
        let line = format!("-k 5 -m 0 --tsv strain.fa {second}");
        let (both, forward) = (
            folder.done(&line),
            folder.done(&format!("{line} --strand forward")),
        );
        let (both, forward) = (rows(&both), rows(&forward));
        let (begin, reverse) = both.split_at(forward.len());
        assert_eq!(begin, forward);
        assert!(forward.iter().all(|row| row[8] == "forward"));
        assert!(reverse.iter().all(|row| row[8] == "reverse"));
        assert!(!forward.is_empty() && !reverse.is_empty());
        let numbers = both.iter().map(|row| row[2].to_string());
        assert!(numbers.eq((1..=both.len()).map(|number| number.to_string())));
    }
}

/// Of two that end at the same letter of the first sequence, the one that begins
/// later in the second as it stands ends earlier in the second turned round.
#[test]
fn reverse_clauses_are_ordered_as_in_the_turned_sequence() {
    let turned = "GCCTGTAATC";
    let second = [turned, turned].join(&"N".repeat(30));
    let files: [(&str, &[u8]); 2] = [
        ("first.fa", b"GATTACAGGC"),
        ("second.fa", second.as_bytes()),
    ];
    let tsv =
        Folder::new("reverse-order", &files).done(&format!("{STRANDS} --tsv first.fa second.fa"));
    let places: Vec<[&str; 3]> = rows(&tsv)
        .iter()
        .map(|row| [row[4], row[5], row[8]])
        .collect();
    assert_eq!(places, [["10", "41", "reverse"], ["10", "1", "reverse"]]);
}

#[test]
fn a_stretch_that_is_its_own_reverse_complement_is_listed_on_both_strands() {
    let folder = strands("palindrome");
    let tsv = folder.done(&format!("{STRANDS} --tsv palindrome.fa palindrome.fa"));
    let expected = [
        "palindrome\tpalindrome\t1\t1\t6\t1\t6\t2\tforward\t1",
        "palindrome\tpalindrome\t2\t1\t6\t1\t6\t2\treverse\t1",
    ];
    assert_eq!(uncommented(&tsv)[1..], expected);
    let paf = folder.done(&format!("{STRANDS} --paf palindrome.fa palindrome.fa"));
    let signs = uncommented(&paf)
        .into_iter()
        .map(|it| it.split('\t').nth(4).unwrap());
    assert!(signs.eq(["+", "-"]));
}
