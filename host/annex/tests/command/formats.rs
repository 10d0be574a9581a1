//! Whole outputs in every format.

use crate::support::{examples, golden, own_examples, Folder, P1, P5};

/// Every format of one command line, against what is kept under a name.
fn in_all_formats(folder: &Folder, line: &str, name: &str) {
    for (option, ending) in [
        ("", "txt"),
        ("--tsv", "tsv"),
        ("--json", "json"),
        ("--paf", "paf"),
    ] {
        let output = folder.run(&format!("{line} {option}")).output;
        assert_eq!(output, golden(&format!("{name}.{ending}")), "{name}");
    }
}

/// On both strands: P1's second sequence turned round is its first.
#[test]
fn the_documents_first_example() {
    let line = format!("{P1} p1-first.fa p1-second.fa");
    in_all_formats(&examples("p1"), &line, "p1");
}

/// Three bases have five matches: of the format PAF, the column of matching bases
/// stays at three.
#[test]
fn the_documents_fifth_example() {
    let line = format!("{P5} --strand forward p5.txt p5.txt");
    in_all_formats(&examples("p5"), &line, "p5");
}

#[test]
fn the_repositorys_own_example() {
    in_all_formats(&own_examples(), "strain.fa reference.fa", "example");
    let output = own_examples().done("strain.fa turned.fa");
    assert_eq!(output, golden("turned.txt"));
}

/// The middle of the first sequence is masked: it lies within one clause, or between
/// two.
#[test]
fn a_pair_with_masked_letters() {
    let folder = Folder::new(
        "masked",
        &[
            (
                "strain.fa",
                b">strain\nGATTACAGGC\nggatcacagt\nCTACACTGCT\n",
            ),
            (
                "reference.fa",
                b">reference\nGATTACAGGCGGATCACAGTCTACACTgct\n",
            ),
        ],
    );
    let line = "-k 5 -b 5 -m 0 strain.fa reference.fa";
    in_all_formats(&folder, line, "masked-form");
    in_all_formats(&folder, &format!("{line} --masked break"), "masked-break");
}

/// A batch of every outcome: clauses, none for each reason, and refusals.
#[test]
fn a_batch_of_every_outcome() {
    let seconds = b">one\nACGGT\n>two of RNA\nACG\nGU\n>three\nACCGT\n>four\n\
                    >five\nA\n>six\nNNANN\n>one\nTTTT\n";
    let folder = Folder::new(
        "records",
        &[("first.fa", b">x\nACCGT"), ("second.fa", seconds)],
    );
    let line = format!("{P1} first.fa second.fa");
    in_all_formats(&folder, &line, "records");
    let run = folder.run(&line);
    let complaints = "\
annex: warning: record 4, four, on line 8 of second.fa, has a name and no letters; \
what stands on a name line is not read as letters
annex: warning: records 1, 7 have the same name, one; their numbers tell them apart
annex: refused, number 6: record 2, two, has the letter 'U' at place 5, on line 5 of second.fa; \
RNA is not accepted; write T for each U and t for each u
";
    assert_eq!((run.status, run.complaints.as_str()), (1, complaints));
}

#[test]
fn the_help_page() {
    let folder = examples("help");
    let page = folder.done("--help");
    assert!(page.starts_with("annex: ") && page.contains("-k N"));
    assert!(page.contains("--strand forward|both") && page.contains("--masked form|break"));
    assert!(page.contains("--version"));
    assert_eq!(folder.done("p5.txt -h"), page);
}

/// All but the first line, whose kit changes by itself.
#[test]
fn the_readme_shows_its_example_as_it_is() {
    let examples = own_examples();
    let top = Folder(examples.0.join(".."));
    let output = top.done("examples/strain.fa examples/reference.fa");
    let (_, listing) = output.split_once('\n').unwrap();
    let readme = std::fs::read_to_string(top.0.join("README.md")).unwrap();
    assert!(readme.contains(&format!("{listing}```\n")));
}
