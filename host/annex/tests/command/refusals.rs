//! Every refusal in plain words.

use crate::support::Folder;

fn sequences(test: &str) -> Folder {
    let long = vec![b'A'; 16_385];
    Folder::new(
        test,
        &[
            ("a.txt", b"ACGT"),
            ("long.fa", &[b">x\n", long.as_slice()].concat()),
            ("protein.fa", b">y\r\nACGT\r\n\r\nACeT\r\n"),
            ("rna.txt", b"ACGU"),
            ("lower-rna.txt", b"acgu"),
            ("latin-1.txt", b"acgt\xE1"),
            ("gap.txt", b"ACGT\nA-GT"),
            ("blank.txt", b"ACGT ACGT"),
            ("hidden.fa", ">z\nAC\u{200b}GT\n".as_bytes()),
            ("cyrillic.fa", ">z\rACGT\rA\u{421}GT\r".as_bytes()),
        ],
    )
}

#[test]
fn refusals_of_settings() {
    let folder = sequences("settings");
    for (line, words) in [
        (
            "-k 32",
            "1: k, the k-mer length, is 32; 1 to 31 is accepted (-k)",
        ),
        (
            "-b 1025",
            "2: b, the gap bound, is 1,025; 1 to 1,024 is accepted (-b)",
        ),
        (
            "-a 0",
            "3: a, the repeat cap, is 0; 1 to 1,024 is accepted (-a)",
        ),
        (
            "-m 16,385",
            "4: m, the least span, is 16,385; 0 to 16,384 is accepted (-m)",
        ),
        (
            "-k 0 -b 0",
            "1: k, the k-mer length, is 0; 1 to 31 is accepted (-k)",
        ),
    ] {
        assert_eq!(
            folder.complaint(&format!("{line} a.txt rna.txt"), 1),
            format!("refused, number {words}")
        );
    }
}

#[test]
fn refusals_of_sequences() {
    let folder = sequences("sequences");
    let rna = "RNA is not accepted; write T for each U and t for each u";
    let letters = "the letters are ABCDGHKMNRSTVWY, capital or lower case; take out what is none";
    let long = "x, on line 1 of long.fa, has 16,385 letters; at most 16,384 are accepted, \
                so compare it in parts";
    for (line, words) in [
        ("long.fa rna.txt", format!("5: the first sequence, {long}")),
        ("rna.txt long.fa", format!("5: the second sequence, {long}")),
        (
            "protein.fa a.txt",
            "6: the first sequence, y, has the letter 'e' at place 7, on line 4 of protein.fa; \
             the letters of nucleotides are ABCDGHKMNRSTVWY, capital or lower case; \
             is this a protein?"
                .to_string(),
        ),
        (
            "a.txt rna.txt",
            format!(
                "6: the second sequence, rna.txt, has the letter 'U' at place 4, on line 1 of \
                 rna.txt; {rna}"
            ),
        ),
        (
            "a.txt lower-rna.txt",
            format!(
                "6: the second sequence, lower-rna.txt, has the letter 'u' at place 4, on line 1 \
                 of lower-rna.txt; {rna}"
            ),
        ),
        (
            "latin-1.txt a.txt",
            format!(
                "6: the first sequence, latin-1.txt, has the byte E1 at place 5, on line 1 of \
                 latin-1.txt; {letters}"
            ),
        ),
        (
            "a.txt gap.txt",
            "6: the second sequence, gap.txt, has the letter '-' at place 6, on line 2 of \
             gap.txt; a gap is no letter; take it out"
                .to_string(),
        ),
        (
            "blank.txt a.txt",
            format!(
                "6: the first sequence, blank.txt, has a blank at place 5, on line 1 of \
                 blank.txt; {letters}"
            ),
        ),
        (
            "a.txt hidden.fa",
            format!(
                "6: the second sequence, z, has the invisible letter U+200B at place 3, on line 2 \
                 of hidden.fa; {letters}"
            ),
        ),
        (
            "cyrillic.fa a.txt",
            format!(
                "6: the first sequence, z, has the letter '\u{421}' (U+0421) at place 6, on line \
                 3 of cyrillic.fa; {letters}"
            ),
        ),
    ] {
        assert_eq!(
            folder.complaint(line, 1),
            format!("refused, number {words}")
        );
    }
}
