//! Every vector is run, and whole answers, rooms and outputs are compared.

use reference::calls::{answers_as_stored, Reference};
use reference::chain;
use std::fs;

#[test]
fn every_call_is_answered_as_written() {
    answers_as_stored(&Reference);
}

#[test]
fn every_input_of_chain_gives_its_whole_output() {
    let folder = concat!(env!("CARGO_MANIFEST_DIR"), "/tests/vectors/chain");
    let folder = fs::read_dir(folder).unwrap();
    let files = folder.map(|file| file.unwrap().path());
    let inputs = files.filter(|file| file.extension().is_some_and(|it| it == "in"));
    let mut run = 0;
    for input in inputs {
        let expected = fs::read(input.with_extension("out")).unwrap();
        let output = chain(&fs::read(&input).unwrap());
        assert!(output == expected, "{}", input.display());
        run += 1;
    }
    assert_eq!(run, 486);
}
