//! Random jobs put to the program `chain` in frames: what it writes, read frame
//! by frame, is what `compare` gives in the rooms that `chain` lends.
//!
//! Each job is a process of its own. Needs crates/chain/out/chain;
//! `tools/chain-command`
//! tells how it is run.

#![forbid(unsafe_code)]

use hornbeamlet::kinds::{
    DONE, END, ENTRY, FIRST_PIECE, JOB, REFUSED, REVERSE_ENTRY, SECOND_PIECE,
};
use hornbeamlet::{with_library, Entered, Library, BOTH, FORWARD, LINE, MASKED_FORM};
use reference::letters::{code_of, reverse_complement};
use reference::random::Random;
use std::collections::BTreeSet;
use std::io::Write;
use std::process::{Command, Output, Stdio};

const CHAIN_COMMAND: &str = concat!(env!("CARGO_MANIFEST_DIR"), "/../../tools/chain-command");

/// Numbers of work room and of list room that `chain` lends.
const ROOMS: [usize; 2] = [4_096, 2_000];
const LETTERS: &[u8] = b"ABCDGHKMNRSTVWY";
/// Its length byte and its check are right.
const END_WITH_A_PAYLOAD: &[u8] = b"0401FFFC\n";

/// A kind and its values, zeros behind them.
type Frame = (u32, [u64; 5]);

/// Settings and two sequences.
#[derive(Debug)]
struct Job {
    settings: Entered,
    first: Vec<u8>,
    second: Vec<u8>,
}

#[test]
fn chain_writes_what_compare_gives() {
    let chain = Chain::find();
    let (mut kinds, mut numbers) = (BTreeSet::new(), BTreeSet::new());
    with_library(|library| {
        for seed in 1..=200 {
            let mut random = Random::new(seed);
            let job = some_job(&mut random);
            let frames = chain.answers(library, &mut random, &job);
            kinds.extend(frames.iter().map(|frame| frame.0));
            numbers.extend(refusal(&frames));
        }
    });
    assert!(kinds.into_iter().eq([ENTRY, DONE, REVERSE_ENTRY, REFUSED]));
    // never 5 and 6: too many letters get 26 before, and every code is a letter
    assert!(numbers.iter().eq(&[1, 2, 3, 4, 7, 8, 9]), "{numbers:?}");
}

/// As many records and entries as the rooms hold, and one more: 16 rows of 32
/// matches in one window are 512 records; with an N after each letter and b 1 all
/// matches are closed, and 9 rows of 37 are 333 entries.
#[test]
fn chain_lends_just_these_rooms() {
    let chain = Chain::find();
    let together = |count| vec![b'A'; count];
    let apart = |count| b"AN".repeat(count);
    let cases = [
        (1_024, together(16), together(32), None),
        (1_024, together(19), together(27), Some(7)),
        (1, apart(9), apart(37), None),
        (1, apart(2), apart(167), Some(8)),
    ];
    with_library(|library| {
        for (b, first, second, due) in cases {
            let settings = Entered {
                k: 1,
                b,
                a: 1_024,
                m: 0,
                strand: FORWARD,
                mask: MASKED_FORM,
            };
            let job = Job {
                settings,
                first,
                second,
            };
            let frames = chain.answers(library, &mut Random::new(1), &job);
            assert_eq!(refusal(&frames), due);
        }
    });
}

#[test]
fn chain_refuses_an_input_for_its_bad_line() {
    let chain = Chain::find();
    with_library(|library| {
        for (seed, number) in (1..).zip((20..=26).cycle()).take(70) {
            let mut random = Random::new(seed);
            let job = some_job(&mut random);
            let mut lines = input_lines(library, &mut random, &job);
            let at = spoil(library, &mut random, number, &mut lines);
            let frames = read_frames(library, &chain.run(&lines.concat()));
            let due = (REFUSED, [number, 0, at as u64, 0, 0]);
            assert_eq!(frames, [due], "{job:?}");
        }
    });
}

/// The words of the command that runs `chain`.
struct Chain(Vec<String>);

impl Chain {
    fn find() -> Chain {
        let told = Command::new(CHAIN_COMMAND).output().unwrap();
        let words = String::from_utf8(successful(told)).unwrap();
        Chain(words.lines().map(str::to_string).collect())
    }

    fn run(&self, input: &[u8]) -> Vec<u8> {
        let mut process = Command::new(&self.0[0])
            .args(&self.0[1..])
            .stdin(Stdio::piped())
            .stdout(Stdio::piped())
            .stderr(Stdio::piped())
            .spawn()
            .unwrap();
        let taken = process.stdin.take().unwrap().write_all(input);
        let output = successful(process.wait_with_output().unwrap());
        taken.unwrap();
        output
    }

    /// The frames that `chain` writes for a job, which are those of `compare`.
    fn answers(&self, library: &Library, random: &mut Random, job: &Job) -> Vec<Frame> {
        let input = input_lines(library, random, job).concat();
        let frames = read_frames(library, &self.run(&input));
        assert_eq!(frames, compared(library, job), "{job:?}");
        frames
    }
}

fn successful(run: Output) -> Vec<u8> {
    let complaint = String::from_utf8_lossy(&run.stderr);
    assert!(run.status.success(), "{}: {complaint}", run.status);
    run.stdout
}

/// Two sequences of few letters that have much in common on one strand, short
/// enough for the rooms or not; one job in three is to be refused for a setting.
/// Some have masked letters, which frames carry as capitals.
fn some_job(random: &mut Random) -> Job {
    let alphabet = random.one_of(&[b"A".as_slice(), b"AC", b"AT", b"AN", b"ACGT", LETTERS]);
    let longest = random.one_of(&[10, 40, 100, 300]);
    let length = random.between(0, longest);
    let mut first = random.letters(alphabet, length);
    let mut second = random.mutated(&first, 50);
    if random.chance(500) {
        second = reverse_complement(&second);
    }
    let masked = random.one_of(&[0, 0, 300]);
    for letter in first.iter_mut().chain(&mut second) {
        if random.chance(masked) {
            letter.make_ascii_lowercase();
        }
    }
    let mut settings = Entered {
        k: random.one_of(&[1, 1, 2, 4]),
        b: random.one_of(&[1, 1, 2, 8, 1_024]),
        a: random.one_of(&[20, 200, 1_024, 1_024]),
        m: random.one_of(&[0, 0, 0, 10]),
        strand: random.one_of(&[FORWARD, BOTH, BOTH]),
        mask: MASKED_FORM,
    };
    if random.chance(333) {
        leave_the_table(random, &mut settings);
    }
    Job {
        settings,
        first,
        second,
    }
}

/// One setting outside its range and within its field.
fn leave_the_table(random: &mut Random, settings: &mut Entered) {
    match random.below(5) {
        0 => settings.k = random.one_of(&[0, 32, 255]),
        1 => settings.b = random.one_of(&[0, 1_025, 65_535]),
        2 => settings.a = random.one_of(&[0, 1_025, 65_535]),
        3 => settings.m = random.one_of(&[16_385, 65_535]),
        _ => settings.strand = random.one_of(&[2, 3, 255]),
    }
}

/// The lines of an input: the job, pieces of any sizes, the end.
fn input_lines(library: &Library, random: &mut Random, job: &Job) -> Vec<Vec<u8>> {
    // a job's frame has no mask setting, and means the one of all jobs here
    let Entered { k, b, a, m, .. } = job.settings;
    let settings = [k, b, a, m, job.settings.strand].map(u64::from);
    let mut lines = vec![line(library, JOB, &settings)];
    for (kind, sequence) in [(FIRST_PIECE, &job.first), (SECOND_PIECE, &job.second)] {
        let mut codes: Vec<u64> = sequence.iter().map(code).collect();
        while !codes.is_empty() {
            let count = random.between(1, codes.len().min(128));
            let piece: Vec<u64> = codes.drain(..count).collect();
            lines.push(line(library, kind, &piece));
        }
    }
    lines.push(line(library, END, &[]));
    lines
}

fn code(letter: &u8) -> u64 {
    let code = code_of(letter.to_ascii_uppercase());
    code.expect("one of the fifteen").into()
}

fn line(library: &Library, kind: u32, values: &[u64]) -> Vec<u8> {
    let mut line = vec![0; LINE];
    let length = library.write_frame(kind, values, &mut line);
    assert!(length <= LINE as u64, "{kind}: {values:?}");
    line.truncate(length as usize);
    line
}

/// Makes an input bad, so that it is refused with this number, and tells the line
/// that is refused, counted from 1.
fn spoil(library: &Library, random: &mut Random, number: u64, lines: &mut Vec<Vec<u8>>) -> usize {
    let at = random.between(1, lines.len());
    let bad = &mut lines[at - 1];
    let check = bad.len() - 2;
    match number {
        20 => bad.insert(0, random.one_of(b"\n\r af")),
        21 => another_digit(&mut bad[3]),
        22 => another_digit(&mut bad[check]),
        23 => lines.insert(at - 1, line(library, DONE, &[0; 4])),
        _ => return spoil_with_good_lines(library, number, lines),
    }
    at
}

/// The same for what is wrong with a line only where it stands.
fn spoil_with_good_lines(library: &Library, number: u64, lines: &mut Vec<Vec<u8>>) -> usize {
    let last = lines.len();
    match number {
        24 => {
            lines.pop();
            last
        }
        25 => {
            lines[last - 1] = END_WITH_A_PAYLOAD.to_vec();
            last
        }
        _ => {
            // the first 128 of these, on lines 2 to 129, are 16,384 letters
            let whole = line(library, FIRST_PIECE, &[1; 128]);
            lines.splice(1..1, vec![whole; 129]);
            130
        }
    }
}

fn another_digit(digit: &mut u8) {
    *digit = if *digit == b'0' { b'1' } else { b'0' };
}

/// The frames of an output.
fn read_frames(library: &Library, output: &[u8]) -> Vec<Frame> {
    let lines = output.split_inclusive(|&byte| byte == b'\n');
    lines.map(|line| read_frame(library, line)).collect()
}

/// The number of the refusal where an output is one refused frame.
fn refusal(frames: &[Frame]) -> Option<u64> {
    match frames {
        [(REFUSED, [number, ..])] => Some(*number),
        _ => None,
    }
}

/// The frame of a line, which is of one kind, and of another to all other readers.
fn read_frame(library: &Library, line: &[u8]) -> Frame {
    let mut found = Vec::new();
    for kind in [ENTRY, DONE, REVERSE_ENTRY, REFUSED] {
        let mut values = [0; 5];
        match library.read_frame(kind, line, &mut values) {
            0 => found.push((kind, values)),
            number => assert_eq!(number, 23, "{}", line.escape_ascii()),
        }
    }
    assert_eq!(found.len(), 1, "{}", line.escape_ascii());
    found[0]
}

/// The frames that `chain` has to write: entries and done, or refused alone.
fn compared(library: &Library, job: &Job) -> Vec<Frame> {
    let [mut work, mut list] = ROOMS.map(|numbers| vec![0; numbers]);
    let answer = library.compare(job.settings, &job.first, &job.second, &mut work, &mut list);
    if answer.number != 0 {
        let values = [answer.number, answer.sequence, answer.detail, 0, 0];
        return vec![(REFUSED, values)];
    }
    let entries = list.chunks_exact(hornbeamlet::ENTRY);
    let entries = entries.take(answer.listed as usize).map(entry_frame);
    let tallies = [
        answer.listed,
        answer.matches,
        answer.widest,
        answer.links,
        0,
    ];
    entries.chain([(DONE, tallies)]).collect()
}

fn entry_frame(entry: &[u32]) -> Frame {
    let kind = match entry[5] {
        FORWARD => ENTRY,
        _ => REVERSE_ENTRY,
    };
    (kind, [0, 1, 2, 3, 4].map(|at| entry[at].into()))
}
