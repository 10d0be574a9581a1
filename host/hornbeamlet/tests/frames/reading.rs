//! The reader: lines damaged in every way, and kinds that have no reader.

use super::both::{put_to_both, STALE};
use super::{no_kinds, FIELDS, PIECES, READ};
use hornbeamlet::kinds::{END, FIRST_PIECE, JOB};
use hornbeamlet::LINE;
use reference::random::Random;

/// Lines of each kind that has a reader: all zeros, all fields at their end, and
/// random values.
fn good_lines(random: &mut Random) -> Vec<Vec<u8>> {
    let mut lines = Vec::new();
    for (kind, ends) in FIELDS.into_iter().filter(|it| READ.contains(&it.0)) {
        let mut some = || ends.iter().map(|end| random.number() & end).collect();
        let values = [vec![0; ends.len()], ends.to_vec(), some(), some()];
        lines.extend(values.map(|values| written(kind, &values)));
    }
    lines
}

fn written(kind: u32, values: &[u64]) -> Vec<u8> {
    let mut line = vec![STALE; LINE];
    let length = reference::write_frame(kind, values, &mut line);
    line.truncate(length as usize);
    line
}

#[test]
fn every_byte_of_a_line_changed_to_every_other() {
    put_to_both(&[20, 21, 22], |both| {
        for mut line in good_lines(&mut Random::new(3)) {
            for at in 0..line.len() {
                let good = line[at];
                for other in (0..=255).filter(|&other| other != good) {
                    line[at] = other;
                    both.read_as_each(&line);
                }
                line[at] = good;
            }
        }
    });
}

/// Where the sum stays, the line is a good one of other values, of another kind
/// or of a wrong size for its kind.
#[test]
fn two_digits_of_a_line_changed() {
    let mut random = Random::new(4);
    put_to_both(&[0, 21, 22, 23, 25], |both| {
        for good in good_lines(&mut random) {
            for _ in 0..5_000 {
                let mut line = good.clone();
                for _ in 0..2 {
                    let at = random.below(line.len() - 1);
                    line[at] = random.one_of(b"0123456789ABCDEF");
                }
                both.read_as_each(&line);
            }
        }
    });
}

/// Bytes that may stand in a line, and neighbours of them that may not.
const SOME_BYTES: &[u8] = b"\n\r\0 09/:AF@Gafg\t\x7f\x80\xff";

#[test]
fn bytes_of_a_line_lost_and_added() {
    put_to_both(&[0, 20, 21, 22, 23], |both| {
        for line in good_lines(&mut Random::new(5)) {
            for at in 0..=line.len() {
                let (before, after) = line.split_at(at);
                for lost in 0..=after.len().min(4) {
                    both.read_as_each(&[before, &after[lost..]].concat());
                }
                for &byte in SOME_BYTES {
                    both.read_as_each(&[before, &[byte], after].concat());
                    both.read_as_each(&[before, &[byte; 2], after].concat());
                }
            }
        }
    });
}

/// Of a line that is cut, the rest lies behind the slice in memory.
#[test]
fn lines_cut_joined_and_in_other_letters() {
    put_to_both(&[0, 20, 21, 22, 23], |both| {
        for line in good_lines(&mut Random::new(6)) {
            for at in 0..=line.len() {
                let (before, after) = line.split_at(at);
                both.read_as_each(before);
                both.read_as_each(after);
                both.read_as_each(&[before, b"\n"].concat());
                both.read_as_each(&[after, before].concat());
            }
            let digits = &line[..line.len() - 1];
            both.read_as_each(&[digits, b"\r\n"].concat());
            both.read_as_each(&[digits, &line].concat());
            both.read_as_each(&line.repeat(2));
            both.read_as_each(&line.repeat(10_000));
            both.read_as_each(&line.to_ascii_lowercase());
        }
    });
}

/// The line of these bytes, with the check behind them that brings their sum to
/// zero.
fn checked(bytes: &[u8]) -> Vec<u8> {
    let sum = bytes.iter().fold(0u8, |sum, &byte| sum.wrapping_add(byte));
    let all = bytes.iter().copied().chain([sum.wrapping_neg()]);
    let digits: String = all.map(|byte| format!("{byte:02X}")).collect();
    (digits + "\n").into_bytes()
}

/// A line of random payload with the right check.
fn some_line(random: &mut Random, kind: u8, length: u8, payload: usize) -> Vec<u8> {
    let payload = (0..payload).map(|_| random.number() as u8);
    let bytes: Vec<u8> = [kind, length].into_iter().chain(payload).collect();
    checked(&bytes)
}

#[test]
fn every_kind_and_size_of_payload_with_the_right_check() {
    let mut random = Random::new(7);
    put_to_both(&[0, 20, 23, 25], |both| {
        for payload in 0..=68 {
            for kind in 0..=255 {
                let line = some_line(&mut random, kind, payload, payload.into());
                both.read_as_each(&line);
            }
        }
    });
}

#[test]
fn every_length_byte_with_the_right_check() {
    let mut random = Random::new(8);
    put_to_both(&[0, 20, 21, 25], |both| {
        for payload in 0..=68 {
            for length in 0..=255 {
                for kind in READ {
                    let line = some_line(&mut random, kind as u8, length, payload);
                    both.read(kind, &line);
                }
            }
        }
    });
}

#[test]
fn random_digits_and_random_bytes() {
    let mut random = Random::new(9);
    put_to_both(&[20, 21, 22, 23, 25], |both| {
        for _ in 0..30_000 {
            let alphabet = random.one_of(&[b"0123456789ABCDEF", b"0123456789ABCDEf"]);
            let most = random.one_of(&[6, 19, 27, 47, 134, 136, 140]);
            let count = random.between(0, most);
            let mut line = random.letters(alphabet, count);
            line.push(b'\n');
            both.read_as_each(&line);
            // and with the length byte that is due, where there is one
            if let Some(payload) = (line.len() / 2).checked_sub(3) {
                line[2..4].copy_from_slice(format!("{payload:02X}").as_bytes());
                both.read_as_each(&line);
            }
            let bytes: Vec<u8> = (0..count).map(|_| random.number() as u8).collect();
            both.read_as_each(&bytes);
        }
    });
}

/// Whatever the line is: good or not, of the kind asked for or of another.
#[test]
fn a_kind_without_a_reader_gets_23() {
    let unread: Vec<u32> = no_kinds().chain(PIECES).chain([JOB, END]).collect();
    let mut lines = good_lines(&mut Random::new(10));
    lines.extend([
        written(JOB, &[2, 2, 8, 0, 0]),
        written(FIRST_PIECE, &[1, 2, 2, 4, 8]),
        written(END, &[]),
        checked(&[0, 0]),
        b"no line".to_vec(),
        Vec::new(),
    ]);
    put_to_both(&[23], |both| {
        for line in &lines {
            for &kind in &unread {
                both.read(kind, line);
            }
        }
    });
}
