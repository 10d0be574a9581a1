//! The writer: values, counts of values, kinds, codes and slices.

use super::both::{put_to_both, Both, NOT_WRITTEN, STALE, STALE_VALUES};
use super::{no_kinds, EIGHT, FIELDS, FOUR, ONE, PIECES, READ, TWO};
use hornbeamlet::kinds::JOB;
use hornbeamlet::LINE;
use reference::random::Random;
use std::mem::replace;

/// The length of the line of so many payload bytes: two digits for each, and for
/// kind, length and check, and the line feed.
fn line_length(payload: u64) -> u64 {
    2 * (payload + 3) + 1
}

/// What is due in a slice for any line: 27 "exactly when a value does not fit its
/// field".
fn due(kind: u32, ends: &[u64], values: &[u64]) -> u64 {
    let bytes = |end: &u64| u64::from(8 - end.leading_zeros() / 8);
    let payload: u64 = ends.iter().map(bytes).sum();
    // a job on strand 0 goes without its strand
    let left_out = u64::from(kind == JOB && values[4] == 0);
    if ends.iter().zip(values).all(|(end, value)| value <= end) {
        line_length(payload - left_out)
    } else {
        NOT_WRITTEN
    }
}

/// Every choice of one of these for each of so many values.
fn all_choices(choices: &[u64], count: usize) -> Vec<Vec<u64>> {
    let longer = |values: &Vec<u64>| {
        let one_more = |&choice: &u64| [values.as_slice(), &[choice]].concat();
        choices.iter().map(one_more).collect::<Vec<_>>()
    };
    (0..count).fold(vec![vec![]], |all, _| all.iter().flat_map(longer).collect())
}

#[test]
fn values_at_and_past_the_end_of_every_field() {
    let choices = [0, ONE, ONE + 1, TWO, TWO + 1, FOUR, FOUR + 1, EIGHT];
    put_to_both(&[7, 19, 21, 23, 27, 47, NOT_WRITTEN], |both| {
        for (kind, ends) in FIELDS {
            for values in all_choices(&choices, ends.len()) {
                let reply = both.write_around(kind, &values);
                assert_eq!(reply, due(kind, ends, &values), "{kind}: {values:?}");
            }
        }
    });
}

/// A number of any size in bits, most often one that fits, or the end or a little
/// more.
fn some_value(random: &mut Random, end: u64) -> u64 {
    let any = random.number() >> random.below(64);
    let near = end.saturating_add(random.below(3) as u64);
    let fits = any & end;
    random.one_of(&[fits, fits, fits, fits, end, near, any])
}

#[test]
fn random_values_are_written_and_read_back() {
    let mut random = Random::new(1);
    put_to_both(&[0, 7, 19, 21, 23, 27, 47, NOT_WRITTEN], |both| {
        for (kind, ends) in FIELDS.repeat(10_000) {
            let values = ends.iter().map(|&end| some_value(&mut random, end));
            let values: Vec<u64> = values.collect();
            let reply = both.write_around(kind, &values);
            assert_eq!(reply, due(kind, ends, &values), "{kind}: {values:?}");
            if READ.contains(&kind) && reply != NOT_WRITTEN {
                reads_back(both, kind, &values);
            }
        }
    });
}

/// The library reads what the library wrote, with zeros behind.
fn reads_back(both: &mut Both, kind: u32, values: &[u64]) {
    let mut line = [STALE; LINE];
    let length = both.library.write_frame(kind, values, &mut line);
    let line = &line[..length as usize];
    let mut read = STALE_VALUES;
    assert_eq!(both.library.read_frame(kind, line, &mut read), 0);
    let (front, behind) = read.split_at(values.len());
    assert_eq!(front, values);
    assert!(behind.iter().all(|&value| value == 0));
    both.read(kind, line);
}

#[test]
fn other_counts_of_values_and_other_kinds() {
    let lines = (0..=6).map(line_length).chain([23, 27, 47, NOT_WRITTEN]);
    put_to_both(&lines.collect::<Vec<u64>>(), |both| {
        for values in (0..=12).flat_map(|count| (1..=15).map(move |value| vec![value; count])) {
            for (kind, ends) in FIELDS {
                let written = both.write_around(kind, &values) != NOT_WRITTEN;
                assert_eq!(written, values.len() == ends.len(), "{kind}: {values:?}");
            }
            for kind in PIECES {
                both.write_around(kind, &values);
            }
            for kind in no_kinds() {
                assert_eq!(both.write(kind, &values, LINE), NOT_WRITTEN);
            }
        }
    });
}

/// 0 and codes past 15, some with a code from 1 to 15 in their lowest bits.
const NO_CODES: [u64; 9] = [0, 16, 17, 255, 256, 257, FOUR + 2, 1 << 63 | 1, EIGHT];

#[test]
fn pieces_of_every_size_and_codes_that_are_none() {
    let mut random = Random::new(2);
    let lines = (1..=64).map(line_length).chain([NOT_WRITTEN]);
    put_to_both(&lines.collect::<Vec<u64>>(), |both| {
        for count in (0..=131u64).chain([255, 256, 257, 384, 1_000]) {
            let codes = (0..count).map(|_| random.between(1, 15) as u64);
            let mut codes: Vec<u64> = codes.collect();
            for kind in PIECES {
                let due = match count {
                    1..=128 => line_length(count.div_ceil(2)),
                    _ => NOT_WRITTEN,
                };
                assert_eq!(both.write_around(kind, &codes), due, "{codes:?}");
                refuses_each_code_that_is_none(both, kind, &mut codes);
            }
        }
    });
}

fn refuses_each_code_that_is_none(both: &mut Both, kind: u32, codes: &mut [u64]) {
    for at in 0..codes.len() {
        for bad in NO_CODES {
            let good = replace(&mut codes[at], bad);
            assert_eq!(both.write(kind, codes, LINE), NOT_WRITTEN);
            codes[at] = good;
        }
    }
}

/// "or the slice is shorter than the line with its line feed".
#[test]
fn a_line_goes_into_a_slice_of_its_length_or_more() {
    put_to_both(&[7, 19, 21, 23, 27, 47, 135, NOT_WRITTEN], |both| {
        let pieces = PIECES.map(|kind| (kind, vec![15; 128]));
        let ends = FIELDS.map(|(kind, ends)| (kind, ends.to_vec()));
        let forward = (JOB, vec![1, 2, 3, 4, 0]);
        for (kind, values) in pieces.into_iter().chain(ends).chain([forward]) {
            let line = both.write(kind, &values, LINE);
            for length in (0..LINE + 20).chain([1_000, 70_000]) {
                let fits = length as u64 >= line;
                let due = if fits { line } else { NOT_WRITTEN };
                assert_eq!(both.write(kind, &values, length), due);
            }
        }
    });
}
