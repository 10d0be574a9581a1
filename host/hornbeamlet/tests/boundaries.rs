//! The limits the document names, asked of the library by hand: every refusal,
//! the order of the checks, and what each leaves in the rooms.

#![forbid(unsafe_code)]

use hornbeamlet::{with_library, Answer, Entered, Entry, Library, Refusal, Strand};
use hornbeamlet::{BOTH, FORWARD, MASKED_BREAK, MASKED_FORM, REFUSED, REVERSE};
use reference::letters::reverse_complement;

const STALE: u32 = 77;

/// The settings of P1 to P4.
const P1: Entered = settings(2, 2, 8, 0);

const fn settings(k: u32, b: u32, a: u32, m: u32) -> Entered {
    Entered {
        k,
        b,
        a,
        m,
        strand: FORWARD,
        mask: MASKED_FORM,
    }
}

const fn on_strand(strand: u32, settings: Entered) -> Entered {
    Entered { strand, ..settings }
}

const fn with_mask(mask: u32, settings: Entered) -> Entered {
    Entered { mask, ..settings }
}

fn answer(refusal: [u64; 3], tallies: [u64; 4]) -> Answer {
    Answer {
        number: refusal[0],
        sequence: refusal[1],
        detail: refusal[2],
        listed: tallies[0],
        matches: tallies[1],
        widest: tallies[2],
        links: tallies[3],
    }
}

fn refused(number: u64, sequence: u64, detail: u64) -> Answer {
    answer([number, sequence, detail], [0; 4])
}

/// `compare` with rooms of so many stale numbers, and the rooms afterwards.
fn compared(
    library: &Library,
    settings: Entered,
    sequences: [&[u8]; 2],
    rooms: [usize; 2],
) -> (Answer, Vec<u32>, Vec<u32>) {
    let [mut work, mut list] = rooms.map(|length| vec![STALE; length]);
    let answer = library.compare(settings, sequences[0], sequences[1], &mut work, &mut list);
    (answer, work, list)
}

#[test]
fn work_room_just_enough_and_one_number_less() {
    with_library(|library| {
        let run = |work| compared(library, P1, [b"ACCGT", b"ACGGT"], [work, 6]);
        let done = answer([0; 3], [1, 3, 2, 2]);
        assert_eq!(run(16), (done, vec![0; 16], vec![1, 5, 1, 5, 3, 0]));
        assert_eq!(run(15), (refused(7, 0, 2), vec![0; 15], vec![0; 6]));
    });
}

/// So many As in each sequence, an N after each. With b 1 no match reaches
/// another, so all are closed.
fn apart(rows: usize, columns: usize) -> [Vec<u8>; 2] {
    [rows, columns].map(|count| b"AN".repeat(count))
}

#[test]
fn list_room_just_enough_and_too_short() {
    let [first, second] = apart(25, 40);
    let [rows, columns] = [50, 80].map(|length| (1..length).step_by(2));
    let places = rows.flat_map(|i| columns.clone().map(move |j| (i, j)));
    let entries: Vec<u32> = places.flat_map(|(i, j)| [i, i, j, j, 1, 0]).collect();
    with_library(|library| {
        let one_letter = settings(1, 1, 65, 0);
        let run = |list| compared(library, one_letter, [&first, &second], [320, list]);
        let done = answer([0; 3], [1_000, 1_000, 40, 0]);
        assert_eq!(run(6_000), (done, vec![0; 320], entries));
        for short in [5_999, 5_994, 0] {
            let refused = refused(8, 0, 1_000);
            assert_eq!(run(short), (refused, vec![0; 320], vec![0; short]));
        }
    });
}

/// P5, P8, and P8 with its sequences exchanged, on one strand and on the other:
/// all matches but one go on in their row or their column.
#[test]
fn what_goes_on_in_a_row_or_a_column_is_not_listed() {
    let p5 = (settings(1, 1, 6, 0), [1, 9, 6, 16]);
    lists_one(p5, [b"AAA", b"AAA"], [1, 3, 1, 3, 5, 0]);
    lists_one(p5, [b"AAA", b"TTT"], [1, 3, 1, 3, 5, 1]);
    let p8 = (settings(2, 3, 3, 0), [1, 2, 2, 1]);
    lists_one(p8, [b"ACNAC", b"AC"], [1, 5, 1, 2, 2, 0]);
    lists_one(p8, [b"ACNAC", b"GT"], [1, 5, 1, 2, 2, 1]);
    lists_one(p8, [b"AC", b"ACNAC"], [1, 2, 1, 5, 2, 0]);
    lists_one(p8, [b"AC", b"GTNGT"], [1, 2, 1, 5, 2, 1]);
}

/// One entry over both strands, for which six numbers of list room are enough
/// and five are not.
fn lists_one((forward, tallies): (Entered, [u64; 4]), sequences: [&[u8]; 2], entry: [u32; 6]) {
    with_library(|library| {
        let run = |list| compared(library, on_strand(BOTH, forward), sequences, [48, list]);
        let done = answer([0; 3], tallies);
        assert_eq!(run(6), (done, vec![0; 48], entry.to_vec()));
        assert_eq!(run(5), (refused(8, 0, 1), vec![0; 48], vec![0; 5]));
    });
}

/// P1's second sequence turned round is its first, so the reverse sweep finds
/// four matches and needs a record more than the forward one.
#[test]
fn rooms_for_both_strands_of_p1() {
    with_library(|library| {
        let both = on_strand(BOTH, P1);
        let run = |rooms| compared(library, both, [b"ACCGT", b"ACGGT"], rooms);
        let done = answer([0; 3], [2, 7, 3, 7]);
        let entries = vec![1, 5, 1, 5, 3, 0, 1, 5, 1, 5, 4, 1];
        assert_eq!(run([24, 12]), (done, vec![0; 24], entries));
        assert_eq!(run([24, 11]), (refused(8, 0, 2), vec![0; 24], vec![0; 11]));
        assert_eq!(run([23, 11]), (refused(7, 0, 3), vec![0; 23], vec![0; 11]));
        assert_eq!(library.need(P1, b"ACCGT", b"ACGGT"), 2);
        assert_eq!(library.need(both, b"ACCGT", b"ACGGT"), 3);
    });
}

/// GTNGT turned round is ACNAC: four matches out of each other's reach, their
/// places in the second sequence counted from its other end, and their order as
/// it was.
#[test]
fn reverse_entries_are_turned_back_in_their_order() {
    with_library(|library| {
        let forward = settings(2, 2, 4, 0);
        let run = |settings| compared(library, settings, [b"ACNAC", b"GTNGT"], [16, 24]);
        let entries = [
            [1, 2, 4, 5, 1, 1],
            [1, 2, 1, 2, 1, 1],
            [4, 5, 4, 5, 1, 1],
            [4, 5, 1, 2, 1, 1],
        ];
        let (done, _, list) = run(on_strand(BOTH, forward));
        assert_eq!(
            (done, list),
            (answer([0; 3], [4, 4, 2, 0]), entries.concat())
        );
        assert_eq!(run(forward).2, [0; 24]);
    });
}

/// P8 on one strand and on the other, with a masked letter that breaks in the place
/// of its N, and with others masked that form.
#[test]
fn masked_letters_form_or_break() {
    let p8 = |mask| (with_mask(mask, settings(2, 3, 3, 0)), [1, 2, 2, 1]);
    for first in [b"ACaAC", b"ACgAC", b"ACnAC"] {
        lists_one(p8(MASKED_BREAK), [first, b"AC"], [1, 5, 1, 2, 2, 0]);
        lists_one(p8(MASKED_BREAK), [first, b"GT"], [1, 5, 1, 2, 2, 1]);
    }
    for first in [b"acnac", b"AcNaC"] {
        lists_one(p8(MASKED_FORM), [first, b"aC"], [1, 5, 1, 2, 2, 0]);
        lists_one(p8(MASKED_FORM), [first, b"Gt"], [1, 5, 1, 2, 2, 1]);
    }
    // GtGT turned round is ACaC, which has AC once where its mask is kept
    let once = (p8(MASKED_BREAK).0, [1, 1, 1, 0]);
    lists_one(once, [b"AC", b"GtGT"], [1, 2, 3, 4, 1, 1]);
    with_library(|library| {
        let both = on_strand(BOTH, p8(MASKED_BREAK).0);
        for sequences in [["acnac", "AC"], ["AcNaC", "AC"], ["ACNAC", "aC"]] {
            let given = compared(library, both, sequences.map(str::as_bytes), [8, 6]);
            assert_eq!(given, (answer([0; 3], [0; 4]), vec![0; 8], vec![0; 6]));
        }
    });
}

#[test]
fn no_letters_and_no_rooms() {
    with_library(|library| {
        let p10 = compared(library, settings(1, 1, 1, 0), [b"", b""], [0, 0]);
        assert_eq!(p10, (answer([0; 3], [0; 4]), vec![], vec![]));
    });
}

#[test]
fn settings_outside_the_table_leave_the_rooms_untouched() {
    let over = vec![b'A'; 16_385];
    with_library(|library| {
        let cases = [
            (settings(0, 0, 0, 16_385), 1),
            (settings(32, 1, 1, 0), 1),
            (settings(1, 0, 0, 16_385), 2),
            (settings(1, 1_025, 1, 0), 2),
            (settings(1, 1, 0, 16_385), 3),
            (settings(1, 1, 1_025, 0), 3),
            (on_strand(2, settings(1, 1, 1, 16_385)), 4),
            (on_strand(2, settings(1, 1, 1, 0)), 9),
            (on_strand(u32::MAX, settings(31, 1_024, 1_024, 16_384)), 9),
            (with_mask(2, on_strand(2, settings(1, 1, 1, 0))), 9),
            (with_mask(2, settings(1, 1, 1, 0)), 10),
            (with_mask(u32::MAX, on_strand(BOTH, P1)), 10),
            (settings(u32::MAX, 1, 1, 0), 1),
        ];
        for (settings, number) in cases {
            let given = compared(library, settings, [&over, b"u"], [9, 9]);
            let mut stale = vec![STALE; 9];
            assert_eq!(given, (refused(number, 0, 0), stale.clone(), stale.clone()));
            let stopped = library.stopped(settings, b"u", &over, &mut stale, 0);
            assert_eq!((stopped, stale), (refused(number, 0, 0), vec![STALE; 9]));
            assert_eq!(library.need(settings, b"u", &over), REFUSED + number);
        }
        let widest = settings(31, 1_024, 1_024, 16_384);
        assert_eq!(library.need(widest, b"ACGT", b"ACGT"), 0);
    });
}

#[test]
fn sequences_too_long_or_with_other_letters() {
    let (fits, over) = (vec![b'A'; 16_384], vec![b'A'; 16_385]);
    let bad = [b"ACGT".repeat(4_095), b"ACuT".to_vec()].concat();
    let cases: [([&[u8]; 2], Answer); 7] = [
        ([&over, &over], refused(5, 1, 0)),
        ([&bad, &over], refused(5, 2, 0)),
        ([&bad, b"Z"], refused(6, 1, 16_383)),
        ([&fits, b"ACZ-"], refused(6, 2, 3)),
        ([b"", b"o"], refused(6, 2, 1)),
        ([b"acgtn", b"acgt\xE1"], refused(6, 2, 5)),
        ([&fits, &fits], answer([0; 3], [0; 4])),
    ];
    with_library(|library| {
        for (sequences, expected) in cases {
            let (answer, work, _) =
                compared(library, settings(1, 1, 1_024, 0), sequences, [24, 10]);
            let left = if expected.number == 0 { 0 } else { STALE };
            assert_eq!((answer, work), (expected, vec![left; 24]));
        }
    });
}

#[test]
fn the_stopped_sweep_at_every_row_of_p1() {
    stopped_as_p1(P1, b"ACGGT");
    // ACCGT turned round is P1's second sequence. The records stay turned, and
    // fewer are needed than for both strands together.
    stopped_as_p1(on_strand(REVERSE, P1), b"ACCGT");
}

fn stopped_as_p1(settings: Entered, second: &[u8]) {
    with_library(|library| {
        let run_in = |numbers, row| {
            let mut work = vec![STALE; numbers];
            let answer = library.stopped(settings, b"ACCGT", second, &mut work, row);
            (answer, work)
        };
        let run = |row| run_in(17, row);
        let held = |records: &[u32]| {
            let mut work = records.to_vec();
            work.resize(17, 0);
            let count = records.len() as u64 / 8;
            (answer([0; 3], [count, 3, 2, 2]), work)
        };
        let (one, two) = ([1, 1, 1, 1, 1, 0, 0, 0], [3, 2, 2, 1, 1, 0, 0, 0]);
        let three = [4, 4, 3, 1, 1, 0, 0, 0];
        assert_eq!(run(0), held(&[]));
        assert_eq!(run(1), held(&one));
        assert_eq!(run(2), held(&one));
        assert_eq!(run(3), held(&[one, two].concat()));
        assert_eq!(run(4), held(&[two, three].concat()));
        assert_eq!(run(5), (refused(19, 0, 4), vec![0; 17]));
        assert_eq!(run(u32::MAX), (refused(19, 0, 4), vec![0; 17]));
        assert_eq!(run_in(15, 0), (refused(7, 0, 2), vec![0; 15]));
    });
}

#[test]
fn the_listing_lends_what_is_needed() {
    with_library(|library| {
        let entry = Entry {
            first_start: 1,
            first_end: 5,
            second_start: 1,
            second_end: 5,
            weight: 3,
            strand: Strand::Forward,
        };
        let listing = library.list(P1, b"ACCGT", b"ACGGT").unwrap();
        assert_eq!(listing.entries, [entry]);
        assert_eq!((entry.first_span(), entry.second_span()), (5, 5));
        let reverse = Entry {
            weight: 4,
            strand: Strand::Reverse,
            ..entry
        };
        let listing = library.list(on_strand(BOTH, P1), b"ACCGT", b"ACGGT");
        assert_eq!(listing.unwrap().entries, [entry, reverse]);
        let refusal = Refusal {
            number: 6,
            sequence: 2,
            detail: 4,
        };
        assert_eq!(library.list(P1, b"ACCGT", b"ACGu"), Err(refusal));
    });
}

/// So many As in each sequence. With b 1,024 all matches lie in one window, and
/// all but the last go on.
fn together(rows: usize, columns: usize) -> [Vec<u8>; 2] {
    [rows, columns].map(|count| vec![b'A'; count])
}

/// Three rows of one letter each, and so many columns of each letter. With b 2 all
/// matches lie in one window, and none reaches another.
fn apart_in_one_window(columns: usize) -> [Vec<u8>; 2] {
    let columns = [b"ANN", b"CNN", b"GNN"].map(|unit| unit.repeat(columns));
    [b"ACG".to_vec(), columns.concat()]
}

/// As many records or entries as the first try has room for, one more, and more
/// of both.
#[test]
fn a_job_that_needs_more_than_the_first_try_is_listed_as_in_ample_rooms() {
    let cases = [
        (1_024, together(32, 64), [2_048, 1]),
        (1_024, together(3, 683), [2_049, 1]),
        (1, apart(16, 32), [32, 512]),
        (1, apart(19, 27), [27, 513]),
        (2, apart_in_one_window(683), [2_049, 2_049]),
    ];
    for (b, [first, second], needed) in cases {
        let forward = settings(1, b, 1_024, 0);
        let answer = listed_as_in_ample_rooms(forward, [&first, &second]);
        assert_eq!([answer.widest, answer.listed], needed);
        let both = on_strand(BOTH, forward);
        let turned = reverse_complement(&second);
        let answer = listed_as_in_ample_rooms(both, [&first, &turned]);
        assert!(answer.widest >= needed[0] && answer.listed >= needed[1]);
    }
}

fn listed_as_in_ample_rooms(settings: Entered, sequences: [&[u8]; 2]) -> Answer {
    with_library(|library| {
        let (answer, _, list) = compared(library, settings, sequences, [80_000, 60_000]);
        let [first, second] = sequences;
        let listing = library.list(settings, first, second).unwrap();
        let index = library.build_index(settings, second).unwrap();
        let over = library.list_indexed(settings, first, second, &index);
        assert_eq!(over, Ok(listing.clone()));
        let entries: Vec<u32> = listing.entries.iter().flat_map(numbers).collect();
        assert_eq!(listing.answer, answer);
        assert_eq!(entries, list[..6 * answer.listed as usize]);
        answer
    })
}

/// An entry as it stands in the list room.
fn numbers(entry: &Entry) -> [u32; 6] {
    let strand = match entry.strand {
        Strand::Forward => FORWARD,
        Strand::Reverse => REVERSE,
    };
    [
        entry.first_start,
        entry.first_end,
        entry.second_start,
        entry.second_end,
        entry.weight,
        strand,
    ]
}
