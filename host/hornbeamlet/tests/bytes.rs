//! Every byte at the first, the middle and the last place of either sequence, with
//! each mask setting and on each strand: answers and rooms are those of the separate
//! program, and those over an index the plain ones. What is refused, and what a
//! masked letter does, is asked for in itself too.

#![forbid(unsafe_code)]

mod common;

use common::Proved;
use hornbeamlet::{with_library, BOTH, FORWARD, MASKED_BREAK, MASKED_FORM};
use reference::calls::{Calls, IndexCalls, Over, Reference};
use reference::{Answer, Settings};

const CAPITALS: &[u8] = b"ABCDGHKMNRSTVWY";
/// What the rooms hold before a call.
const STALE: u32 = 77;
/// Stretches that match on each strand, some of them masked, around each place that
/// is changed.
const SEQUENCES: [&[u8]; 2] = [b"ACGTCaGGACACGTA", b"TACGTGTCctGACGT"];
/// The first, the middle and the last place, counted from 0.
const PLACES: [usize; 3] = [0, 7, 14];
/// Rows of the first sequence with k-mers of two letters.
const ROWS: u32 = 14;

/// What all calls give, the sweeps over the index that was built too.
#[derive(Debug, PartialEq)]
struct Given {
    need: u64,
    built: (Answer, Vec<u32>),
    plain: Swept,
    over: Swept,
}

/// What the two sweeps give, with each room after it.
#[derive(Debug, PartialEq)]
struct Swept {
    compared: (Answer, Vec<u32>, Vec<u32>),
    stopped: (Answer, Vec<u32>),
}

impl Swept {
    fn by(asked: &impl Calls, settings: Settings, [first, second]: &[Vec<u8>; 2]) -> Swept {
        let [mut work, mut list, mut held] = [200, 100, 200].map(|length| vec![STALE; length]);
        let compared = asked.compare(settings, first, second, &mut work, &mut list);
        let stopped = asked.stopped(settings, first, second, &mut held, ROWS);
        Swept {
            compared: (compared, work, list),
            stopped: (stopped, held),
        }
    }
}

/// A place of one of the sequences, and the settings they are compared with.
#[derive(Clone, Copy, Debug)]
struct Case {
    settings: Settings,
    /// 0 for the first sequence, 1 for the second.
    which: usize,
    place: usize,
}

impl Case {
    fn all() -> impl Iterator<Item = Case> {
        let settings = [FORWARD, BOTH]
            .into_iter()
            .flat_map(|strand| [MASKED_FORM, MASKED_BREAK].map(|mask| settings(strand, mask)));
        let sequences = settings.flat_map(|settings| [0, 1].map(|which| (settings, which)));
        sequences.flat_map(|(settings, which)| {
            PLACES.map(|place| Case {
                settings,
                which,
                place,
            })
        })
    }

    /// What is given with this byte at the place.
    fn given_by(&self, asked: &impl IndexCalls, byte: u8) -> Given {
        let mut sequences = SEQUENCES.map(<[u8]>::to_vec);
        sequences[self.which][self.place] = byte;
        let ([first, second], settings) = (&sequences, self.settings);
        let mut index = vec![STALE; second.len()];
        let built = asked.index(settings.k, settings.mask, second, &mut index);
        let over = Over {
            calls: asked,
            index: &index,
        };
        Given {
            need: asked.need(settings, first, second),
            plain: Swept::by(asked, settings, &sequences),
            over: Swept::by(&over, settings, &sequences),
            built: (built, index),
        }
    }

    /// The refusal of what is no letter there.
    fn refusal(&self) -> (u64, u64, u64) {
        (6, self.which as u64 + 1, self.place as u64 + 1)
    }
}

fn settings(strand: u32, mask: u32) -> Settings {
    Settings {
        k: 2,
        b: 4,
        a: 100,
        m: 0,
        strand,
        mask,
    }
}

fn is_letter(byte: u8) -> bool {
    CAPITALS.contains(&byte.to_ascii_uppercase())
}

#[test]
fn every_byte_is_taken_as_the_separate_program_takes_it() {
    with_library(|library| {
        for case in Case::all() {
            for byte in 0..=255 {
                let given = case.given_by(&Proved(library), byte);
                let expected = case.given_by(&Reference, byte);
                assert_eq!(given, expected, "byte {byte}: {case:?}");
                assert_eq!(given.over, given.plain, "byte {byte}: {case:?}");
            }
        }
    });
}

#[test]
fn what_is_no_letter_is_refused_at_its_place() {
    with_library(|library| {
        for case in Case::all() {
            for byte in 0..=255 {
                let given = case.given_by(&Proved(library), byte);
                let answers = [given.plain.compared.0, given.plain.stopped.0];
                let told = answers.map(|it| (it.number, it.sequence, it.detail));
                let due = match is_letter(byte) {
                    true => (0, 0, 0),
                    false => case.refusal(),
                };
                assert_eq!(told, [due; 2], "byte {byte}: {case:?}");
            }
        }
    });
}

/// Each letter in lower case gives what its capital does, or what N does; at every
/// place some letters give something else than N.
#[test]
fn masked_letters_form_kmers_as_capitals_or_break_them_as_n() {
    with_library(|library| {
        for case in Case::all() {
            let given = |byte| case.given_by(&Proved(library), byte);
            let broken = given(b'N');
            let mut deciding = 0;
            for &capital in CAPITALS {
                let formed = given(capital);
                deciding += u32::from(formed != broken);
                let masked = given(capital.to_ascii_lowercase());
                let due = match case.settings.mask {
                    MASKED_FORM => &formed,
                    _ => &broken,
                };
                assert_eq!(&masked, due, "{capital}: {case:?}");
            }
            assert!(deciding >= 2, "{deciding}: {case:?}");
        }
    });
}
