//! The fifteen letters, their codes, their lower case and their complements.

/// "Each has a code, a set of four bits (A 1, C 2, G 4, T 8)".
const LETTERS_AND_CODES: [(u8, u8); 15] = [
    (b'A', 1),
    (b'C', 2),
    (b'M', 3),
    (b'G', 4),
    (b'R', 5),
    (b'S', 6),
    (b'V', 7),
    (b'T', 8),
    (b'W', 9),
    (b'Y', 10),
    (b'H', 11),
    (b'K', 12),
    (b'D', 13),
    (b'B', 14),
    (b'N', 15),
];

/// The code of a capital. "Frames carry capitals only", so no other letter has one.
pub fn code_of(capital: u8) -> Option<u8> {
    let found = LETTERS_AND_CODES.iter().find(|pair| pair.0 == capital);
    found.map(|pair| pair.1)
}

/// The capital of a code from 1 to 15.
pub fn letter_of(code: u8) -> Option<u8> {
    let found = LETTERS_AND_CODES.iter().find(|pair| pair.1 == code);
    found.map(|pair| pair.0)
}

/// "Reading a letter now tells its capital and whether it is masked".
#[derive(Clone, Copy, Debug, PartialEq, Eq)]
pub struct Letter {
    /// Its capital.
    pub capital: u8,
    /// Whether it stands in lower case.
    pub masked: bool,
}

impl Letter {
    /// "Accept the lower case of the fifteen letters." None for any other byte.
    pub fn read(byte: u8) -> Option<Letter> {
        let capital = byte.to_ascii_uppercase();
        let masked = byte != capital;
        code_of(capital).map(|_| Letter { capital, masked })
    }

    /// The byte it is read from.
    fn byte(self) -> u8 {
        match self.masked {
            true => self.capital.to_ascii_lowercase(),
            false => self.capital,
        }
    }
}

/// "Only A, C, G and T form k-mers."
pub fn forms_kmers(capital: u8) -> bool {
    matches!(capital, b'A' | b'C' | b'G' | b'T')
}

/// A sequence of capitals in place of one with masked letters: these "form k-mers
/// (0) or break them as N does (1)".
///
/// # Panics
///
/// If a byte of it is no letter; a job is swept after its letters are checked.
pub fn in_capitals(mask: u32, sequence: &[u8]) -> Vec<u8> {
    let read = |&byte: &u8| Letter::read(byte).expect("one of the fifteen");
    let capital = |it: Letter| match it.masked && mask == 1 {
        true => b'N',
        false => it.capital,
    };
    sequence.iter().map(read).map(capital).collect()
}

/// "a letter not among the fifteen": its first place, counted from 1. For their
/// lower case too, "6 is no longer given".
pub fn first_bad_place(sequence: &[u8]) -> Option<usize> {
    let bad = |&byte: &u8| Letter::read(byte).is_none();
    sequence.iter().position(bad).map(|before| before + 1)
}

/// "A letter's complement reverses the four bits of its code, so R becomes Y
/// and N stays", and "reverse complement keeps the mask". None for what is no
/// letter.
pub fn complement(byte: u8) -> Option<u8> {
    let letter = Letter::read(byte)?;
    let code = code_of(letter.capital)?;
    let bits = [code & 1, code >> 1 & 1, code >> 2 & 1, code >> 3 & 1];
    let reversed = bits.iter().fold(0, |above, bit| above << 1 | bit);
    let capital = letter_of(reversed)?;
    Some(Letter { capital, ..letter }.byte())
}

/// The reverse complement of a sequence: the last letter's complement first.
///
/// # Panics
///
/// If a byte of it is no letter; a job is turned after its letters are checked.
pub fn reverse_complement(sequence: &[u8]) -> Vec<u8> {
    let backwards = sequence.iter().rev();
    let turned = backwards.map(|&letter| complement(letter).expect("one of the fifteen"));
    turned.collect()
}

#[cfg(test)]
mod tests {
    use super::*;

    #[test]
    fn the_codes_are_the_sets_of_bits_of_their_letters() {
        let sets: [(u8, &[u8]); 15] = [
            (b'A', b"A"),
            (b'C', b"C"),
            (b'M', b"AC"),
            (b'G', b"G"),
            (b'R', b"AG"),
            (b'S', b"CG"),
            (b'V', b"ACG"),
            (b'T', b"T"),
            (b'W', b"AT"),
            (b'Y', b"CT"),
            (b'H', b"ACT"),
            (b'K', b"GT"),
            (b'D', b"AGT"),
            (b'B', b"CGT"),
            (b'N', b"ACGT"),
        ];
        for (letter, bases) in sets {
            let code = bases.iter().map(|&base| code_of(base).unwrap()).sum();
            assert_eq!(code_of(letter), Some(code));
            assert_eq!(letter_of(code), Some(letter));
        }
    }

    #[test]
    fn fifteen_letters_their_lower_case_and_no_others() {
        let known = (0..=255).filter(|&byte| Letter::read(byte).is_some());
        assert_eq!(
            known.collect::<Vec<u8>>(),
            b"ABCDGHKMNRSTVWYabcdghkmnrstvwy"
        );
        let coded = (0..=255).filter(|&byte| code_of(byte).is_some());
        assert_eq!(coded.collect::<Vec<u8>>(), b"ABCDGHKMNRSTVWY");
        assert!((0..=255)
            .filter(|&code| letter_of(code).is_some())
            .eq(1..=15));
    }

    #[test]
    fn lower_case_is_masked() {
        let read = |capital, masked| Some(Letter { capital, masked });
        assert_eq!(Letter::read(b'R'), read(b'R', false));
        assert_eq!(Letter::read(b'r'), read(b'R', true));
        assert_eq!(Letter::read(b'u'), None);
    }

    #[test]
    fn masked_letters_are_read_as_capitals_or_as_n() {
        assert_eq!(in_capitals(0, b"AaRrNn"), b"AARRNN");
        assert_eq!(in_capitals(1, b"AaRrNn"), b"ANRNNN");
        assert_eq!(in_capitals(1, b""), b"");
    }

    #[test]
    fn the_first_bad_place_counts_from_one() {
        assert_eq!(first_bad_place(b""), None);
        assert_eq!(first_bad_place(b"ACGTN"), None);
        assert_eq!(first_bad_place(b"ACGTNacgtn"), None);
        assert_eq!(first_bad_place(b"u"), Some(1));
        assert_eq!(first_bad_place(b"ACaU"), Some(4));
        assert_eq!(first_bad_place(b"AC\xE1U"), Some(3));
    }

    #[test]
    fn the_complements_are_the_fields_own() {
        for (letter, other) in b"ABCDGHKMNRSTVWY".iter().zip(b"TVGHCDMKNYSABWR") {
            assert_eq!(complement(*letter), Some(*other));
            let masked = complement(letter.to_ascii_lowercase());
            assert_eq!(masked, Some(other.to_ascii_lowercase()));
        }
        assert!([b'U', b'u', b'-', 0]
            .iter()
            .all(|&byte| complement(byte).is_none()));
    }

    #[test]
    fn turning_round_twice_gives_the_sequence_back() {
        assert_eq!(reverse_complement(b""), b"");
        assert_eq!(reverse_complement(b"AACGN"), b"NCGTT");
        assert_eq!(reverse_complement(b"aACgN"), b"NcGTt");
        let all = b"ABCDGHKMNRSTVWYabcdghkmnrstvwy";
        assert_eq!(reverse_complement(&reverse_complement(all)), all);
    }
}
