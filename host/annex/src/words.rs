//! Refusals, listings without a clause, strands and versions in plain words.

use asked::numbers::{self, grouped};
use asked::records::Record;
use asked::Sequences;
use hornbeamlet::{Answer, Masked, Refusal, Settings, Strands, A, B, K, KIT, M, VERSION};
use std::ops::RangeInclusive;

/// The command's version, and the kit that the library was proved with.
pub fn version() -> String {
    format!("annex {VERSION}, proved with {KIT}")
}

/// A refusal of the comparison with a second sequence, with its number, its
/// sequence and its place.
pub fn refused(
    settings: Settings,
    sequences: &Sequences,
    number: usize,
    refusal: Refusal,
) -> String {
    let named = match refusal.sequence {
        1 => Named::first(sequences),
        _ => Named::second(sequences, number),
    };
    let why = match refusal.number {
        1 => setting("k", "the k-mer length", settings.k, K),
        2 => setting("b", "the gap bound", settings.b, B),
        3 => setting("a", "the repeat cap", settings.a, A),
        4 => setting("m", "the least span", settings.m, M),
        5 => named.too_long(),
        6 => named.bad_letter(refusal.detail),
        _ => return refusal.to_string(),
    };
    format!("refused, number {}: {why}", refusal.number)
}

fn setting(name: &str, meaning: &str, value: u32, accepted: RangeInclusive<u32>) -> String {
    let numbers = [value, *accepted.start(), *accepted.end()];
    let [value, least, greatest] = numbers.map(|number| grouped(u64::from(number)));
    format!("{name}, {meaning}, is {value}; {least} to {greatest} is accepted (-{name})")
}

/// Why the listing with a second sequence has no clause: a sequence that has no
/// k-mer is told before anything is said of both.
pub fn no_clause(
    settings: Settings,
    sequences: &Sequences,
    number: usize,
    answer: Answer,
) -> String {
    let both = [Named::first(sequences), Named::second(sequences, number)];
    let without: Vec<String> = both.iter().filter_map(|it| it.no_kmer(settings)).collect();
    let strands = match settings.strand {
        Strands::Forward => "on the forward strand",
        Strands::Both => "on either strand",
    };
    if !without.is_empty() {
        without.join("; ")
    } else if answer.matches == 0 {
        format!("the two have no k-mer in common that is used, {strands}")
    } else {
        let least = grouped(u64::from(settings.m));
        format!("none would span {least} bases in both sequences, {strands}")
    }
}

/// A record, and which of all it is.
struct Named<'a> {
    which: String,
    record: &'a Record,
}

impl Named<'_> {
    fn first(sequences: &Sequences) -> Named<'_> {
        Named {
            which: "the first sequence".to_string(),
            record: &sequences.first,
        }
    }

    fn second(sequences: &Sequences, number: usize) -> Named<'_> {
        Named {
            which: sequences.which(number),
            record: &sequences.seconds[number - 1],
        }
    }

    fn too_long(&self) -> String {
        let letters = numbers::letters(self.record.letters.len());
        let Record {
            name, file, begins, ..
        } = self.record;
        let which = &self.which;
        format!(
            "{which}, {name}, on line {begins} of {file}, has {letters}; \
             at most 16,384 are accepted, so compare it in parts"
        )
    }

    fn bad_letter(&self, place: u64) -> String {
        let Record {
            name,
            file,
            letters,
            ..
        } = self.record;
        let (letter, hint) = letter_at(letters, place as usize);
        let line = self.record.line_of(place as usize);
        let (which, place) = (&self.which, grouped(place));
        format!("{which}, {name}, has {letter} at place {place}, on line {line} of {file}; {hint}")
    }

    /// Why the record has no k-mer, if it has none. That masked letters break is
    /// told where it would have one otherwise.
    fn no_kmer(&self, settings: Settings) -> Option<String> {
        let Record { name, letters, .. } = self.record;
        let Settings { k, masked, .. } = settings;
        let why = match letters.len() {
            0 => "has no letters".to_string(),
            few if few < k as usize => {
                let letters = numbers::letters(few);
                format!("has {letters}, fewer than the k-mer length, {k}")
            }
            _ if !has_kmer(letters, k as usize, Masked::Form) => {
                format!("has no {k} letters in a row that are A, C, G or T, so no k-mer")
            }
            _ if !has_kmer(letters, k as usize, masked) => format!(
                "has no {k} letters in a row that are A, C, G or T and not masked, so no k-mer \
                 (--masked break)"
            ),
            _ => return None,
        };
        Some(format!("{}, {name}, {why}", self.which))
    }
}

/// Whether k letters in a row form a k-mer.
fn has_kmer(letters: &[u8], k: usize, masked: Masked) -> bool {
    let bases = match masked {
        Masked::Form => "ACGTacgt",
        Masked::Break => "ACGT",
    };
    let breaks = |letter: &u8| !bases.as_bytes().contains(letter);
    letters.split(breaks).any(|bases| bases.len() >= k)
}

/// What stands at a place, and what to do about it.
fn letter_at(letters: &[u8], place: usize) -> (String, &'static str) {
    let from = letters.get(place.wrapping_sub(1)..).unwrap_or_default();
    let character = first_character(from);
    let letter = match character {
        Some(character) => shown(character),
        None => format!("the byte {:02X}", from.first().unwrap_or(&0)),
    };
    let hint = match character {
        Some('U' | 'u') => "RNA is not accepted; write T for each U and t for each u",
        Some('-' | '.') => "a gap is no letter; take it out",
        Some('>') => "a name begins a line; put a line end before it",
        Some('A'..='Z' | 'a'..='z') => {
            "the letters of nucleotides are ABCDGHKMNRSTVWY, capital or lower case; \
             is this a protein?"
        }
        _ => "the letters are ABCDGHKMNRSTVWY, capital or lower case; take out what is none",
    };
    (letter, hint)
}

/// A character so that it can be told from any other: one that cannot be seen, or
/// looks like another, by its code point.
fn shown(character: char) -> String {
    let code_point = format!("U+{:04X}", u32::from(character));
    match character {
        ' ' => "a blank".to_string(),
        '\t' => "a tab".to_string(),
        '!'..='~' => format!("the letter '{character}'"),
        _ if character.is_whitespace() || character.escape_debug().len() > 1 => {
            format!("the invisible letter {code_point}")
        }
        _ => format!("the letter '{character}' ({code_point})"),
    }
}

/// The character that begins a text, if its bytes make one.
fn first_character(text: &[u8]) -> Option<char> {
    let valid = text[..text.len().min(4)].utf8_chunks().next()?.valid();
    valid.chars().next()
}

#[cfg(test)]
mod tests {
    use super::*;

    #[test]
    fn letters_are_shown_as_they_are_read() {
        let shown = |letters: &[u8], place| letter_at(letters, place).0;
        assert_eq!(shown(b"ACx", 3), "the letter 'x'");
        assert_eq!(shown(b"A C", 2), "a blank");
        assert_eq!(shown("Aé".as_bytes(), 2), "the letter 'é' (U+00E9)");
        assert_eq!(shown(b"A\xFFC", 2), "the byte FF");
        assert_eq!(shown(b"A\tC", 2), "a tab");
    }

    /// A Cyrillic capital looks as A does, and the others as nothing at all.
    #[test]
    fn what_cannot_be_seen_is_shown_by_its_code_point() {
        assert_eq!(shown('\u{410}'), "the letter '\u{410}' (U+0410)");
        for code_point in [0xA0, 0xAD, 0x200B, 0x200E, 0x2028, 0x301, 0xFEFF] {
            let told = format!("the invisible letter U+{code_point:04X}");
            assert_eq!(shown(char::from_u32(code_point).unwrap()), told);
        }
    }

    #[test]
    fn every_kind_of_letter_gets_an_advice() {
        let advice = |letters| letter_at(letters, 1).1;
        assert_eq!(advice(b"u"), advice(b"U"));
        assert!(advice(b"u").contains("RNA"));
        assert_eq!(advice(b"e"), advice(b"E"));
        assert!(advice(b"-").contains("gap") && advice(b"E").contains("protein"));
        assert!(advice(b">").contains("line end"));
        assert!(advice(b"7").contains("take out") && advice(b"\xFF").contains("take out"));
    }

    #[test]
    fn bases_in_a_row_make_a_kmer() {
        for masked in [Masked::Form, Masked::Break] {
            let has_kmer = |letters, k| has_kmer(letters, k, masked);
            assert!(has_kmer(b"NACGTN", 4) && !has_kmer(b"NACGTN", 5));
            assert!(!has_kmer(b"NNNN", 1) && !has_kmer(b"", 1) && has_kmer(b"NA", 1));
        }
    }

    #[test]
    fn masked_bases_break_where_they_are_to() {
        let longest = |letters, masked| {
            let mut lengths = (1..=9).rev();
            lengths.find(|&k| has_kmer(letters, k, masked))
        };
        assert_eq!(longest(b"ACgtACGnA", Masked::Form), Some(7));
        assert_eq!(longest(b"ACgtACGnA", Masked::Break), Some(3));
        assert_eq!(longest(b"acgt", Masked::Form), Some(4));
        assert_eq!(longest(b"acgt", Masked::Break), None);
    }
}
