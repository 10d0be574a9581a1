//! Sequence files: FASTA with one record or many, or plain letters.
//!
//! Line ends of any kind and blanks at the ends of a line are no letters.
//! Everything else on a line of letters is handed on as it stands, so that the
//! library can refuse what it must and a place is never counted wrongly.

use crate::lines::Lines;
use crate::sources::{on_one_line, Source, OF_MANY, OF_ONE};
use settings::LONGEST;
use std::mem;

/// One named sequence and where its letters stand in its file.
#[derive(Debug, PartialEq, Eq)]
pub struct Record {
    /// The file as the user typed it.
    pub file: String,
    /// The first word of its name line, or else the file's own name.
    pub name: String,
    /// Its letters as they stand in the file, good or not.
    pub letters: Vec<u8>,
    /// The line on which it begins, with its name or, without one, its letters.
    pub begins: usize,
    /// For each line of letters, how many come before it and its number.
    lines: Vec<(usize, usize)>,
}

impl Record {
    /// The number of the line on which a place stands.
    pub fn line_of(&self, place: usize) -> usize {
        let begun = self.lines.partition_point(|&(before, _)| before < place);
        begun.checked_sub(1).map_or(0, |line| self.lines[line].1)
    }

    fn take(&mut self, letters: &[u8], line: usize) {
        self.lines.push((self.letters.len(), line));
        self.letters.extend(letters);
    }
}

/// The record of a file that must hold just one.
pub fn read_one(source: &Source) -> Result<Record, String> {
    let bytes = source.read(OF_ONE);
    let mut records = told_of(source, bytes.and_then(|bytes| parse(&bytes, source)))?;
    let held = records.len();
    match records.pop() {
        Some(record) if held == 1 => Ok(record),
        _ => Err(format!(
            "{source}: this holds {held} records and FIRST must hold one; a file of many goes second"
        )),
    }
}

/// All records of a file, of which there is at least one.
pub fn read_all(source: &Source) -> Result<Vec<Record>, String> {
    let bytes = source.read(OF_MANY);
    told_of(source, bytes.and_then(|bytes| parse(&bytes, source)))
}

/// A fault with the name of its file.
fn told_of<T>(source: &Source, read: Result<T, String>) -> Result<T, String> {
    read.map_err(|fault| format!("{source}: {fault}"))
}

fn parse(bytes: &[u8], source: &Source) -> Result<Vec<Record>, String> {
    // The mark that some editors put before a text in UTF-8.
    let bytes = bytes.strip_prefix(b"\xEF\xBB\xBF").unwrap_or(bytes);
    let mut reading = Reading {
        source,
        plain: false,
        room: bytes.len().min(LONGEST),
        records: Vec::new(),
    };
    for (line, text) in Lines::of(bytes) {
        reading.take(text.trim_ascii(), line)?;
    }
    if reading.records.is_empty() {
        let empty =
            "the file is empty, without a name line and letters; was it written to its end?";
        return Err(empty.to_string());
    }
    Ok(reading.records)
}

/// The records so far.
struct Reading<'a> {
    source: &'a Source,
    /// Whether the letters began without a name line.
    plain: bool,
    /// Room for the letters of the first record, which mostly is the only one.
    room: usize,
    records: Vec<Record>,
}

impl Reading<'_> {
    fn take(&mut self, text: &[u8], line: usize) -> Result<(), String> {
        if let Some(heading) = text.strip_prefix(b">") {
            if self.plain {
                return Err(format!(
                    "letters stand before the first name line, which is line {line}; \
                     begin the file with a name line, >name"
                ));
            }
            self.begin(heading, line);
        } else if !text.is_empty() {
            if self.records.is_empty() {
                self.plain = true;
                self.begin(b"", line);
            }
            if let Some(record) = self.records.last_mut() {
                record.take(text, line);
            }
        }
        Ok(())
    }

    fn begin(&mut self, heading: &[u8], line: usize) {
        let mut words = heading.split(u8::is_ascii_whitespace);
        let word = words.find(|word| !word.is_empty());
        let name = word.map(|word| on_one_line(&String::from_utf8_lossy(word)));
        self.records.push(Record {
            file: self.source.to_string(),
            name: name.unwrap_or_else(|| self.file_name()),
            letters: Vec::with_capacity(mem::take(&mut self.room)),
            begins: line,
            lines: Vec::new(),
        });
    }

    /// A name for the next record that has none: the file's, in one word, and
    /// the record's number if it is not the first.
    fn file_name(&self) -> String {
        let name = match self.source {
            Source::File(path) => path.file_name().unwrap_or(path.as_os_str()),
            Source::StandardInput => "standard-input".as_ref(),
        };
        let name = name.to_string_lossy().replace(char::is_whitespace, "_");
        match self.records.len() {
            0 => on_one_line(&name),
            earlier => format!("{}:{}", on_one_line(&name), earlier + 1),
        }
    }
}

#[cfg(test)]
mod tests {
    use super::*;

    fn parsed(text: &[u8]) -> Result<Vec<Record>, String> {
        parse(text, &Source::File("folder/my file.fa".into()))
    }

    fn names_and_letters(text: &[u8]) -> Vec<(String, String)> {
        let records = parsed(text).unwrap().into_iter();
        records
            .map(|it| (it.name, String::from_utf8(it.letters).unwrap()))
            .collect()
    }

    fn pairs(expected: &[(&str, &str)]) -> Vec<(String, String)> {
        let owned = |&(name, letters): &(&str, &str)| (name.to_string(), letters.to_string());
        expected.iter().map(owned).collect()
    }

    #[test]
    fn fasta_with_line_ends_of_any_kind() {
        let expected = pairs(&[("one", "ACGTAC"), ("two", ""), ("three", "G")]);
        let text = b">one the first\nACGT\n\nAC\n>two\n> three\nG";
        assert_eq!(names_and_letters(text), expected);
        let text = b"\xEF\xBB\xBF>one\r\nACGT \r\nAC\r\n>two\r\n>three\t3\r\nG\r\n";
        assert_eq!(names_and_letters(text), expected);
        let text = b">one\rACGT\rAC\r>two\r>three\rG\r";
        assert_eq!(names_and_letters(text), expected);
    }

    #[test]
    fn plain_letters_take_the_name_of_their_file() {
        let expected = pairs(&[("my_file.fa", "ACGTAC")]);
        assert_eq!(names_and_letters(b"\nACGT\nAC\n"), expected);
        let expected = pairs(&[("my_file.fa", "A"), ("my_file.fa:2", "C")]);
        assert_eq!(names_and_letters(b">\nA\n>\nC\n"), expected);
        let records = parse(b"AC", &Source::StandardInput).unwrap();
        assert_eq!(records[0].name, "standard-input");
    }

    #[test]
    fn a_place_is_found_on_its_line() {
        let records = parsed(b"\n>one\nACGT\n\n AC\n>two\nG\n").unwrap();
        let lines: Vec<usize> = (1..=6).map(|place| records[0].line_of(place)).collect();
        assert_eq!(lines, [3, 3, 3, 3, 5, 5]);
        assert_eq!(records[1].line_of(1), 7);
        assert_eq!((records[0].begins, records[1].begins), (2, 6));
    }

    #[test]
    fn what_has_no_records() {
        for (text, words) in [("", "empty"), ("\r\n \r", "empty")] {
            assert!(parsed(text.as_bytes()).unwrap_err().contains(words));
        }
        let fault = parsed(b"ACGT\n>x\nACGT").unwrap_err();
        assert!(fault.contains("name line, which is line 2;"), "{fault}");
    }
}
