//! Where sequences are read from, and what is told of a file that holds none.

use crate::lines::Lines;
use std::fmt::{self, Display, Formatter};
use std::fs::File;
use std::io::{self, Error, ErrorKind, Read};
use std::path::PathBuf;

/// A file, or standard input.
#[derive(Clone, Debug, PartialEq, Eq)]
pub enum Source {
    /// A file, as it was named.
    File(PathBuf),
    /// Standard input, which the word `-` names.
    StandardInput,
}

impl Display for Source {
    fn fmt(&self, to: &mut Formatter) -> fmt::Result {
        match self {
            Source::File(path) => write!(to, "{}", on_one_line(&path.to_string_lossy())),
            Source::StandardInput => write!(to, "standard input"),
        }
    }
}

/// A text in which line ends, tabs and their like are shown and not done, so that
/// it can stand on a line with others.
pub fn on_one_line(text: &str) -> String {
    let mut shown = String::with_capacity(text.len());
    for character in text.chars() {
        if character.is_control() {
            shown.extend(character.escape_default());
        } else {
            shown.push(character);
        }
    }
    shown
}

/// How much of a file is read.
#[derive(Clone, Copy)]
pub struct Bound {
    /// So many bytes.
    pub bytes: u64,
    /// What is told of a file that has more.
    pub told: &'static str,
}

/// A sequence of 16,384 letters takes 17 kB in lines of any usual length, and less
/// than this bound even with one letter to a line and a long name.
pub const OF_ONE: Bound = Bound {
    bytes: 1 << 20,
    told: "the file is larger than 1 MiB, and no sequence of up to 16,384 letters takes so \
           much; give the one that is meant in a file of its own",
};

/// Sixteen thousand records of the greatest length.
pub const OF_MANY: Bound = Bound {
    bytes: 256 << 20,
    told: "the file is larger than 256 MiB; is it a genome? Sequences have up to 16,384 \
           letters, and a larger collection of them goes into several files",
};

impl Source {
    /// All of its bytes, if they are within the bound and can be text.
    pub fn read(&self, bound: Bound) -> Result<Vec<u8>, String> {
        let read = match self {
            Source::File(path) => File::open(path).and_then(|file| bounded(file, bound)),
            Source::StandardInput => bounded(io::stdin().lock(), bound),
        };
        let bytes = read.map_err(|error| unreadable(&error))?;
        check_kind(&bytes)?;
        if bytes.len() as u64 > bound.bytes {
            return Err(bound.told.to_string());
        }
        check_text(&bytes)?;
        Ok(bytes)
    }
}

/// Room for a sequence of the greatest length, which is then read at one go.
const USUAL: usize = 32 << 10;

/// One byte past the bound at most, which tells that there are more.
fn bounded(input: impl Read, bound: Bound) -> io::Result<Vec<u8>> {
    let mut bytes = Vec::with_capacity(USUAL);
    input.take(bound.bytes + 1).read_to_end(&mut bytes)?;
    Ok(bytes)
}

fn unreadable(error: &Error) -> String {
    match error.kind() {
        ErrorKind::NotFound => "there is no such file".to_string(),
        ErrorKind::PermissionDenied => "the file may not be read".to_string(),
        ErrorKind::IsADirectory => "this is a directory; name the files in it".to_string(),
        _ => format!("the file cannot be read: {error}"),
    }
}

/// What other kinds of files begin with, and what is told of them.
const OTHER_KINDS: [(&[u8], &str); 10] = [
    (b"\x1F\x8B", "the file is compressed (gzip); unpack it first, as with gunzip"),
    (b"\xFD7zXZ\0", "the file is compressed (xz); unpack it first, as with unxz"),
    (b"BZh", "the file is compressed (bzip2); unpack it first, as with bunzip2"),
    (b"\x28\xB5\x2F\xFD", "the file is compressed (zstd); unpack it first, as with unzstd"),
    (b"PK\x03\x04", "the file is a zip archive or an office document; unpack it first, or save it as plain text"),
    (b"PK\x05\x06", "the file is an empty zip archive"),
    (b"LOCUS ", "the file is GenBank; turn it into FASTA first, or ask for FASTA where it was loaded"),
    (b"ID   ", "the file is EMBL; turn it into FASTA first, or ask for FASTA where it was loaded"),
    (b"\xFF\xFE", "the file is text in UTF-16; save it as plain text"),
    (b"\xFE\xFF", "the file is text in UTF-16; save it as plain text"),
];

const FASTQ: &str = "the file is FASTQ; turn it into FASTA first, without the lines of qualities";

fn check_kind(bytes: &[u8]) -> Result<(), String> {
    let kind = OTHER_KINDS
        .iter()
        .find(|(begin, _)| bytes.starts_with(begin));
    if let Some((_, told)) = kind {
        return Err(told.to_string());
    }
    if is_fastq(bytes) {
        return Err(FASTQ.to_string());
    }
    Ok(())
}

/// A name after @, and somewhere a line that parts letters from qualities.
fn is_fastq(bytes: &[u8]) -> bool {
    bytes.starts_with(b"@") && Lines::of(bytes).any(|(_, text)| text.starts_with(b"+"))
}

/// A byte that no text has is told before anything is made of its letters.
fn check_text(bytes: &[u8]) -> Result<(), String> {
    let odd = |&byte: &u8| byte.is_ascii_control() && !matches!(byte, b'\t' | b'\n' | b'\r');
    // A pass that never stops takes many bytes at a time, and nearly all files pass.
    if !bytes.iter().fold(false, |any, byte| any | odd(byte)) {
        return Ok(());
    }
    for (line, text) in Lines::of(bytes) {
        if let Some(place) = text.iter().position(odd) {
            let byte = text[place];
            return Err(format!(
                "this is not text: byte {byte:02X} at place {} of line {line}; \
                 save the sequence as plain text",
                place + 1
            ));
        }
    }
    Ok(())
}

#[cfg(test)]
mod tests {
    use super::*;

    fn checked(bytes: &[u8]) -> Result<(), String> {
        check_kind(bytes).and_then(|()| check_text(bytes))
    }

    #[test]
    fn other_kinds_of_files_are_named() {
        let kinds: [(&[u8], &str); 12] = [
            (b"\x1F\x8B\x08\0", "(gzip)"),
            (b"\xFD7zXZ\0\0", "(xz)"),
            (b"BZh91AY", "(bzip2)"),
            (b"\x28\xB5\x2F\xFD\x04", "(zstd)"),
            (b"PK\x03\x04\x14", "zip"),
            (b"PK\x05\x06\0", "zip"),
            (b"@read\nACGT\n+\nIIII\n", "FASTQ"),
            (b"@read\r\nACGT\r\n+read\r\nIIII\r\n", "FASTQ"),
            (b"LOCUS       NC_000913\n", "GenBank"),
            (b"ID   X56734; SV 1;\n", "EMBL"),
            (b"\xFF\xFE>\0x\0", "UTF-16"),
            (b"\xFE\xFF\0>\0x", "UTF-16"),
        ];
        for (bytes, words) in kinds {
            let fault = checked(bytes).unwrap_err();
            assert!(fault.contains(words), "{fault}");
        }
        for text in ["@", "ACGT", ">@x\n+\n", "\t\r\n", ">LOCUS x", "\u{e9}"] {
            assert_eq!(checked(text.as_bytes()), Ok(()));
        }
    }

    #[test]
    fn bytes_that_no_text_has_are_told_with_their_place() {
        let fault = |bytes| checked(bytes).unwrap_err();
        assert!(fault(b"AC\0GT").contains("byte 00 at place 3 of line 1;"));
        assert!(fault(b">x\rAC\r\n\x1B[2J").contains("byte 1B at place 1 of line 3;"));
        assert!(fault(b"AC\x7F").contains("byte 7F at place 3 of line 1;"));
    }

    #[test]
    fn the_name_of_a_file_stays_on_one_line() {
        let shown = |name: &str| Source::File(name.into()).to_string();
        assert_eq!(shown("a b/\u{e9}.fa"), "a b/\u{e9}.fa");
        assert_eq!(shown("a\tb\nc\u{1b}\u{85}"), "a\\tb\\nc\\u{1b}\\u{85}");
        assert_eq!(Source::StandardInput.to_string(), "standard input");
    }

    /// An endless input shows that no more is read than the bound.
    #[test]
    fn reading_ends_just_past_the_bound() {
        let bound = Bound {
            bytes: 10,
            told: "too large",
        };
        let letters = |count| io::repeat(b'A').take(count);
        assert_eq!(bounded(letters(10), bound).unwrap().len(), 10);
        assert_eq!(bounded(letters(11), bound).unwrap().len(), 11);
        assert_eq!(bounded(io::repeat(b'A'), bound).unwrap().len(), 11);
    }
}
