//! The lines of a text.

use std::io::BufRead;

/// The lines with their numbers, counted from 1. A line ends with a line feed, a
/// carriage return, or both in this order: the ends that any system has written.
pub struct Lines<'a> {
    rest: Option<&'a [u8]>,
    number: usize,
    /// Whether a carriage return may come; few texts have any.
    returns: bool,
}

impl Lines<'_> {
    /// Those of a text.
    pub fn of(text: &[u8]) -> Lines<'_> {
        // A pass that never stops takes many bytes at a time.
        let returns = text.iter().fold(false, |any, byte| any | (*byte == b'\r'));
        Lines {
            rest: Some(text),
            number: 0,
            returns,
        }
    }
}

impl<'a> Iterator for Lines<'a> {
    type Item = (usize, &'a [u8]);

    fn next(&mut self) -> Option<(usize, &'a [u8])> {
        let rest = self.rest.take()?;
        self.number += 1;
        let end = match self.returns {
            true => rest.iter().position(|byte| matches!(byte, b'\n' | b'\r')),
            false => line_feed(rest),
        };
        let Some(end) = end else {
            return Some((self.number, rest));
        };
        let (line, after) = rest.split_at(end);
        let after = after.strip_prefix(b"\r\n").unwrap_or(&after[1..]);
        self.rest = Some(after);
        Some((self.number, line))
    }
}

/// Where the first line feed stands. A slice that is read looks at many bytes at a
/// time, where `position` looks at one.
fn line_feed(text: &[u8]) -> Option<usize> {
    let up_to_it = { text }.skip_until(b'\n').ok()?;
    let last = up_to_it.checked_sub(1)?;
    (text[last] == b'\n').then_some(last)
}

#[cfg(test)]
mod tests {
    use super::*;

    fn lines(text: &str) -> Vec<(usize, &[u8])> {
        Lines::of(text.as_bytes()).collect()
    }

    #[test]
    fn a_line_ends_in_any_of_three_ways() {
        let expected: [(usize, &[u8]); 4] = [(1, b"a"), (2, b""), (3, b"bc"), (4, b"")];
        for text in ["a\n\nbc\n", "a\r\n\r\nbc\r\n", "a\r\rbc\r", "a\n\rbc\r\n"] {
            assert_eq!(lines(text), expected, "{text:?}");
        }
        assert_eq!(lines("a"), [(1, b"a".as_slice())]);
        assert_eq!(lines(""), [(1, b"".as_slice())]);
    }

    /// The last line has no end where its last letter is none.
    #[test]
    fn the_last_line_may_lack_its_end() {
        assert_eq!(lines("a\nbc"), [(1, b"a".as_slice()), (2, b"bc")]);
        assert_eq!(lines("\n"), [(1, b"".as_slice()), (2, b"")]);
        assert_eq!(line_feed(b"abc"), None);
        assert_eq!(line_feed(b"ab\nc\n"), Some(2));
    }
}
