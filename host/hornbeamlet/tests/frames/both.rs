//! Cases put to the library and to the reference.

use hornbeamlet::{with_library, Library, LINE};
use std::collections::BTreeSet;

use super::READ;

/// What a writer replies that writes nothing.
pub const NOT_WRITTEN: u64 = hornbeamlet::REFUSED + 27;
/// What a slice holds before a call: no digit and no line feed.
pub const STALE: u8 = b'?';
/// What is in the place of values before a call.
pub const STALE_VALUES: [u64; 5] = [u64::MAX / 3; 5];
/// Bytes on either side of a lent slice, which no call may touch.
const MARGIN: usize = 16;

/// One who puts each case to both and keeps the replies.
pub struct Both<'a> {
    pub library: &'a Library,
    replies: BTreeSet<u64>,
}

/// Puts cases to both. Each of these replies has to come, and no other.
pub fn put_to_both(replies: &[u64], cases: impl FnOnce(&mut Both) + Send) {
    with_library(|library| {
        let mut both = Both {
            library,
            replies: BTreeSet::new(),
        };
        cases(&mut both);
        assert!(both.replies.iter().eq(replies), "{:?}", both.replies);
    });
}

impl Both<'_> {
    /// A frame written into a slice of so many bytes: the reply is the same, and
    /// so are all bytes in the slice and on either side of it.
    pub fn write(&mut self, kind: u32, values: &[u64], length: usize) -> u64 {
        let [mut given, mut expected] = [(); 2].map(|()| vec![STALE; length + 2 * MARGIN]);
        let lent = MARGIN..MARGIN + length;
        let given_lent = &mut given[lent.clone()];
        let reply = self.library.write_frame(kind, values, given_lent);
        let due = reference::write_frame(kind, values, &mut expected[lent]);
        assert!(
            reply == due && given == expected,
            "kind {kind} into {length} bytes: {values:?}\nlibrary   {reply} {}\nreference {due} {}",
            given.escape_ascii(),
            expected.escape_ascii(),
        );
        self.replies.insert(reply);
        reply
    }

    /// A frame written into a slice for any line and, where a line comes of it,
    /// into slices around its length: the line fits from its length on.
    pub fn write_around(&mut self, kind: u32, values: &[u64]) -> u64 {
        let reply = self.write(kind, values, LINE);
        if reply != NOT_WRITTEN {
            let length = reply as usize;
            assert_eq!(self.write(kind, values, length), reply);
            assert_eq!(self.write(kind, values, length + 1), reply);
            assert_eq!(self.write(kind, values, length - 1), NOT_WRITTEN);
        }
        reply
    }

    /// A line read as a frame of a kind: reply and values are the same.
    pub fn read(&mut self, kind: u32, line: &[u8]) {
        let [mut given, mut expected] = [STALE_VALUES; 2];
        let reply = self.library.read_frame(kind, line, &mut given);
        let due = reference::read_frame(kind, line, &mut expected);
        assert!(
            (reply, given) == (due, expected),
            "kind {kind} from {}\nlibrary   {reply} {given:?}\nreference {due} {expected:?}",
            line.escape_ascii(),
        );
        self.replies.insert(reply);
    }

    /// A line read as a frame of each kind that has a reader.
    pub fn read_as_each(&mut self, line: &[u8]) {
        for kind in READ {
            self.read(kind, line);
        }
    }
}
