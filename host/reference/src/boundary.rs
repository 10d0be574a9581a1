//! Writers and readers as they are asked for over the C boundary: all writers by
//! one call and all readers by another, each told the kind.

use crate::answers::REFUSED_REPLY;
use crate::frames::{
    read_done, read_entry, read_refused, read_reverse_entry, write_done, write_end, write_entry,
    write_first_piece, write_job, write_refused, write_reverse_entry, write_second_piece, Reading,
    DONE, END, ENTRY, FIRST_PIECE, JOB, REFUSED, REVERSE_ENTRY, SECOND_PIECE,
};

/// What a writer gives where it writes nothing: "27 and length 0".
const NOT_WRITTEN: (u64, usize) = (27, 0);
/// What a reader gives for "another kind": 23, and "values 0".
const ANOTHER_KIND: (u64, [u64; 5]) = (23, [0; 5]);

/// "Each kind has a writer into a lent byte slice." The reply is the length of
/// the line, or 4,294,967,296 plus 27. What has no writer, another kind or
/// another count of values, gives 27 too.
pub fn write_frame(kind: u32, values: &[u64], lent: &mut [u8]) -> u64 {
    let (number, length) = match u8::try_from(kind) {
        Ok(JOB) => write_counted(write_job, values, lent),
        Ok(FIRST_PIECE) => write_first_piece(values, lent),
        Ok(SECOND_PIECE) => write_second_piece(values, lent),
        Ok(END) => write_counted(|[], lent| write_end(lent), values, lent),
        Ok(ENTRY) => write_counted(write_entry, values, lent),
        Ok(DONE) => write_counted(write_done, values, lent),
        Ok(REVERSE_ENTRY) => write_counted(write_reverse_entry, values, lent),
        Ok(REFUSED) => write_counted(write_refused, values, lent),
        _ => NOT_WRITTEN,
    };
    match number {
        0 => length as u64,
        _ => REFUSED_REPLY + number,
    }
}

/// A writer of just so many values.
fn write_counted<const N: usize>(
    writer: fn([u64; N], &mut [u8]) -> (u64, usize),
    values: &[u64],
    lent: &mut [u8],
) -> (u64, usize) {
    match values.try_into() {
        Ok(counted) => writer(counted, lent),
        Err(_) => NOT_WRITTEN,
    }
}

/// "Kinds 10, 11 and 1F have a reader of one line", and so has 12. The reply is
/// the reader's number. Another kind has no reader: 23, whatever the line is.
pub fn read_frame(kind: u32, line: &[u8], values: &mut [u64; 5]) -> u64 {
    let (number, read) = match u8::try_from(kind) {
        Ok(ENTRY) => filled_up(read_entry(line)),
        Ok(DONE) => filled_up(read_done(line)),
        Ok(REVERSE_ENTRY) => filled_up(read_reverse_entry(line)),
        Ok(REFUSED) => filled_up(read_refused(line)),
        _ => ANOTHER_KIND,
    };
    *values = read;
    number
}

/// The number of a reading, and its values with zeros behind them.
fn filled_up<const N: usize>(reading: Reading<N>) -> (u64, [u64; 5]) {
    let mut values = [0; 5];
    values[..N].copy_from_slice(&reading.values);
    (reading.number, values)
}
