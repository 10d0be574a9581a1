//! Lines of hexadecimal, one frame a line: writers, and readers of one line.

/// "01 job".
pub const JOB: u8 = 0x01;
/// "02 [...] piece of the first [...] sequence".
pub const FIRST_PIECE: u8 = 0x02;
/// "03 piece of the [...] second sequence".
pub const SECOND_PIECE: u8 = 0x03;
/// "04 end".
pub const END: u8 = 0x04;
/// "10 entry".
pub const ENTRY: u8 = 0x10;
/// "11 done".
pub const DONE: u8 = 0x11;
/// "Frame kind 12 [...] carries a reverse entry's five numbers, kind 10 stays
/// forward".
pub const REVERSE_ENTRY: u8 = 0x12;
/// "1F refused".
pub const REFUSED: u8 = 0x1F;

/// Job: "k (1 byte), b, a, m (2 each)".
pub(crate) const JOB_FIELDS: [usize; 4] = [1, 2, 2, 2];
/// "a job of 8 payload bytes ends with the strand".
pub(crate) const STRAND_JOB_FIELDS: [usize; 5] = [1, 2, 2, 2, 1];
/// Entry: "the five numbers, 2 bytes each".
const ENTRY_FIELDS: [usize; 5] = [2; 5];
/// Done: "listed, M, W (4 each), link total (8)".
const DONE_FIELDS: [usize; 4] = [4, 4, 4, 8];
/// Refused: "number, sequence (1 each), detail (4)".
const REFUSED_FIELDS: [usize; 3] = [1, 1, 4];

const CAPITAL_DIGITS: &[u8; 16] = b"0123456789ABCDEF";

/// The writer of a job, k, b, a, m and strand: without its strand where that is
/// 0, which a job of 7 payload bytes means.
pub fn write_job([k, b, a, m, strand]: [u64; 5], lent: &mut [u8]) -> (u64, usize) {
    let payload = match strand {
        0 => fields([k, b, a, m], JOB_FIELDS),
        _ => fields([k, b, a, m, strand], STRAND_JOB_FIELDS),
    };
    lay(JOB, payload, lent)
}

/// The writer of a piece of the first sequence.
pub fn write_first_piece(codes: &[u64], lent: &mut [u8]) -> (u64, usize) {
    lay(FIRST_PIECE, piece(codes), lent)
}

/// The writer of a piece of the second sequence.
pub fn write_second_piece(codes: &[u64], lent: &mut [u8]) -> (u64, usize) {
    lay(SECOND_PIECE, piece(codes), lent)
}

/// The writer of an end.
pub fn write_end(lent: &mut [u8]) -> (u64, usize) {
    lay(END, Some(Vec::new()), lent)
}

/// The writer of a forward entry: p, i + k - 1, q, j + k - 1, weight.
pub fn write_entry(values: [u64; 5], lent: &mut [u8]) -> (u64, usize) {
    lay(ENTRY, fields(values, ENTRY_FIELDS), lent)
}

/// The writer of a reverse entry: the same five numbers, turned back.
pub fn write_reverse_entry(values: [u64; 5], lent: &mut [u8]) -> (u64, usize) {
    lay(REVERSE_ENTRY, fields(values, ENTRY_FIELDS), lent)
}

/// The writer of a done frame: listed, M, W, link total.
pub fn write_done(values: [u64; 4], lent: &mut [u8]) -> (u64, usize) {
    lay(DONE, fields(values, DONE_FIELDS), lent)
}

/// The writer of a refused frame: number, sequence, detail.
pub fn write_refused(values: [u64; 3], lent: &mut [u8]) -> (u64, usize) {
    lay(REFUSED, fields(values, REFUSED_FIELDS), lent)
}

/// "It gives 27 and length 0, slice untouched, exactly when a value does not
/// fit its field, a piece's letters are not 1 to 128 codes from 1 to 15, or the
/// slice is shorter than the line with its line feed; otherwise it gives 0 and
/// that length, and bytes after the line stay as they were."
fn lay(kind: u8, payload: Option<Vec<u8>>, lent: &mut [u8]) -> (u64, usize) {
    let line = payload.map(|bytes| line(kind, &bytes));
    match line {
        Some(line) if line.len() <= lent.len() => {
            lent[..line.len()].copy_from_slice(&line);
            (0, line.len())
        }
        _ => (27, 0),
    }
}

/// "Bytes: kind, payload length, payload, check. The sum of all bytes of a line
/// wraps at 256 to zero."
fn line(kind: u8, payload: &[u8]) -> Vec<u8> {
    let mut bytes = vec![kind, payload.len() as u8];
    bytes.extend_from_slice(payload);
    bytes.push(((256 - sum(&bytes)) % 256) as u8);
    hexadecimal(&bytes)
}

/// The sum of bytes, wrapped at 256.
fn sum(bytes: &[u8]) -> u32 {
    bytes.iter().map(|&byte| u32::from(byte)).sum::<u32>() % 256
}

/// "capital digits, then a line feed".
fn hexadecimal(bytes: &[u8]) -> Vec<u8> {
    let halves = bytes.iter().flat_map(|&byte| [byte / 16, byte % 16]);
    let digits = halves.map(|half| CAPITAL_DIGITS[usize::from(half)]);
    digits.chain([b'\n']).collect()
}

/// "Numbers stand highest byte first." None if a value does not fit its field.
fn fields<const N: usize>(values: [u64; N], sizes: [usize; N]) -> Option<Vec<u8>> {
    let mut payload = Vec::new();
    for (value, size) in values.into_iter().zip(sizes) {
        let bytes = value.to_be_bytes();
        let (above, field) = bytes.split_at(8 - size);
        if above.iter().any(|&byte| byte != 0) {
            return None;
        }
        payload.extend_from_slice(field);
    }
    Some(payload)
}

/// "1 to 64 bytes, two letter codes a byte, high half first; an odd last letter
/// leaves the low half 0". None where "a piece's letters are not 1 to 128 codes
/// from 1 to 15".
fn piece(codes: &[u64]) -> Option<Vec<u8>> {
    let counted = (1..=128).contains(&codes.len());
    let known = codes.iter().all(|code| (1..=15).contains(code));
    if !(counted && known) {
        return None;
    }
    let byte = |pair: &[u64]| pair[0] * 16 + pair.get(1).unwrap_or(&0);
    Some(codes.chunks(2).map(|pair| byte(pair) as u8).collect())
}

/// What a reader gives: "20, 21, 22, 23 (another kind), 25, in that order, with
/// sequence, detail and values 0", or 0 and the values.
#[derive(Clone, Copy, Debug, PartialEq, Eq)]
pub struct Reading<const N: usize> {
    /// 0, or the number of the refusal.
    pub number: u64,
    /// Always 0.
    pub sequence: u64,
    /// Always 0.
    pub detail: u64,
    /// The values in the order of the payload.
    pub values: [u64; N],
}

/// The reader of a forward entry: p, i + k - 1, q, j + k - 1, weight.
pub fn read_entry(line: &[u8]) -> Reading<5> {
    read(ENTRY, ENTRY_FIELDS, line)
}

/// The reader of a reverse entry: the same five numbers, turned back.
pub fn read_reverse_entry(line: &[u8]) -> Reading<5> {
    read(REVERSE_ENTRY, ENTRY_FIELDS, line)
}

/// The reader of a done frame: listed, M, W, link total.
pub fn read_done(line: &[u8]) -> Reading<4> {
    read(DONE, DONE_FIELDS, line)
}

/// The reader of a refused frame: number, sequence, detail.
pub fn read_refused(line: &[u8]) -> Reading<3> {
    read(REFUSED, REFUSED_FIELDS, line)
}

fn read<const N: usize>(kind: u8, sizes: [usize; N], line: &[u8]) -> Reading<N> {
    let (number, values) = match read_values(kind, sizes, line) {
        Ok(values) => (0, values),
        Err(number) => (number, [0; N]),
    };
    Reading {
        number,
        sequence: 0,
        detail: 0,
        values,
    }
}

fn read_values<const N: usize>(kind: u8, sizes: [usize; N], line: &[u8]) -> Result<[u64; N], u64> {
    let frame = frame_of(line)?;
    if frame.kind != kind {
        return Err(23);
    }
    numbers(&frame.payload, sizes)
}

/// The numbers of a payload, or 25: "payload size wrong for its kind".
pub(crate) fn numbers<const N: usize>(payload: &[u8], sizes: [usize; N]) -> Result<[u64; N], u64> {
    if payload.len() != sizes.iter().sum() {
        return Err(25);
    }
    let mut rest = payload;
    Ok(sizes.map(|size| {
        let (field, after) = rest.split_at(size);
        rest = after;
        field
            .iter()
            .fold(0, |high, &low| high * 256 + u64::from(low))
    }))
}

/// A line whose digits, length and check are right.
pub(crate) struct Frame {
    pub(crate) kind: u8,
    pub(crate) payload: Vec<u8>,
}

/// The frame of one line with its line feed, or 20, 21 or 22.
pub(crate) fn frame_of(line: &[u8]) -> Result<Frame, u64> {
    let bytes = bytes_of(line).ok_or(20u64)?;
    let payload = bytes[2..bytes.len() - 1].to_vec();
    // "21: length byte is not the line's count of bytes less 3."
    if usize::from(bytes[1]) != bytes.len() - 3 {
        return Err(21);
    }
    // "22: check wrong."
    if sum(&bytes) != 0 {
        return Err(22);
    }
    Ok(Frame {
        kind: bytes[0],
        payload,
    })
}

/// None is "20: not an even count of 6 to 134 capital hex digits closed by a
/// line feed."
fn bytes_of(line: &[u8]) -> Option<Vec<u8>> {
    let digits = line.strip_suffix(b"\n")?;
    let counted = (6..=134).contains(&digits.len()) && digits.len() % 2 == 0;
    if !counted {
        return None;
    }
    let byte = |pair: &[u8]| Some(half_of(pair[0])? * 16 + half_of(pair[1])?);
    digits.chunks(2).map(byte).collect()
}

fn half_of(digit: u8) -> Option<u8> {
    let found = CAPITAL_DIGITS.iter().position(|&known| known == digit);
    found.map(|half| half as u8)
}
