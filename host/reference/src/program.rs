//! The program `chain`, from its whole input to its whole output.

use crate::answers::{compare, Answer, Settings, ENTRY, LONGEST};
use crate::frames::{
    frame_of, numbers, write_done, write_entry, write_refused, write_reverse_entry, Frame, END,
    FIRST_PIECE, JOB, JOB_FIELDS, SECOND_PIECE, STRAND_JOB_FIELDS,
};
use crate::letters::letter_of;

/// "It lends 4,096 numbers of work room and 2,000 of list room."
const WORK_ROOM: usize = 4_096;
const LIST_ROOM: usize = 2_000;
/// The longest line: 134 digits and the line feed.
const LONGEST_LINE: usize = 135;

/// "The program `chain` reads this on standard input and writes the entries and
/// one done frame, or one refused frame alone."
pub fn chain(input: &[u8]) -> Vec<u8> {
    match read_input(input) {
        Ok(job) => run(&job),
        // "with sequence 0 and as detail the line counted from 1"
        Err((number, at_line)) => written(|lent| write_refused([number, 0, at_line], lent)),
    }
}

fn run(job: &Input) -> Vec<u8> {
    let mut work = vec![0; WORK_ROOM];
    let mut list = vec![0; LIST_ROOM];
    let answer = compare(job.settings, &job.first, &job.second, &mut work, &mut list);
    if answer.number == 0 {
        listing(&answer, &list)
    } else {
        written(|lent| write_refused([answer.number, answer.sequence, answer.detail], lent))
    }
}

/// The entries, then one done frame.
fn listing(answer: &Answer, list: &[u32]) -> Vec<u8> {
    let mut output = Vec::new();
    for entry in list.chunks_exact(ENTRY).take(answer.listed as usize) {
        output.extend(entry_line(entry));
    }
    let tallies = [answer.listed, answer.matches, answer.widest, answer.links];
    output.extend(written(|lent| write_done(tallies, lent)));
    output
}

/// "Frame kind 12 [...] carries a reverse entry's five numbers, kind 10 stays
/// forward".
fn entry_line(entry: &[u32]) -> Vec<u8> {
    let values = [entry[0], entry[1], entry[2], entry[3], entry[4]].map(u64::from);
    match entry[5] {
        0 => written(|lent| write_entry(values, lent)),
        _ => written(|lent| write_reverse_entry(values, lent)),
    }
}

/// The line of a writer. Places, weights and lines all fit their fields here.
fn written(writer: impl Fn(&mut [u8]) -> (u64, usize)) -> Vec<u8> {
    let mut lent = [0; LONGEST_LINE];
    let (number, length) = writer(&mut lent);
    assert_eq!(number, 0, "a value of an answer does not fit its field");
    lent[..length].to_vec()
}

/// What has been read of "one job, any number of 02, any number of 03, one
/// end".
struct Input {
    last_kind: Option<u8>,
    settings: Settings,
    first: Vec<u8>,
    second: Vec<u8>,
}

/// The job, or an input refusal and its line: "the first bad line decides, then
/// the lowest number".
fn read_input(input: &[u8]) -> Result<Input, (u64, u64)> {
    let mut read = Input::new();
    let mut line_number = 1;
    for line in input.split_inclusive(|&byte| byte == b'\n') {
        let taken = read.take_line(line);
        taken.map_err(|number| (number, line_number))?;
        line_number += 1;
    }
    if read.last_kind == Some(END) {
        Ok(read)
    } else {
        // "no end (then the line after the last)"
        Err((24, line_number))
    }
}

impl Input {
    fn new() -> Input {
        Input {
            last_kind: None,
            settings: Settings {
                k: 0,
                b: 0,
                a: 0,
                m: 0,
                strand: 0,
                // "a job frame means setting 0"
                mask: 0,
            },
            first: Vec::new(),
            second: Vec::new(),
        }
    }

    /// Looks for 20 to 26 in that order.
    fn take_line(&mut self, line: &[u8]) -> Result<(), u64> {
        let frame = frame_of(line)?;
        // "23: kind not 01 to 04."
        if !(JOB..=END).contains(&frame.kind) {
            return Err(23);
        }
        // "24: frame out of turn, anything after the end"
        if !self.in_turn(frame.kind) {
            return Err(24);
        }
        self.last_kind = Some(frame.kind);
        self.take_payload(&frame)
    }

    /// "Input: one job, any number of 02, any number of 03, one end."
    fn in_turn(&self, kind: u8) -> bool {
        match self.last_kind {
            None => kind == JOB,
            Some(JOB | FIRST_PIECE) => [FIRST_PIECE, SECOND_PIECE, END].contains(&kind),
            Some(SECOND_PIECE) => [SECOND_PIECE, END].contains(&kind),
            Some(_) => false,
        }
    }

    fn take_payload(&mut self, frame: &Frame) -> Result<(), u64> {
        match frame.kind {
            JOB => self.take_job(&frame.payload),
            FIRST_PIECE => take_piece(&mut self.first, &frame.payload),
            SECOND_PIECE => take_piece(&mut self.second, &frame.payload),
            _ => numbers(&frame.payload, []).map(|_| ()),
        }
    }

    /// "a job of 8 payload bytes ends with the strand"; one of 7 bytes stays
    /// valid and means strand 0. Any strand is read, since 9 refuses it later.
    fn take_job(&mut self, payload: &[u8]) -> Result<(), u64> {
        let values = match payload.len() {
            8 => numbers(payload, STRAND_JOB_FIELDS)?,
            _ => {
                let [k, b, a, m] = numbers(payload, JOB_FIELDS)?;
                [k, b, a, m, 0]
            }
        };
        let [k, b, a, m, strand] = values.map(|value| value as u32);
        self.settings = Settings {
            k,
            b,
            a,
            m,
            strand,
            ..self.settings
        };
        Ok(())
    }
}

/// "26: the sequence would pass 16,384 letters."
fn take_piece(sequence: &mut Vec<u8>, payload: &[u8]) -> Result<(), u64> {
    let letters = piece_letters(payload)?;
    if sequence.len() + letters.len() > LONGEST {
        return Err(26);
    }
    sequence.extend(letters);
    Ok(())
}

/// "25: payload size wrong for its kind, or a 0 code anywhere but an odd last
/// half."
fn piece_letters(payload: &[u8]) -> Result<Vec<u8>, u64> {
    if !(1..=64).contains(&payload.len()) {
        return Err(25);
    }
    let halves = payload.iter().flat_map(|&byte| [byte / 16, byte % 16]);
    let mut codes: Vec<u8> = halves.collect();
    if codes.last() == Some(&0) {
        codes.pop();
    }
    let letters = codes.into_iter().map(letter_of);
    letters.collect::<Option<Vec<u8>>>().ok_or(25)
}
