//! Settings, checks, strands, rooms and answers.

use crate::chains::{is_closed, sweep, Match};
use crate::kmers::{count, matches, places, widest, Rows};
use crate::letters::{first_bad_place, in_capitals, reverse_complement};
use std::ops::RangeInclusive;

/// "length of each sequence", 0 to 16,384 letters.
pub const LONGEST: usize = 16_384;
/// "Work room holds one record in each eight numbers".
const RECORD: usize = 8;
/// "List room now counts six numbers an entry."
pub const ENTRY: usize = 6;
/// What a reply over the C boundary adds to a refusal number: "4,294,967,296
/// plus the refusal number 1 to 6", 9 "also over the C boundary", and 10
/// "wherever 9 is checked".
pub(crate) const REFUSED_REPLY: u64 = 4_294_967_296;

/// The strands, as the sixth number of an entry names them.
const FORWARD: u32 = 0;
const REVERSE: u32 = 1;

/// The settings of a job.
#[derive(Clone, Copy, Debug, PartialEq, Eq)]
pub struct Settings {
    /// The k-mer length.
    pub k: u32,
    /// The gap bound.
    pub b: u32,
    /// The repeat cap.
    pub a: u32,
    /// The least span in bases.
    pub m: u32,
    /// "0 forward, 1 both"; the stopped sweep names one strand, "0 forward or 1
    /// reverse".
    pub strand: u32,
    /// "whether masked letters form k-mers (0) or break them as N does (1)".
    pub mask: u32,
}

/// "The answer is a number, a sequence (0, 1 or 2), a detail, and four
/// tallies".
#[derive(Clone, Copy, Debug, PartialEq, Eq)]
pub struct Answer {
    /// 0 when done, else the number of the refusal.
    pub number: u64,
    /// 0, or the sequence refused.
    pub sequence: u64,
    /// The particulars of the refusal.
    pub detail: u64,
    /// Entries listed; for the stopped sweep the records held.
    pub listed: u64,
    /// M.
    pub matches: u64,
    /// W.
    pub widest: u64,
    /// The link total.
    pub links: u64,
}

/// "0 | done | 0, 0", with the four tallies.
pub(crate) fn done(listed: u64, matches: u64, widest: u64, links: u64) -> Answer {
    Answer {
        number: 0,
        sequence: 0,
        detail: 0,
        listed,
        matches,
        widest,
        links,
    }
}

/// "On refusal all four are 0."
pub(crate) fn refused(number: u64, sequence: u64, detail: u64) -> Answer {
    Answer {
        number,
        sequence,
        detail,
        ..done(0, 0, 0, 0)
    }
}

/// The two sequences compared. "0 | done | 0, 0 | list: entries, then zeros;
/// work: zeros". After 1 to 6, 9 and 10 both rooms are "untouched", after 7 and 8
/// "both all zeros".
pub fn compare(
    settings: Settings,
    first: &[u8],
    second: &[u8],
    work: &mut [u32],
    list: &mut [u32],
) -> Answer {
    if let Err(refusal) = check_inputs(settings, first, second) {
        return refusal;
    }
    work.fill(0);
    list.fill(0);
    let jobs = jobs(settings, first, second);
    let checked = check_work(larger_need(&jobs), work);
    let listed = checked.and_then(|()| list_into(list, &jobs));
    listed.unwrap_or_else(|refusal| refusal)
}

/// "The stopped sweep takes the settings, both sequences, work room and a row
/// r, with no list room; m is checked and not used." It names "one strand, 0
/// forward or 1 reverse, with its own need and tallies; only entries are turned
/// back".
pub fn stopped(
    settings: Settings,
    first: &[u8],
    second: &[u8],
    work: &mut [u32],
    row: u32,
) -> Answer {
    if let Err(refusal) = check_inputs(settings, first, second) {
        return refusal;
    }
    work.fill(0);
    let job = Job::new(settings, settings.strand, first, second);
    let checked = check_work(job.widest, work).and_then(|()| job.check_row(row));
    let held = checked.map(|()| job.hold_in(work, row));
    held.unwrap_or_else(|refusal| refusal)
}

/// "how much work room is needed. The reply is W, or 4,294,967,296 plus the
/// refusal number 1 to 6", 9 or 10. Over both strands it is "the larger W".
pub fn need(settings: Settings, first: &[u8], second: &[u8]) -> u64 {
    match check_inputs(settings, first, second) {
        Err(refusal) => REFUSED_REPLY + refusal.number,
        Ok(()) => larger_need(&jobs(settings, first, second)),
    }
}

/// "Checks go from 1 to 8 [...] and the first that applies is given, even if a
/// later one also does." These are 1 to 6, which leave the rooms untouched, "9,
/// strand not 0 or 1, checked after 4", and "10, mask setting not 0 or 1, after 9".
pub(crate) fn check_inputs(settings: Settings, first: &[u8], second: &[u8]) -> Result<(), Answer> {
    check_k(settings.k)?;
    check_setting(2, settings.b, 1..=1_024)?;
    check_setting(3, settings.a, 1..=1_024)?;
    check_setting(4, settings.m, 0..=16_384)?;
    check_setting(9, settings.strand, FORWARD..=REVERSE)?;
    check_mask(settings.mask)?;
    check_length(1, first)?;
    check_length(2, second)?;
    check_letters(1, first)?;
    check_letters(2, second)
}

/// "k, the k-mer length | 1 to 31".
pub(crate) fn check_k(k: u32) -> Result<(), Answer> {
    check_setting(1, k, 1..=31)
}

/// "10, mask setting not 0 or 1".
pub(crate) fn check_mask(mask: u32) -> Result<(), Answer> {
    check_setting(10, mask, 0..=1)
}

/// "k, b, a, m outside the table", "strand not 0 or 1", or "mask setting not 0 or
/// 1".
fn check_setting(number: u64, value: u32, accepted: RangeInclusive<u32>) -> Result<(), Answer> {
    if accepted.contains(&value) {
        Ok(())
    } else {
        Err(refused(number, 0, 0))
    }
}

/// "a sequence too long, the first looked at first".
pub(crate) fn check_length(which: u64, sequence: &[u8]) -> Result<(), Answer> {
    if sequence.len() <= LONGEST {
        Ok(())
    } else {
        Err(refused(5, which, 0))
    }
}

/// "a letter not among the fifteen; all of the first sequence before the
/// second", the detail "its first such place".
pub(crate) fn check_letters(which: u64, sequence: &[u8]) -> Result<(), Answer> {
    match first_bad_place(sequence) {
        None => Ok(()),
        Some(place) => Err(refused(6, which, place as u64)),
    }
}

/// "work room below W records", the detail W.
fn check_work(widest: u64, work: &[u32]) -> Result<(), Answer> {
    let records = (work.len() / RECORD) as u64;
    if records < widest {
        return Err(refused(7, 0, widest));
    }
    Ok(())
}

/// The strands that are compared: "0 forward, 1 both".
fn jobs(settings: Settings, first: &[u8], second: &[u8]) -> Vec<Job> {
    let strands = FORWARD..=settings.strand;
    let jobs = strands.map(|strand| Job::new(settings, strand, first, second));
    jobs.collect()
}

/// "Work room must hold the larger W, which is reported".
fn larger_need(jobs: &[Job]) -> u64 {
    jobs.iter().map(|job| job.widest).max().unwrap_or(0)
}

/// "list: entries, then zeros", or "list room below the number of entries", the
/// detail that number. "forward entries come first", and the tallies but W "are
/// sums". The room is all zeros already.
fn list_into(list: &mut [u32], jobs: &[Job]) -> Result<Answer, Answer> {
    let (entries, links): (Vec<_>, Vec<u64>) = jobs.iter().map(Job::listing).unzip();
    let entries = entries.concat();
    let listed = entries.len() as u64;
    if ((list.len() / ENTRY) as u64) < listed {
        return Err(refused(8, 0, listed));
    }
    for (lent, entry) in list.chunks_exact_mut(ENTRY).zip(&entries) {
        lent.copy_from_slice(entry);
    }
    let matches = jobs.iter().map(|job| count(&job.rows)).sum();
    let links = links.iter().sum();
    Ok(done(listed, matches, larger_need(jobs), links))
}

/// The base job on one strand; settings, lengths and letters are accepted.
struct Job {
    settings: Settings,
    strand: u32,
    rows: Rows,
    row_count: u64,
    second_letters: u32,
    widest: u64,
}

impl Job {
    /// "The reverse sweep is the base job on the first sequence and the reverse
    /// complement of the second, with totals of its own." Either is swept "with the
    /// capitals and this break" of the mask setting.
    fn new(settings: Settings, strand: u32, first: &[u8], second: &[u8]) -> Job {
        let k = settings.k as usize;
        let taken = match strand {
            REVERSE => reverse_complement(second),
            _ => second.to_vec(),
        };
        let swept = [first, &taken].map(|it| in_capitals(settings.mask, it));
        let rows = matches(k, settings.a as usize, &swept[0], &swept[1]);
        let widest = widest(&rows, settings.b as usize);
        Job {
            settings,
            strand,
            row_count: places(first.len(), k) as u64,
            second_letters: second.len() as u32,
            rows,
            widest,
        }
    }

    /// "stopped sweep: row above the number of rows", the detail that number.
    fn check_row(&self, row: u32) -> Result<(), Answer> {
        if u64::from(row) > self.row_count {
            return Err(refused(19, 0, self.row_count));
        }
        Ok(())
    }

    /// The entries, and the link total beside them. "The listing holds every
    /// closed match whose two spans are both at least m, by end row, then end
    /// column. Both are compared as numbers." "reverse entries keep their
    /// sweep's order", so the order comes before the turning back.
    fn listing(&self) -> (Vec<[u32; ENTRY]>, u64) {
        let Settings { b, m, .. } = self.settings;
        let swept = sweep(&self.rows, b);
        let all = swept.rows.iter().flatten();
        let closed = all.filter(|it| is_closed(&self.rows, it.row, it.column, b));
        let wide = closed.filter(|it| self.spans(it).iter().all(|&span| span >= m));
        let mut listed: Vec<&Match> = wide.collect();
        listed.sort_by_key(|it| (it.row, it.column));
        let entries = listed.into_iter().map(|it| self.entry(it));
        (entries.collect(), swept.links)
    }

    /// "Spans of a closed match (i, j) started at (p, q): i + k - p bases and
    /// j + k - q bases."
    fn spans(&self, it: &Match) -> [u32; 2] {
        let k = self.settings.k;
        [it.row + k - it.start_row, it.column + k - it.start_column]
    }

    /// "An entry is five 32-bit numbers: p, i + k - 1, q, j + k - 1, weight."
    /// "Entries gain a sixth number, 0 or 1".
    fn entry(&self, it: &Match) -> [u32; ENTRY] {
        let k = self.settings.k;
        let [start, end] = self.in_second([it.start_column, it.column + k - 1]);
        let row_end = it.row + k - 1;
        [it.start_row, row_end, start, end, it.weight, self.strand]
    }

    /// "For a reverse entry, place p of the second sequence is reported as its
    /// length plus 1 minus p, with start and end exchanged".
    fn in_second(&self, [start, end]: [u32; 2]) -> [u32; 2] {
        match self.strand {
            REVERSE => [end, start].map(|place| self.second_letters + 1 - place),
            _ => [start, end],
        }
    }

    /// "It leaves the records of all matches in rows max(1, r - b) to r, by row
    /// then column from the front, and zeros after them. [...] Row 0 leaves
    /// only zeros. Its tallies are the records held, then M, W and the link
    /// total of the whole job." The room is all zeros already.
    fn hold_in(&self, work: &mut [u32], row: u32) -> Answer {
        let swept = sweep(&self.rows, self.settings.b);
        let lowest = row.saturating_sub(self.settings.b).max(1);
        let kept = |it: &&Match| lowest <= it.row && it.row <= row;
        let held: Vec<&Match> = swept.rows.iter().flatten().filter(kept).collect();
        for (lent, it) in work.chunks_exact_mut(RECORD).zip(&held) {
            lent.copy_from_slice(&record(it));
        }
        let matches = count(&self.rows);
        done(held.len() as u64, matches, self.widest, swept.links)
    }
}

/// "A record is row, column, weight, start row, start column and three zeros."
fn record(it: &Match) -> [u32; RECORD] {
    [
        it.row,
        it.column,
        it.weight,
        it.start_row,
        it.start_column,
        0,
        0,
        0,
    ]
}
