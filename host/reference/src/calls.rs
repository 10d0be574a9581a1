//! One question a line and its answer, as written in the vectors' calls.
//!
//! The question: `op=compare`, `op=stopped` or `op=need`, the settings `k=`,
//! `b=`, `a=`, `m=`, `strand=` and `mask=` (these two 0 where they are not given),
//! the sequences `s=` and `t=` (`-` is empty, `rep:UNIT:COUNT` a repeat), the
//! rooms' lengths `work=` and `list=` in numbers, and the row `row=` of a stopped
//! sweep. `op=index_compare` and `op=index_stopped` are asked with the numbers of
//! an index besides, `index=`, and `op=index_build` with the length of its slice.

use crate::answers::{self, Answer, Settings};
use crate::index;
use std::fs;
use std::path::Path;
use std::str::FromStr;

/// The vectors' calls, and how many lines each file has. The first is that of
/// change request 2 without the fifteen lines that expect 6 for a letter in lower
/// case, which change request 5 accepts; the others are those of change requests 5
/// and 6.
const STORED: [(&str, usize); 3] = [
    ("calls.txt", 385),
    ("calls-cr5.txt", 400),
    ("calls-cr6.txt", 250),
];
/// Their folder.
const VECTORS: &str = concat!(env!("CARGO_MANIFEST_DIR"), "/tests/vectors");

/// "A room of more than 200 numbers is shown as `fnv=`".
const SHOWN_WHOLE: usize = 200;

/// Whoever answers the three plain calls. The vectors are put to more than one.
pub trait Calls {
    /// The two sequences compared.
    fn compare(
        &self,
        settings: Settings,
        first: &[u8],
        second: &[u8],
        work: &mut [u32],
        list: &mut [u32],
    ) -> Answer;

    /// The stopped sweep.
    fn stopped(
        &self,
        settings: Settings,
        first: &[u8],
        second: &[u8],
        work: &mut [u32],
        row: u32,
    ) -> Answer;

    /// How much work room is needed.
    fn need(&self, settings: Settings, first: &[u8], second: &[u8]) -> u64;
}

/// Whoever answers the calls that build an index and sweep over one, too.
pub trait IndexCalls: Calls {
    /// The index of a second sequence, built in a slice.
    fn index(&self, k: u32, mask: u32, second: &[u8], index: &mut [u32]) -> Answer;

    /// The two sequences compared over an index.
    fn compare_indexed(
        &self,
        settings: Settings,
        first: &[u8],
        second: &[u8],
        index: &[u32],
        work: &mut [u32],
        list: &mut [u32],
    ) -> Answer;

    /// The stopped sweep over an index.
    fn stopped_indexed(
        &self,
        settings: Settings,
        first: &[u8],
        second: &[u8],
        index: &[u32],
        work: &mut [u32],
        row: u32,
    ) -> Answer;
}

/// The reference itself as the one who answers.
pub struct Reference;

impl Calls for Reference {
    fn compare(
        &self,
        settings: Settings,
        first: &[u8],
        second: &[u8],
        work: &mut [u32],
        list: &mut [u32],
    ) -> Answer {
        answers::compare(settings, first, second, work, list)
    }

    fn stopped(
        &self,
        settings: Settings,
        first: &[u8],
        second: &[u8],
        work: &mut [u32],
        row: u32,
    ) -> Answer {
        answers::stopped(settings, first, second, work, row)
    }

    fn need(&self, settings: Settings, first: &[u8], second: &[u8]) -> u64 {
        answers::need(settings, first, second)
    }
}

impl IndexCalls for Reference {
    fn index(&self, k: u32, mask: u32, second: &[u8], index: &mut [u32]) -> Answer {
        index::build_index(k, mask, second, index)
    }

    fn compare_indexed(
        &self,
        settings: Settings,
        first: &[u8],
        second: &[u8],
        index: &[u32],
        work: &mut [u32],
        list: &mut [u32],
    ) -> Answer {
        index::compare_indexed(settings, first, second, index, work, list)
    }

    fn stopped_indexed(
        &self,
        settings: Settings,
        first: &[u8],
        second: &[u8],
        index: &[u32],
        work: &mut [u32],
        row: u32,
    ) -> Answer {
        index::stopped_indexed(settings, first, second, index, work, row)
    }
}

/// The plain calls as they are answered over an index.
pub struct Over<'a, C> {
    /// Whoever is asked.
    pub calls: &'a C,
    /// The slice that is to begin with the index.
    pub index: &'a [u32],
}

impl<C: IndexCalls> Calls for Over<'_, C> {
    fn compare(
        &self,
        settings: Settings,
        first: &[u8],
        second: &[u8],
        work: &mut [u32],
        list: &mut [u32],
    ) -> Answer {
        let Over { calls, index } = self;
        calls.compare_indexed(settings, first, second, index, work, list)
    }

    fn stopped(
        &self,
        settings: Settings,
        first: &[u8],
        second: &[u8],
        work: &mut [u32],
        row: u32,
    ) -> Answer {
        let Over { calls, index } = self;
        calls.stopped_indexed(settings, first, second, index, work, row)
    }

    /// An index changes nothing of it.
    fn need(&self, settings: Settings, first: &[u8], second: &[u8]) -> u64 {
        self.calls.need(settings, first, second)
    }
}

/// The reference's answer to one question, or what is wrong with the question.
pub fn answer(question: &str) -> Result<String, String> {
    answer_by(&Reference, question)
}

/// The answer of whoever is asked.
pub fn answer_by(asked: &impl IndexCalls, question: &str) -> Result<String, String> {
    let over = |index| Over {
        calls: asked,
        index,
    };
    match field(question, "op")? {
        "compare" => answer_compare(asked, question),
        "stopped" => answer_stopped(asked, question),
        "need" => answer_need(asked, question),
        "index_build" => answer_index(asked, question),
        "index_compare" => answer_compare(&over(&index_in(question)?), question),
        "index_stopped" => answer_stopped(&over(&index_in(question)?), question),
        other => Err(format!("no such op: {other}")),
    }
}

/// Puts every stored question to whoever is asked.
///
/// # Panics
///
/// If one is not answered as it is written, or a file has not its lines.
pub fn answers_as_stored(asked: &impl IndexCalls) {
    for (file, lines) in STORED {
        let text = fs::read_to_string(Path::new(VECTORS).join(file)).expect(file);
        assert_eq!(text.lines().count(), lines, "{file}");
        for line in text.lines() {
            let (question, expected) = line.split_once('\t').expect(line);
            let given = answer_by(asked, question);
            assert_eq!(given.as_deref(), Ok(expected), "{question}");
        }
    }
}

fn answer_compare(asked: &impl Calls, question: &str) -> Result<String, String> {
    let (settings, first, second) = job(question)?;
    let mut work = lent(number(question, "work")?);
    let mut list = lent(number(question, "list")?);
    let answer = asked.compare(settings, &first, &second, &mut work, &mut list);
    let (numbers, work, list) = (shown(&answer), room(&work), room(&list));
    let op = field(question, "op")?;
    Ok(format!("op={op} {numbers} work={work} list={list}"))
}

fn answer_stopped(asked: &impl Calls, question: &str) -> Result<String, String> {
    let (settings, first, second) = job(question)?;
    let mut work = lent(number(question, "work")?);
    let row = number(question, "row")?;
    let answer = asked.stopped(settings, &first, &second, &mut work, row);
    let (numbers, work) = (shown(&answer), room(&work));
    let op = field(question, "op")?;
    Ok(format!("op={op} {numbers} work={work}"))
}

fn answer_need(asked: &impl Calls, question: &str) -> Result<String, String> {
    let (settings, first, second) = job(question)?;
    let reply = asked.need(settings, &first, &second);
    Ok(format!("op=need reply={reply}"))
}

fn answer_index(asked: &impl IndexCalls, question: &str) -> Result<String, String> {
    let (Settings { k, mask, .. }, _, second) = job(question)?;
    let mut index = lent(number(question, "index")?);
    let answer = asked.index(k, mask, &second, &mut index);
    let (refusal, index) = (refusal(&answer), room(&index));
    Ok(format!("op=index_build {refusal} index={index}"))
}

fn given<'a>(question: &'a str, name: &str) -> Option<&'a str> {
    let pairs = question.split_whitespace();
    let mut pairs = pairs.filter_map(|pair| pair.split_once('='));
    let found = pairs.find(|pair| pair.0 == name);
    found.map(|pair| pair.1)
}

fn field<'a>(question: &'a str, name: &str) -> Result<&'a str, String> {
    given(question, name).ok_or(format!("no {name}="))
}

fn number<T: FromStr>(question: &str, name: &str) -> Result<T, String> {
    parsed(name, field(question, name)?)
}

fn number_or_0(question: &str, name: &str) -> Result<u32, String> {
    parsed(name, given(question, name).unwrap_or("0"))
}

fn parsed<T: FromStr>(name: &str, text: &str) -> Result<T, String> {
    text.parse()
        .map_err(|_| format!("{name}={text} is no number"))
}

fn job(question: &str) -> Result<(Settings, Vec<u8>, Vec<u8>), String> {
    let settings = Settings {
        k: number(question, "k")?,
        b: number(question, "b")?,
        a: number(question, "a")?,
        m: number(question, "m")?,
        strand: number_or_0(question, "strand")?,
        mask: number_or_0(question, "mask")?,
    };
    let first = sequence(field(question, "s")?)?;
    let second = sequence(field(question, "t")?)?;
    Ok((settings, first, second))
}

/// "`-` is empty, `rep:UNIT:COUNT` a repeat".
fn sequence(text: &str) -> Result<Vec<u8>, String> {
    if text == "-" {
        return Ok(Vec::new());
    }
    let Some(repeat) = text.strip_prefix("rep:") else {
        return Ok(text.as_bytes().to_vec());
    };
    let (unit, count) = repeat.split_once(':').ok_or("a repeat without a count")?;
    let count = count.parse().map_err(|_| format!("{text} is no repeat"))?;
    Ok(unit.as_bytes().repeat(count))
}

/// The numbers of an index, `-` where there are none.
fn index_in(question: &str) -> Result<Vec<u32>, String> {
    match field(question, "index")? {
        "-" => Ok(Vec::new()),
        numbers => numbers.split(',').map(|it| parsed("index", it)).collect(),
    }
}

/// What a room holds before the call at each of its numbers, never 0.
fn before(index: usize) -> u32 {
    u32::MAX - index as u32
}

fn lent(length: usize) -> Vec<u32> {
    (0..length).map(before).collect()
}

/// "each room whole afterwards, `untouched` where nothing was written, `-` for
/// a room of no numbers", and one of many numbers as their hash.
fn room(after: &[u32]) -> String {
    if after.is_empty() {
        return "-".to_string();
    }
    let mut numbers = after.iter().enumerate();
    if numbers.all(|(index, &value)| value == before(index)) {
        return "untouched".to_string();
    }
    if after.len() > SHOWN_WHOLE {
        return format!("fnv={:016X}", hash(after));
    }
    let texts: Vec<String> = after.iter().map(u32::to_string).collect();
    texts.join(",")
}

/// "FNV-1a, 64 bits, over each number's four bytes, lowest first".
fn hash(numbers: &[u32]) -> u64 {
    let bytes = numbers.iter().flat_map(|number| number.to_le_bytes());
    bytes.fold(0xCBF2_9CE4_8422_2325, |hash, byte| {
        (hash ^ u64::from(byte)).wrapping_mul(0x100_0000_01B3)
    })
}

/// "The answer: number, sequence, detail, the four tallies".
fn shown(answer: &Answer) -> String {
    format!(
        "{} tallies={},{},{},{}",
        refusal(answer),
        answer.listed,
        answer.matches,
        answer.widest,
        answer.links
    )
}

/// The number, sequence and detail alone, as they are shown of an index.
fn refusal(answer: &Answer) -> String {
    format!(
        "number={} sequence={} detail={}",
        answer.number, answer.sequence, answer.detail
    )
}
