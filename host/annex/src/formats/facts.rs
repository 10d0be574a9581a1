//! What every listing for programs says of itself: names and values, the same in
//! JSON and in comments.

use crate::compare::{Comparison, Report, Sequence, Tally};
use hornbeamlet::{Answer, Settings, KIT, VERSION};

/// A named value.
pub type Fact = (&'static str, Value);

/// A value.
pub enum Value {
    /// A number.
    Number(u64),
    /// A text.
    Text(String),
}

fn number(name: &'static str, value: u64) -> Fact {
    (name, Value::Number(value))
}

fn count(name: &'static str, count: usize) -> Fact {
    number(name, count as u64)
}

fn text(name: &'static str, value: &str) -> Fact {
    (name, Value::Text(value.to_string()))
}

/// Which program it is, and what the library was proved with.
pub fn annex() -> Vec<Fact> {
    vec![text("version", VERSION), text("kit", KIT)]
}

/// The settings.
pub fn settings(settings: Settings) -> Vec<Fact> {
    vec![
        number("k", settings.k.into()),
        number("b", settings.b.into()),
        number("a", settings.a.into()),
        number("m", settings.m.into()),
        text("strand", &settings.strand.to_string()),
        text("masked", &settings.masked.to_string()),
    ]
}

/// A sequence and where it was read.
pub fn sequence(it: &Sequence) -> Vec<Fact> {
    vec![
        text("name", &it.record.name),
        text("file", &it.record.file),
        count("letters", it.record.letters.len()),
        count("masked", it.masked),
        text("sha256", &it.digest),
    ]
}

/// A second sequence, with its number before all else.
pub fn second(it: &Comparison) -> Vec<Fact> {
    let mut facts = vec![count("record", it.number)];
    facts.extend(sequence(&it.second));
    facts
}

/// The tallies of an answer.
pub fn tallies(answer: Answer) -> Vec<Fact> {
    vec![
        number("listed", answer.listed),
        number("matches", answer.matches),
        number("widest", answer.widest),
        number("links", answer.links),
    ]
}

/// How all second sequences came out.
pub fn batch(report: &Report) -> Vec<Fact> {
    let Tally {
        with,
        without,
        refused,
        unseen,
        clauses,
    } = report.tally();
    vec![
        count("records", report.seconds),
        count("with_clauses", with),
        count("without", without),
        count("refused", refused),
        count("not_compared", unseen),
        count("clauses", clauses),
    ]
}
