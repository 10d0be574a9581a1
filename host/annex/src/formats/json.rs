//! One JSON object: what it is, settings, the first sequence, a line a comparison,
//! and how all of them came out.

use super::facts::{self, Fact, Value};
use crate::compare::{Comparison, Outcome, Report};
use hornbeamlet::{Answer, Entry, Refusal};

/// The whole output.
pub fn render(report: &Report) -> String {
    let comparisons: Vec<String> = report.comparisons.iter().map(comparison).collect();
    let whole = object(&[
        ("annex", object_of(facts::annex())),
        ("settings", object_of(facts::settings(report.settings))),
        ("first", object_of(facts::sequence(&report.first))),
        ("comparisons", format!("[\n{}\n]", comparisons.join(",\n"))),
        ("batch", object_of(facts::batch(report))),
    ]);
    whole + "\n"
}

/// The same members whatever came of it: a refusal has zeros and no clauses, as
/// its answer has, and the words that tell it.
fn comparison(it: &Comparison) -> String {
    let (answer, refused, why) = match &it.outcome {
        Outcome::Clauses(listing) => (listing.answer, None, None),
        Outcome::NoClause(listing, why) => (listing.answer, None, Some(why)),
        Outcome::Refused(refusal, words) => (answer(*refusal), Some(words), None),
    };
    let words = |words: Option<&String>| words.map_or("null".to_string(), |it| string(it));
    let clauses: Vec<String> = (1..).zip(super::entries(&it.outcome)).map(clause).collect();
    let mut members = vec![
        ("second", object_of(facts::second(it))),
        ("number", answer.number.to_string()),
        ("sequence", answer.sequence.to_string()),
        ("detail", answer.detail.to_string()),
        ("refusal", words(refused)),
        ("no_clause", words(why)),
    ];
    members.extend(facts::tallies(answer).into_iter().map(member));
    members.push(("clauses", format!("[{}]", clauses.join(","))));
    object(&members)
}

fn answer(refusal: Refusal) -> Answer {
    Answer {
        number: refusal.number,
        sequence: refusal.sequence,
        detail: refusal.detail,
        listed: 0,
        matches: 0,
        widest: 0,
        links: 0,
    }
}

fn clause((number, entry): (usize, &Entry)) -> String {
    object(&[
        ("clause", number.to_string()),
        ("first_start", entry.first_start.to_string()),
        ("first_end", entry.first_end.to_string()),
        ("second_start", entry.second_start.to_string()),
        ("second_end", entry.second_end.to_string()),
        ("weight", entry.weight.to_string()),
        ("strand", string(&entry.strand.to_string())),
    ])
}

/// Names and values as an object.
pub fn object_of(facts: Vec<Fact>) -> String {
    let members: Vec<(&str, String)> = facts.into_iter().map(member).collect();
    object(&members)
}

fn member((name, value): Fact) -> (&'static str, String) {
    match value {
        Value::Number(number) => (name, number.to_string()),
        Value::Text(text) => (name, string(&text)),
    }
}

fn object(members: &[(&str, String)]) -> String {
    let member = |(name, value): &(&str, String)| format!("\"{name}\":{value}");
    let members: Vec<String> = members.iter().map(member).collect();
    format!("{{{}}}", members.join(","))
}

/// A text in quotation marks.
fn string(text: &str) -> String {
    let mut quoted = String::from('"');
    for character in text.chars() {
        match character {
            '"' | '\\' => quoted.extend(['\\', character]),
            control if control.is_control() => {
                quoted += &format!("\\u{:04x}", u32::from(control));
            }
            other => quoted.push(other),
        }
    }
    quoted.push('"');
    quoted
}

#[cfg(test)]
mod tests {
    use super::*;

    #[test]
    fn strings_are_quoted() {
        assert_eq!(string("plain é"), "\"plain é\"");
        assert_eq!(string("a\"b\\c\td"), "\"a\\\"b\\\\c\\u0009d\"");
    }
}
