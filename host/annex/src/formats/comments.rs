//! What a listing in lines says of itself: lines that begin with `#`, before all
//! others, each a word and a JSON object. That of a second sequence has its
//! tallies, and behind them why there is no clause, if there is none; or else why
//! it was refused. None has a tab, so that no reader takes one for a line of
//! columns.

use super::facts::{self, Fact, Value};
use super::json;
use crate::compare::{Comparison, Outcome, Report};

/// The lines of all comments.
pub fn render(report: &Report) -> String {
    let mut lines = line("annex", facts::annex());
    lines += &line("settings", facts::settings(report.settings));
    lines += &line("first", facts::sequence(&report.first));
    lines.extend(report.comparisons.iter().map(second));
    if report.is_batch() {
        lines += &line("batch", facts::batch(report));
    }
    lines
}

fn second(it: &Comparison) -> String {
    let mut facts = facts::second(it);
    match &it.outcome {
        Outcome::Clauses(listing) => facts.extend(facts::tallies(listing.answer)),
        Outcome::NoClause(listing, why) => {
            facts.extend(facts::tallies(listing.answer));
            facts.push(("no_clause", Value::Text(why.clone())));
        }
        Outcome::Refused(_, words) => facts.push(("refusal", Value::Text(words.clone()))),
    }
    line("second", facts)
}

fn line(word: &str, facts: Vec<Fact>) -> String {
    format!("#{word} {}\n", json::object_of(facts))
}
