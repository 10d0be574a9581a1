//! The report as it is written out, for the eye and for programs.

mod comments;
mod facts;
mod json;
mod paf;
mod text;
mod tsv;

use crate::compare::{Comparison, Outcome, Report};
use asked::options::Format;
use hornbeamlet::Entry;

/// The whole output.
pub fn render(format: Format, report: &Report) -> String {
    match format {
        Format::Text => text::render(report),
        Format::Tsv => tsv::render(report),
        Format::Json => json::render(report),
        Format::Paf => paf::render(report),
    }
}

/// Every clause of the report with its comparison and its number there.
fn clauses<'a>(report: &'a Report) -> impl Iterator<Item = (&'a Comparison<'a>, usize, &'a Entry)> {
    report.comparisons.iter().flat_map(|it| {
        let numbered = (1..).zip(entries(&it.outcome));
        numbered.map(move |(number, entry)| (it, number, entry))
    })
}

fn entries(outcome: &Outcome) -> &[Entry] {
    match outcome {
        Outcome::Clauses(listing) => &listing.entries,
        _ => &[],
    }
}
