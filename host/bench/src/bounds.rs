//! The bounds that the times are held to, each with the figure of this run that
//! comes nearest to it or goes furthest beyond it. They are told and not judged.

use crate::calls::{growths, Call};
use crate::processes::Processes;
use crate::table::{self, duration, times};
use crate::timing::ratio;
use std::time::Duration;

const HEADINGS: [&str; 4] = ["what is bounded", "worst figure", "found on", "bound"];

/// The table of bounds.
pub fn print(ordinary: &[Call], processes: &Processes, worst: &[Call]) {
    let mut rows = against_minimap2(ordinary, processes);
    let growths = growths(ordinary).into_iter();
    if let Some((kind, growth)) = growths.max_by(|one, other| one.1.total_cmp(&other.1)) {
        let what = "growth from 4,096 to 16,384 letters";
        rows.push(row(what, times(growth), kind, "at most 5 ×"));
    }
    if let Some(call) = worst.iter().max_by_key(|call| call.time) {
        let (what, time) = ("the longest of the worst jobs", duration(call.time));
        rows.push(row(what, time, &call.job.name, "at most 3 s"));
    }
    table::print("Against the bounds", &HEADINGS, &rows);
}

/// How many times as long minimap2 takes as the call and as `annex`; nothing where
/// it is not installed.
fn against_minimap2(ordinary: &[Call], processes: &Processes) -> Vec<Vec<String>> {
    let calls = ordinary.iter().map(|call| call.time).collect();
    let bounds = [
        ("the call", Some(calls), "at least 3 ×"),
        ("annex's", processes.times_of("annex"), "at least 1 ×"),
    ];
    let least = |(whose, own, bound): (&str, Option<Vec<Duration>>, &str)| {
        let both = processes.times_of("minimap2")?.into_iter().zip(own?);
        let ratios = both.map(|(other, own)| ratio(other, own)).zip(ordinary);
        let (ratio, call) = ratios.min_by(|one, other| one.0.total_cmp(&other.0))?;
        let what = format!("minimap2's whole process : {whose}");
        Some(row(&what, times(ratio), &call.job.name, bound))
    };
    bounds.into_iter().filter_map(least).collect()
}

fn row(what: &str, worst: String, pair: &str, bound: &str) -> Vec<String> {
    let [what, pair, bound] = [what, pair, bound].map(str::to_string);
    vec![what, worst, pair, bound]
}
