//! Tab-separated values: comments, a line of headings and a line a clause. Names
//! are single words, so no value needs a quotation mark.

use super::{clauses, comments};
use crate::compare::Report;

const HEADINGS: &str =
    "first\tsecond\tclause\tfirst_start\tfirst_end\tsecond_start\tsecond_end\tweight\tstrand\trecord\n";

/// The whole output. Where all were refused there are comments alone: headings
/// over nothing would look like a listing of no clause.
pub fn render(report: &Report) -> String {
    let mut output = comments::render(report);
    if report.all_refused() {
        return output;
    }
    output += HEADINGS;
    for (comparison, number, entry) in clauses(report) {
        output += &format!(
            "{}\t{}\t{number}\t{}\t{}\t{}\t{}\t{}\t{}\t{}\n",
            report.first.record.name,
            comparison.second.record.name,
            entry.first_start,
            entry.first_end,
            entry.second_start,
            entry.second_end,
            entry.weight,
            entry.strand,
            comparison.number
        );
    }
    output
}
