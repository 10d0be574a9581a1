//! minimap2's pairwise mapping format, one line a clause: the first sequence as
//! query, the second as target, places from 0 with the end left out. The strand
//! is + or -; on either, the format counts the target's places as the target
//! stands, and so do clauses.
//!
//! Its column of matching bases holds the weight, which counts matches of k-mers,
//! but no more than the shorter span: in repeats there can be more matches than
//! bases. The mapping quality is 255, which says that there is none. Tags: cm,
//! the field's own for the seeds on a chain, is the weight itself; cl is the
//! clause's number; rc is the number of the second sequence.

use super::{clauses, comments};
use crate::compare::Report;
use hornbeamlet::Strand;

/// The whole output.
pub fn render(report: &Report) -> String {
    let mut output = comments::render(report);
    let first = report.first.record;
    for (comparison, number, entry) in clauses(report) {
        let second = comparison.second.record;
        let spans = [entry.first_span(), entry.second_span()];
        output += &format!(
            "{}\t{}\t{}\t{}\t{}\t{}\t{}\t{}\t{}\t{}\t{}\t255\tcm:i:{}\tcl:i:{number}\trc:i:{}\n",
            first.name,
            first.letters.len(),
            entry.first_start - 1,
            entry.first_end,
            sign(entry.strand),
            second.name,
            second.letters.len(),
            entry.second_start - 1,
            entry.second_end,
            entry.weight.min(spans[0]).min(spans[1]),
            spans[0].max(spans[1]),
            entry.weight,
            comparison.number
        );
    }
    output
}

fn sign(strand: Strand) -> char {
    match strand {
        Strand::Forward => '+',
        Strand::Reverse => '-',
    }
}
