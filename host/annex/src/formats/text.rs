//! For the eye: what was compared, settings, tallies and the numbered clauses, in
//! columns.

use crate::compare::{Comparison, Outcome, Report, Sequence, Tally};
use crate::words;
use asked::numbers::{self, grouped};
use hornbeamlet::{Answer, Entry, Settings};

/// No place has more than five digits.
const HEADINGS: &str = "  clause  first sequence  bases  second sequence  bases  weight  strand\n";

/// The whole output; nothing where one refusal is all there is, since that is told
/// on standard error.
pub fn render(report: &Report) -> String {
    if report.comparisons.len() == 1 && report.all_refused() {
        return String::new();
    }
    let shown = report.comparisons.iter().map(|it| comparison(report, it));
    let shown: Vec<String> = shown.collect();
    let version = words::version();
    let first = sequence("First", &report.first);
    let (apart, summary) = match report.is_batch() {
        true => ("\n\n", summary(report)),
        false => ("", String::new()),
    };
    let shown = shown.join("\n\n");
    format!("{version}\n\n{first}{apart}{shown}{summary}")
}

/// Who is who, and the SHA-256 of its letters.
fn sequence(which: &str, it: &Sequence) -> String {
    let letters = numbers::letters(it.record.letters.len());
    let masked = match it.masked {
        0 => "none".to_string(),
        some => grouped(some as u64),
    };
    let (name, file, digest) = (&it.record.name, &it.record.file, &it.digest);
    format!("{which}: {name}, {letters}, {masked} masked, in {file}\n  SHA-256 {digest}\n")
}

fn comparison(report: &Report, it: &Comparison) -> String {
    let which = match report.is_batch() {
        true => format!("Record {}", it.number),
        false => "Second".to_string(),
    };
    let second = sequence(&which, &it.second);
    let (head, end) = match &it.outcome {
        Outcome::Clauses(listing) => {
            let numbered = (1..).zip(&listing.entries);
            let clauses: String = numbered.map(clause).collect();
            (Some(listing.answer), HEADINGS.to_string() + &clauses)
        }
        Outcome::NoClause(listing, why) => (Some(listing.answer), format!("  No clause: {why}.\n")),
        Outcome::Refused(_, words) => (None, format!("  Not compared: {words}.\n")),
    };
    let head = head.map(|answer| settings_and_tallies(report.settings, answer) + "\n");
    format!("{second}\n{}{end}", head.unwrap_or_default())
}

/// A line on how all records came out.
fn summary(report: &Report) -> String {
    let Tally {
        with,
        without,
        refused,
        clauses,
        ..
    } = report.tally();
    let numbers = [report.seconds, clauses, with, without, refused];
    let [records, clauses, with, without, refused] = numbers.map(|it| grouped(it as u64));
    format!(
        "\n\n{records} records: {with} with clauses ({clauses} clauses in all), \
         {without} without, {refused} refused.\n"
    )
}

/// The settings, and the tallies beside them.
fn settings_and_tallies(settings: Settings, answer: Answer) -> String {
    let Settings { k, b, a, m, .. } = settings;
    let [k, b, a, m] = [k, b, a, m].map(|number| grouped(u64::from(number)));
    let (strand, masked) = (settings.strand.to_string(), settings.masked.to_string());
    let [k, b, a, m, strand, masked] = aligned([k, b, a, m, strand, masked]);
    let tallies = [answer.listed, answer.matches, answer.widest, answer.links];
    let [listed, matches, widest, links] = aligned(tallies.map(grouped));
    format!(
        "  k-mer length  k  {k}    clauses listed    {listed}
  gap bound     b  {b}    matches        M  {matches}
  repeat cap    a  {a}    widest window  W  {widest}
  least span    m  {m}    links             {links}
  strand           {strand}
  masked letters   {masked}
"
    )
}

/// Texts that stand one under the other and end in one column.
fn aligned<const N: usize>(texts: [String; N]) -> [String; N] {
    let width = texts.iter().map(String::len).max().unwrap_or(0);
    texts.map(|text| format!("{text:>width$}"))
}

fn clause((number, it): (usize, &Entry)) -> String {
    format!(
        "{number:>8}  {:>5} to {:>5}  {:>5}  {:>6} to {:>5}  {:>5}  {:>6}  {}\n",
        it.first_start,
        it.first_end,
        it.first_span(),
        it.second_start,
        it.second_end,
        it.second_span(),
        it.weight,
        it.strand
    )
}
