//! What the k-mer length does to a listing. All other settings are those of the
//! command `annex` where none are given. With shorter k-mers more clauses come
//! about by chance; with longer ones less is found of a pair that differs much.
//!
//! Nothing is timed and the pairs are always the same, so every run prints the
//! same tables.

use crate::table::{self, percent, three_digits};
use asked::numbers::grouped;
use hornbeamlet::{Entry, Library, Settings, LONGEST};
use reference::random::Random;

/// The k-mer lengths that are tried.
const LENGTHS: [u32; 7] = [9, 11, 12, 13, 15, 17, 21];

/// How many letters the sequences of unrelated pairs have.
const UNRELATED: [usize; 5] = [1_024, 4_096, 8_192, 12_000, LONGEST];
/// How many the first sequences of related pairs have, the last of them not much
/// more than the least span.
const RELATED: [usize; 3] = [LONGEST, 1_024, 200];
/// How many letters of a thousand differ in the second ones.
const DIFFERING: [usize; 3] = [50, 100, 200];

/// How many pairs of each kind are listed. Unrelated ones have few clauses, and it
/// takes more of them to see any.
const UNRELATED_PAIRS: usize = 1_000;
const RELATED_PAIRS: usize = 200;

/// Prints all tables.
pub fn print(library: &Library) {
    let unrelated = UNRELATED.map(|letters| Measured::new(library, letters, None));
    let related = RELATED
        .map(|letters| DIFFERING.map(|differing| Measured::new(library, letters, Some(differing))));
    let [.., by_chance] = &unrelated;
    let [.., short] = &related;
    let kinds = || related.iter().flatten().chain([by_chance]);
    println!(
        "Of each kind {} pairs where they are unrelated, and {RELATED_PAIRS} where the second \
         sequence is a changed copy of the first.\n",
        grouped(UNRELATED_PAIRS as u64)
    );
    let title = "Clauses by chance in a pair";
    print_by_length(title, unrelated.iter(), |it| few(it.clauses_a_pair()));
    let title = "Share of the first sequence's letters that lie in a clause";
    print_by_length(title, kinds(), |it| percent(it.covered()));
    let title = "Weight over 100 bases, all clauses together";
    print_by_length(title, kinds(), |it| {
        it.weight_over_100().map_or("-".to_string(), three_digits)
    });
    print_weights(by_chance, short);
}

/// What was listed of the pairs of a kind.
struct Measured {
    name: String,
    /// With each k-mer length.
    listed: [Listed; LENGTHS.len()],
}

impl Measured {
    /// The first sequences have so many letters, of which so many of a thousand
    /// differ in the second ones; without that number the two are unrelated.
    fn new(library: &Library, letters: usize, differing: Option<usize>) -> Measured {
        let pairs = pairs(letters, differing);
        let kind = match differing {
            None => "unrelated".to_string(),
            Some(differing) => format!("{} % identity", 100 - differing / 10),
        };
        Measured {
            name: format!("{}, {kind}", grouped(letters as u64)),
            listed: LENGTHS.map(|k| Listed::new(library, k, &pairs)),
        }
    }
}

/// The pairs of a kind, the same in every run.
fn pairs(letters: usize, differing: Option<usize>) -> Vec<[Vec<u8>; 2]> {
    let mut random = Random::new(4);
    let pairs = match differing {
        None => UNRELATED_PAIRS,
        Some(_) => RELATED_PAIRS,
    };
    let pair = |_| {
        let first = random.letters(b"ACGT", letters);
        let mut second = match differing {
            None => random.letters(b"ACGT", letters),
            Some(differing) => random.mutated(&first, differing),
        };
        second.truncate(LONGEST);
        [first, second]
    };
    (0..pairs).map(pair).collect()
}

/// What was listed of some pairs with one k-mer length.
struct Listed {
    k: u32,
    /// The letters of all first sequences.
    letters: usize,
    /// The clauses, pair by pair.
    by_pair: Vec<Vec<Entry>>,
}

impl Listed {
    fn new(library: &Library, k: u32, pairs: &[[Vec<u8>; 2]]) -> Listed {
        let settings = Settings {
            k,
            ..Settings::default()
        };
        let clauses = |[first, second]: &[Vec<u8>; 2]| {
            let listing = library.list(settings, first, second);
            listing.expect("every pair is accepted").entries
        };
        Listed {
            k,
            letters: pairs.iter().map(|[first, _]| first.len()).sum(),
            by_pair: pairs.iter().map(clauses).collect(),
        }
    }

    fn clauses(&self) -> impl Iterator<Item = &Entry> {
        self.by_pair.iter().flatten()
    }

    /// How many clauses a pair has, in the mean.
    fn clauses_a_pair(&self) -> f64 {
        self.clauses().count() as f64 / self.by_pair.len() as f64
    }

    /// The share of the letters of the first sequences that lie in a clause.
    fn covered(&self) -> f64 {
        let covered = self.by_pair.iter().map(|clauses| letters_in(clauses));
        f64::from(covered.sum::<u32>()) / self.letters as f64
    }

    /// All weights over all spans, where there are clauses. A mean over the clauses
    /// would count a short one by chance as much as the long one beside it.
    fn weight_over_100(&self) -> Option<f64> {
        let weights = self.clauses().map(|it| f64::from(it.weight));
        let spans = self.clauses().map(|it| f64::from(it.first_span()));
        let (weights, spans) = (weights.sum::<f64>(), spans.sum::<f64>());
        (spans > 0.0).then(|| 100.0 * weights / spans)
    }

    /// A row of the table of weights, where there are clauses.
    fn weights(&self, name: &str) -> Option<Vec<String>> {
        let weights = spread(self.clauses().map(|it| f64::from(it.weight)))?;
        let over_100 = |it: &Entry| 100.0 * f64::from(it.weight) / f64::from(it.first_span());
        let over_100 = spread(self.clauses().map(over_100))?;
        let name = format!("{name}, k {}", self.k);
        let mut row = vec![name, grouped(self.clauses().count() as u64)];
        row.extend(weights.bounds.map(|weight| weight.to_string()));
        row.push(three_digits(weights.mean));
        row.extend(over_100.bounds.map(three_digits));
        row.push(three_digits(over_100.mean));
        Some(row)
    }
}

/// How many letters of the first sequence lie in at least one of the clauses.
fn letters_in(clauses: &[Entry]) -> u32 {
    let spans = clauses.iter().map(|it| (it.first_start, it.first_end));
    let mut spans: Vec<(u32, u32)> = spans.collect();
    spans.sort_unstable();
    let (mut letters, mut last) = (0, 0);
    for (start, end) in spans {
        // No later span has a letter up to the last that is not counted yet.
        letters += (end + 1).saturating_sub(start.max(last + 1));
        last = last.max(end);
    }
    letters
}

/// How some values are spread.
#[derive(Debug, PartialEq)]
struct Spread {
    /// The least, the median and the greatest.
    bounds: [f64; 3],
    mean: f64,
}

/// How values in any order are spread, where there are some.
fn spread(values: impl Iterator<Item = f64>) -> Option<Spread> {
    let mut values: Vec<f64> = values.collect();
    values.sort_unstable_by(f64::total_cmp);
    let (least, greatest) = (*values.first()?, *values.last()?);
    Some(Spread {
        bounds: [least, values[values.len() / 2], greatest],
        mean: values.iter().sum::<f64>() / values.len() as f64,
    })
}

/// A table with a row for each kind and a column for each k-mer length.
fn print_by_length<'a>(
    title: &str,
    kinds: impl Iterator<Item = &'a Measured>,
    cell: impl Fn(&Listed) -> String,
) {
    let lengths = LENGTHS.map(|k| format!("k {k}"));
    let mut headings = vec!["pairs"];
    headings.extend(lengths.iter().map(String::as_str));
    let row = |kind: &Measured| {
        let mut row = vec![kind.name.clone()];
        row.extend(kind.listed.iter().map(&cell));
        row
    };
    let rows: Vec<Vec<String>> = kinds.map(row).collect();
    table::print(title, &headings, &rows);
}

/// The table of single weights: what chance leaves with each k-mer length that
/// leaves something, and short related pairs with the length of the command.
fn print_weights(by_chance: &Measured, related: &[Measured]) {
    let headings = [
        "pairs",
        "clauses",
        "weight: least",
        "median",
        "greatest",
        "mean",
        "over 100 bases: least",
        "median",
        "greatest",
        "mean",
    ];
    let of = |kind: &Measured, chosen: fn(u32) -> bool| {
        let listed = kind.listed.iter().filter(|it| chosen(it.k));
        let rows = listed.filter_map(|it| it.weights(&kind.name));
        rows.collect::<Vec<Vec<String>>>()
    };
    let mut rows = of(by_chance, |_| true);
    for kind in related {
        rows.extend(of(kind, |k| k == Settings::default().k));
    }
    table::print("Weights of single clauses", &headings, &rows);
}

/// How many a pair has, with all digits that a thousand pairs give where it is
/// less than one.
fn few(a_pair: f64) -> String {
    if a_pair < 1.0 {
        format!("{a_pair:.3}")
    } else {
        three_digits(a_pair)
    }
}

#[cfg(test)]
mod tests {
    use super::*;
    use hornbeamlet::{with_library, Strand};

    fn clause(first_start: u32, first_end: u32, weight: u32) -> Entry {
        Entry {
            first_start,
            first_end,
            second_start: 1,
            second_end: 1,
            weight,
            strand: Strand::Forward,
        }
    }

    fn listed(by_pair: &[&[Entry]]) -> Listed {
        Listed {
            k: 13,
            letters: 200 * by_pair.len(),
            by_pair: by_pair.iter().map(|clauses| clauses.to_vec()).collect(),
        }
    }

    #[test]
    fn a_letter_in_many_clauses_is_counted_once() {
        let letters = |spans: &[(u32, u32)]| {
            let clauses = spans.iter().map(|&(start, end)| clause(start, end, 2));
            letters_in(&clauses.collect::<Vec<Entry>>())
        };
        assert_eq!(letters(&[]), 0);
        assert_eq!(letters(&[(1, 10)]), 10);
        assert_eq!(letters(&[(1, 10), (1, 10)]), 10);
        assert_eq!(letters(&[(11, 20), (1, 10)]), 20, "side by side");
        assert_eq!(letters(&[(5, 20), (1, 10)]), 20, "overlapping");
        assert_eq!(letters(&[(1, 30), (5, 10), (20, 40)]), 40, "one in another");
        assert_eq!(letters(&[(101, 110), (1, 10)]), 20, "apart");
    }

    #[test]
    fn figures_are_of_all_pairs() {
        let some = listed(&[&[clause(1, 100, 30), clause(51, 150, 4)], &[]]);
        assert_eq!(some.clauses_a_pair(), 1.0);
        assert_eq!(some.covered(), 150.0 / 400.0);
        assert_eq!(some.weight_over_100(), Some(17.0));
        let row = "pairs, k 13|2|4|30|30|17.0|4.00|30.0|30.0|17.0";
        assert_eq!(some.weights("pairs").unwrap().join("|"), row);
        let none = listed(&[&[], &[]]);
        assert_eq!(none.clauses_a_pair(), 0.0);
        assert_eq!(none.covered(), 0.0);
        assert_eq!(none.weight_over_100(), None);
        assert_eq!(none.weights("pairs"), None);
    }

    #[test]
    fn a_spread_is_of_values_in_any_order() {
        let spread_of = |values: &[f64]| spread(values.iter().copied());
        let expected = |bounds, mean| Some(Spread { bounds, mean });
        assert_eq!(spread_of(&[]), None);
        assert_eq!(spread_of(&[7.0]), expected([7.0; 3], 7.0));
        assert_eq!(
            spread_of(&[10.0, 2.0, 3.0]),
            expected([2.0, 3.0, 10.0], 5.0)
        );
    }

    #[test]
    fn numbers_are_written_as_in_the_other_tables() {
        assert_eq!(["0.004", "9.03", "153"], [0.004, 9.03, 153.2].map(few));
    }

    #[test]
    fn the_lengths_have_that_of_the_command() {
        assert!(LENGTHS.contains(&Settings::default().k));
    }

    #[test]
    fn equal_pairs_are_one_clause_and_unrelated_ones_none() {
        with_library(|library| {
            let equal = Listed::new(library, 13, &pairs(200, Some(0)));
            assert_eq!(equal.clauses_a_pair(), 1.0);
            assert_eq!(equal.covered(), 1.0);
            assert_eq!(equal.weight_over_100(), Some(94.0));
            let unrelated = Listed::new(library, 31, &pairs(200, None));
            assert_eq!(unrelated.clauses_a_pair(), 0.0);
        });
    }
}
