//! Places, k-mers and matches.

use crate::letters::forms_kmers;
use std::collections::HashMap;

/// For each row the columns of its matches, ascending. "Places count from 1",
/// so there is a row 0 in front, and it is empty.
pub type Rows = Vec<Vec<u32>>;

/// The places of each k-mer of a sequence, ascending.
type Occurrences<'a> = HashMap<&'a [u8], Vec<u32>>;

/// "A sequence of L letters has L - k + 1 places, or none if L < k."
pub fn places(letters: usize, k: usize) -> usize {
    if letters < k {
        0
    } else {
        letters - k + 1
    }
}

/// "A place whose k letters are not all A, C, G or T has no k-mer."
fn kmer_at(sequence: &[u8], k: usize, place: usize) -> Option<&[u8]> {
    let kmer = &sequence[place - 1..place - 1 + k];
    let all_bases = kmer.iter().all(|&letter| forms_kmers(letter));
    all_bases.then_some(kmer)
}

fn occurrences(sequence: &[u8], k: usize) -> Occurrences<'_> {
    let mut found = Occurrences::new();
    for place in 1..=places(sequence.len(), k) {
        if let Some(kmer) = kmer_at(sequence, k, place) {
            found.entry(kmer).or_default().push(place as u32);
        }
    }
    found
}

/// "one for each place that has a k-mer: places ordered by packed code, equal codes
/// by place".
pub fn index(sequence: &[u8], k: usize) -> Vec<u32> {
    let kmers = (1..=places(sequence.len(), k)).map(|place| (kmer_at(sequence, k, place), place));
    let coded = kmers.filter_map(|(kmer, place)| Some((packed(kmer?), place as u32)));
    let mut ordered: Vec<(u64, u32)> = coded.collect();
    ordered.sort_unstable();
    ordered.into_iter().map(|(_, place)| place).collect()
}

/// "A k-mer packs into two bits a base, A 0, C 1, G 2, T 3, the first base
/// highest."
fn packed(kmer: &[u8]) -> u64 {
    let bits = |base: &u8| match base {
        b'A' => 0,
        b'C' => 1,
        b'G' => 2,
        _ => 3,
    };
    kmer.iter().fold(0, |above, base| 4 * above + bits(base))
}

/// "Match (i, j): both places have the same used k-mer."
pub fn matches(k: usize, a: usize, first: &[u8], second: &[u8]) -> Rows {
    let in_first = occurrences(first, k);
    let in_second = occurrences(second, k);
    let mut rows = vec![Vec::new()];
    for row in 1..=places(first.len(), k) {
        let kmer = kmer_at(first, k, row);
        rows.push(kmer.map_or(Vec::new(), |it| columns(it, a, &in_first, &in_second)));
    }
    rows
}

/// The columns of a k-mer, none if it is not used. "Total of a k-mer: its
/// occurrences in both sequences together. A k-mer with a total above a is not
/// used."
fn columns(kmer: &[u8], a: usize, in_first: &Occurrences, in_second: &Occurrences) -> Vec<u32> {
    let rows = in_first.get(kmer).map_or(0, Vec::len);
    let columns = in_second.get(kmer).cloned().unwrap_or_default();
    if rows + columns.len() > a {
        Vec::new()
    } else {
        columns
    }
}

/// "M: number of matches."
pub fn count(rows: &Rows) -> u64 {
    rows.iter().map(|columns| columns.len() as u64).sum()
}

/// "W: the largest number of matches in rows max(1, i - b) to i, over all rows;
/// 0 if there are no rows."
pub fn widest(rows: &Rows, b: usize) -> u64 {
    let last = rows.len() - 1;
    let window = |row: usize| rows[row.saturating_sub(b).max(1)..=row].iter();
    let held = |row: usize| window(row).map(|columns| columns.len() as u64).sum();
    (1..=last).map(held).max().unwrap_or(0)
}

#[cfg(test)]
mod tests {
    use super::*;

    #[test]
    fn a_sequence_shorter_than_k_has_no_places() {
        assert_eq!(places(0, 1), 0);
        assert_eq!(places(4, 5), 0);
        assert_eq!(places(5, 5), 1);
        assert_eq!(places(16_384, 1), 16_384);
    }

    #[test]
    fn no_kmer_runs_across_an_n() {
        let rows = matches(2, 3, b"ACNAC", b"AC");
        assert_eq!(rows, vec![vec![], vec![1], vec![], vec![], vec![1]]);
    }

    #[test]
    fn a_kmer_packs_with_its_first_base_highest() {
        assert_eq!(packed(b"ACGT"), 0b00_01_10_11);
        assert_eq!(packed(b"TGCA"), 0b11_10_01_00);
        assert_eq!(packed(&[b'T'; 31]), (1 << 62) - 1);
    }

    #[test]
    fn an_index_has_the_places_by_code_and_then_by_place() {
        // AC 1 and 5, CA 4, GT 8, TA 9
        assert_eq!(index(b"ACNCACNGTA", 2), [1, 5, 4, 8, 9]);
        assert_eq!(index(b"TTTT", 1), [1, 2, 3, 4]);
        assert_eq!(index(b"TGCA", 1), [4, 3, 2, 1]);
        assert!(index(b"ACN", 3).is_empty() && index(b"AC", 3).is_empty());
    }

    #[test]
    fn the_total_counts_both_sequences() {
        assert_eq!(count(&matches(1, 6, b"AAA", b"AAA")), 9);
        assert_eq!(count(&matches(1, 5, b"AAA", b"AAA")), 0);
    }

    #[test]
    fn the_widest_window_spans_b_and_one_rows() {
        let rows = matches(1, 6, b"AAA", b"AAA");
        assert_eq!(widest(&rows, 1), 6);
        assert_eq!(widest(&rows, 1_024), 9);
        assert_eq!(widest(&matches(2, 6, b"A", b"AAA"), 1), 0);
    }
}
