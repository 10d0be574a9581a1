//! Left extensions, weights, predecessors, starts and closed matches.

use crate::kmers::Rows;
use std::cmp::Reverse;

/// A match with its own heaviest chain's weight and its start.
#[derive(Clone, Copy, Debug, PartialEq, Eq)]
pub struct Match {
    /// The place in the first sequence.
    pub row: u32,
    /// The place in the second sequence.
    pub column: u32,
    /// The weight of the heaviest chain that ends here.
    pub weight: u32,
    /// The row of its start.
    pub start_row: u32,
    /// The column of its start.
    pub start_column: u32,
}

/// All matches of a job, and its link total.
pub struct Sweep {
    /// The matches of each row by column; row 0 is empty.
    pub rows: Vec<Vec<Match>>,
    /// "number of pairs (left extension, match)".
    pub links: u64,
}

/// Takes the matches by row, then column. A left extension has no greater row
/// and no greater column, so it always comes before.
pub fn sweep(rows: &Rows, b: u32) -> Sweep {
    let mut done = Sweep {
        rows: Vec::new(),
        links: 0,
    };
    for (row, columns) in rows.iter().enumerate() {
        done.rows.push(Vec::new());
        for &column in columns {
            take(&mut done, row as u32, column, b);
        }
    }
    done
}

fn take(done: &mut Sweep, row: u32, column: u32, b: u32) {
    let extensions: Vec<&Match> = left_extensions(&done.rows, row, column, b).collect();
    let links = extensions.len() as u64;
    let taken = chained(row, column, predecessor(&extensions));
    done.links += links;
    done.rows[row as usize].push(taken);
}

/// "Left extension of (i, j): a match (i', j') with 0 <= i - i' <= b and
/// 0 <= j - j' <= b, the two not equal. Staying in one row or one column is
/// allowed."
fn left_extensions(
    rows: &[Vec<Match>],
    row: u32,
    column: u32,
    b: u32,
) -> impl Iterator<Item = &Match> {
    let window = &rows[row.saturating_sub(b) as usize..=row as usize];
    let near = window
        .iter()
        .flat_map(move |line| between(line, column.saturating_sub(b), column));
    near.filter(move |other| (other.row, other.column) != (row, column))
}

/// The matches of one row with columns from `low` to `high`.
fn between(line: &[Match], low: u32, high: u32) -> &[Match] {
    let from = line.partition_point(|it| it.column < low);
    let to = line.partition_point(|it| it.column <= high);
    &line[from..to]
}

/// "Predecessor of a match: of its left extensions, the one whose own heaviest
/// chain weighs most; ties go to the smaller column, then the smaller row. No
/// left extension, no predecessor."
///
/// Of two left extensions in one column the upper is a left extension of the
/// lower, which so weighs more. The row never has to decide, but is compared as
/// the document says.
fn predecessor<'a>(extensions: &[&'a Match]) -> Option<&'a Match> {
    let order = |it: &&&Match| (it.weight, Reverse(it.column), Reverse(it.row));
    extensions.iter().max_by_key(order).copied()
}

/// "Its weight is their number": one more than its predecessor's, which weighs
/// most of all left extensions. "Start of a match: itself where it has no
/// predecessor, else its predecessor's start."
fn chained(row: u32, column: u32, predecessor: Option<&Match>) -> Match {
    let itself = (0, row, column);
    let before = predecessor.map_or(itself, |it| (it.weight, it.start_row, it.start_column));
    Match {
        row,
        column,
        weight: before.0 + 1,
        start_row: before.1,
        start_column: before.2,
    }
}

/// "From now on a match is closed when it is a left extension of no match:
/// offsets 0 to b each, not both 0."
pub fn is_closed(rows: &Rows, row: u32, column: u32, b: u32) -> bool {
    let last = (rows.len() - 1).min((row + b) as usize);
    let (its_own, below) = (&rows[row as usize], &rows[row as usize + 1..=last]);
    let goes_on_along = any_between(its_own, column + 1, column + b);
    let goes_on_below = |columns: &Vec<u32>| any_between(columns, column, column + b);
    !goes_on_along && !below.iter().any(goes_on_below)
}

fn any_between(columns: &[u32], low: u32, high: u32) -> bool {
    let from = columns.partition_point(|&column| column < low);
    columns.get(from).is_some_and(|&column| column <= high)
}

#[cfg(test)]
mod tests {
    use super::*;
    use crate::kmers::matches;

    fn at(row: u32, column: u32, weight: u32, start_row: u32, start_column: u32) -> Match {
        Match {
            row,
            column,
            weight,
            start_row,
            start_column,
        }
    }

    #[test]
    fn ties_go_to_the_smaller_column_then_the_smaller_row() {
        let heavy = at(1, 9, 3, 1, 9);
        let left = at(7, 2, 3, 7, 2);
        let high = at(6, 2, 3, 6, 2);
        let light = at(1, 1, 2, 1, 1);
        assert_eq!(predecessor(&[&light, &heavy]), Some(&heavy));
        assert_eq!(predecessor(&[&heavy, &left]), Some(&left));
        assert_eq!(predecessor(&[&left, &high, &heavy]), Some(&high));
        assert_eq!(predecessor(&[]), None);
    }

    #[test]
    fn staying_in_one_row_or_column_is_allowed() {
        let swept = sweep(&matches(1, 6, b"AAA", b"AAA"), 1);
        assert_eq!(swept.rows[3][2], at(3, 3, 5, 1, 1));
        assert_eq!(swept.links, 16);
    }

    /// The only match besides (1, 1) lies so far below and to the right of it.
    fn is_closed_before(down: usize, along: u32, b: u32) -> bool {
        let mut rows = vec![vec![]; down + 2];
        rows[1].push(1);
        rows[1 + down].push(1 + along);
        is_closed(&rows, 1, 1, b)
    }

    #[test]
    fn a_match_that_goes_on_is_not_closed() {
        for (down, along) in [(0, 3), (3, 0), (1, 3), (3, 1), (3, 3)] {
            assert!(!is_closed_before(down, along, 3), "{down} {along}");
            assert!(is_closed_before(down, along, 2), "{down} {along}");
        }
    }

    #[test]
    fn what_lies_to_the_left_or_above_does_not_matter() {
        let rows = vec![vec![], vec![1, 2, 3], vec![1, 2], vec![1]];
        for (row, column) in [(1, 3), (2, 2), (3, 1)] {
            assert!(is_closed(&rows, row, column, 2), "{row} {column}");
        }
    }
}
