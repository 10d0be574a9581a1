//! Tables that are read in a terminal and pasted into a document alike.

use std::time::Duration;

/// Prints a title and rows in columns, the first to the left and all others to
/// the right.
pub fn print(title: &str, headings: &[&str], rows: &[Vec<String>]) {
    let headings: Vec<String> = headings.iter().map(ToString::to_string).collect();
    let width = |column: usize| {
        let cells = rows.iter().chain([&headings]).map(|row| &row[column]);
        cells.map(|cell| cell.chars().count()).max().unwrap_or(0)
    };
    let widths: Vec<usize> = (0..headings.len()).map(width).collect();
    println!("### {title}\n");
    println!("{}", line(&headings, &widths));
    println!("{}", line(&rules(&widths), &widths));
    for row in rows {
        println!("{}", line(row, &widths));
    }
    println!();
}

/// The line under the headings; a colon marks a column set to the right.
fn rules(widths: &[usize]) -> Vec<String> {
    let right = widths[1..].iter().map(|&width| "-".repeat(width - 1) + ":");
    ["-".repeat(widths[0])].into_iter().chain(right).collect()
}

fn line(cells: &[String], widths: &[usize]) -> String {
    let first = format!("| {:<width$} |", cells[0], width = widths[0]);
    let others = cells[1..].iter().zip(&widths[1..]);
    let others = others.map(|(cell, &width)| format!(" {cell:>width$} |"));
    first + &others.collect::<String>()
}

/// A time in the unit that suits it.
pub fn duration(time: Duration) -> String {
    let seconds = time.as_secs_f64();
    if seconds < 1e-3 {
        format!("{} µs", three_digits(seconds * 1e6))
    } else if seconds < 1.0 {
        format!("{} ms", three_digits(seconds * 1e3))
    } else {
        format!("{} s", three_digits(seconds))
    }
}

/// A ratio, with a sign that it is one.
pub fn times(ratio: f64) -> String {
    three_digits(ratio) + " ×"
}

/// A share of the whole, in hundredths.
pub fn percent(share: f64) -> String {
    three_digits(100.0 * share) + " %"
}

/// A number of bytes in the unit that suits it.
pub fn bytes(bytes: usize) -> String {
    match bytes {
        0..=999 => format!("{bytes} B"),
        1_000..=999_999 => three_digits(bytes as f64 / 1e3) + " kB",
        _ => three_digits(bytes as f64 / 1e6) + " MB",
    }
}

/// A count, large ones rounded to thousands, millions or thousand millions.
pub fn count(count: u64) -> String {
    match count {
        0..=99_999 => count.to_string(),
        100_000..=999_999 => three_digits(count as f64 / 1e3) + " k",
        1_000_000..=999_999_999 => three_digits(count as f64 / 1e6) + " M",
        _ => three_digits(count as f64 / 1e9) + " G",
    }
}

/// Three digits, or all before the point where there are more.
pub fn three_digits(number: f64) -> String {
    if number < 10.0 {
        format!("{number:.2}")
    } else if number < 100.0 {
        format!("{number:.1}")
    } else {
        format!("{number:.0}")
    }
}
