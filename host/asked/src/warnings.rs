//! What is compared all the same and may not be what was meant.

use crate::records::Record;
use crate::Sequences;
use std::collections::BTreeMap;

/// How many records of one name are told by their numbers.
const SHOWN: usize = 5;

/// Every warning: records without a letter, then records of the same name.
pub fn of(sequences: &Sequences) -> Vec<String> {
    let first = [("the first sequence".to_string(), &sequences.first)];
    let seconds = (1..).zip(&sequences.seconds);
    let seconds = seconds.map(|(number, record)| (sequences.which(number), record));
    let all = first.into_iter().chain(seconds);
    let empty = all.filter(|(_, record)| record.letters.is_empty());
    let mut warnings: Vec<String> = empty
        .map(|(which, record)| no_letters(&which, record))
        .collect();
    warnings.extend(same_names(&sequences.seconds));
    warnings
}

fn no_letters(which: &str, record: &Record) -> String {
    let Record {
        name, file, begins, ..
    } = record;
    format!(
        "warning: {which}, {name}, on line {begins} of {file}, has a name and no letters; \
         what stands on a name line is not read as letters"
    )
}

/// A warning for each name that several records have, in the order of the first
/// of these.
fn same_names(seconds: &[Record]) -> Vec<String> {
    let mut by_name: BTreeMap<&str, Vec<usize>> = BTreeMap::new();
    for (number, record) in (1..).zip(seconds) {
        by_name.entry(&record.name).or_default().push(number);
    }
    let several = by_name.into_iter().filter(|(_, numbers)| numbers.len() > 1);
    let mut several: Vec<(&str, Vec<usize>)> = several.collect();
    several.sort_unstable_by_key(|(_, numbers)| numbers[0]);
    let told = several
        .iter()
        .map(|(name, numbers)| same_name(name, numbers));
    told.collect()
}

fn same_name(name: &str, numbers: &[usize]) -> String {
    let shown: Vec<String> = numbers.iter().take(SHOWN).map(usize::to_string).collect();
    let shown = shown.join(", ");
    let more = match numbers.len().saturating_sub(SHOWN) {
        0 => String::new(),
        more => format!(" and {more} more"),
    };
    format!(
        "warning: records {shown}{more} have the same name, {name}; \
         their numbers tell them apart"
    )
}

#[cfg(test)]
mod tests {
    use super::*;

    #[test]
    fn records_of_one_name_are_told_by_their_numbers() {
        assert_eq!(
            same_name("x", &[1, 3]),
            "warning: records 1, 3 have the same name, x; their numbers tell them apart"
        );
        let told = same_name("x", &[1, 2, 4, 6, 7, 8, 9]);
        assert!(told.contains("records 1, 2, 4, 6, 7 and 2 more have"));
    }
}
