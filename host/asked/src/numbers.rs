//! Numbers as people write them.

/// A number with a comma before every third digit from the right.
pub fn grouped(number: u64) -> String {
    match number / 1_000 {
        0 => number.to_string(),
        thousands => format!("{},{:03}", grouped(thousands), number % 1_000),
    }
}

/// So many letters, in words.
pub fn letters(count: usize) -> String {
    match count {
        1 => "1 letter".to_string(),
        _ => format!("{} letters", grouped(count as u64)),
    }
}

/// A whole number in digits alone, or with its commas where they belong. None
/// where it is written otherwise, or larger than any that is taken here.
pub fn whole(text: &str) -> Option<u32> {
    let number: u32 = digits(&text.replace(',', ""))?.parse().ok()?;
    let plain = !text.contains(',') || text == grouped(u64::from(number));
    plain.then_some(number)
}

/// The text, where it is of digits and not empty: a sign is no digit.
fn digits(text: &str) -> Option<&str> {
    let digits = !text.is_empty() && text.bytes().all(|byte| byte.is_ascii_digit());
    digits.then_some(text)
}

#[cfg(test)]
mod tests {
    use super::*;

    #[test]
    fn numbers_are_grouped_by_three_digits() {
        let numbers = [0, 7, 999, 1_000, 16_384, 123_456, 4_294_967_296];
        let texts = numbers.map(grouped);
        let expected = [
            "0",
            "7",
            "999",
            "1,000",
            "16,384",
            "123,456",
            "4,294,967,296",
        ];
        assert_eq!(texts, expected);
    }

    #[test]
    fn a_number_may_have_its_commas_and_no_others() {
        for (text, number) in [("0", 0), ("1024", 1_024), ("1,024", 1_024), ("007", 7)] {
            assert_eq!(whole(text), Some(number), "{text}");
        }
        let others = [
            "", ",", "1,02", "10,24", ",024", "0,024", "1,,024", "1,024,", "-1", "+1",
        ];
        for text in others
            .into_iter()
            .chain(["1 024", "1.5", "five", "4294967296"])
        {
            assert_eq!(whole(text), None, "{text}");
        }
    }
}
