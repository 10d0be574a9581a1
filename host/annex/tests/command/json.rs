//! The JSON of every kind of report, read by a parser that takes nothing but JSON
//! (RFC 8259).

use crate::support::{examples, own_examples, uncommented, Folder, P1};
use std::collections::BTreeMap;

#[derive(Debug, PartialEq)]
enum Value {
    Null,
    Number(u64),
    Text(String),
    List(Vec<Value>),
    Object(BTreeMap<String, Value>),
}

impl Value {
    fn of(&self, name: &str) -> &Value {
        match self {
            Value::Object(members) => &members[name],
            other => panic!("{other:?} has no members"),
        }
    }

    fn list(&self) -> &[Value] {
        match self {
            Value::List(values) => values,
            other => panic!("{other:?} is no list"),
        }
    }

    fn number(&self) -> u64 {
        match self {
            Value::Number(number) => *number,
            other => panic!("{other:?} is no number"),
        }
    }

    fn text(&self) -> &str {
        match self {
            Value::Text(text) => text,
            other => panic!("{other:?} is no text"),
        }
    }
}

/// What is left of a text. The numbers here are whole and not negative; any other
/// is refused, as is a member that is named twice.
struct Parser<'a>(&'a str);

impl Parser<'_> {
    fn whole(text: &str) -> Value {
        let mut parser = Parser(text);
        let value = parser.value();
        parser.blanks();
        assert_eq!(parser.0, "", "something stands after the value");
        value
    }

    fn blanks(&mut self) {
        self.0 = self.0.trim_start_matches([' ', '\t', '\n', '\r']);
    }

    fn takes(&mut self, token: &str) -> bool {
        self.blanks();
        let rest = self.0.strip_prefix(token);
        self.0 = rest.unwrap_or(self.0);
        rest.is_some()
    }

    fn needs(&mut self, token: &str) {
        assert!(
            self.takes(token),
            "{token} is missing before {:.40}",
            self.0
        );
    }

    fn value(&mut self) -> Value {
        self.blanks();
        match self.0.chars().next().unwrap() {
            '{' => self.object(),
            '[' => self.list(),
            '"' => Value::Text(self.text()),
            'n' => {
                self.needs("null");
                Value::Null
            }
            _ => self.number(),
        }
    }

    fn object(&mut self) -> Value {
        let mut members = BTreeMap::new();
        self.needs("{");
        while !self.takes("}") {
            if !members.is_empty() {
                self.needs(",");
            }
            self.blanks();
            let name = self.text();
            self.needs(":");
            let twice = members.insert(name, self.value());
            assert_eq!(twice, None);
        }
        Value::Object(members)
    }

    fn list(&mut self) -> Value {
        let mut values = Vec::new();
        self.needs("[");
        while !self.takes("]") {
            if !values.is_empty() {
                self.needs(",");
            }
            values.push(self.value());
        }
        Value::List(values)
    }

    fn number(&mut self) -> Value {
        let end = self
            .0
            .find(|it: char| !it.is_ascii_digit())
            .unwrap_or(self.0.len());
        let (digits, rest) = self.0.split_at(end);
        assert!(digits == "0" || !digits.starts_with('0'), "{digits}");
        self.0 = rest;
        Value::Number(digits.parse().unwrap())
    }

    fn text(&mut self) -> String {
        let mut text = String::new();
        let mut characters = self.0.strip_prefix('"').unwrap().chars();
        loop {
            match characters.next().unwrap() {
                '"' => break,
                '\\' => text.push(escaped(&mut characters)),
                control if control < ' ' => panic!("{control:?} within a text"),
                other => text.push(other),
            }
        }
        self.0 = characters.as_str();
        text
    }
}

fn escaped(characters: &mut std::str::Chars) -> char {
    match characters.next().unwrap() {
        it @ ('"' | '\\' | '/') => it,
        'n' => '\n',
        't' => '\t',
        'r' => '\r',
        'b' => '\u{8}',
        'f' => '\u{c}',
        'u' => {
            let digits: String = characters.take(4).collect();
            char::from_u32(u32::from_str_radix(&digits, 16).unwrap()).unwrap()
        }
        other => panic!("\\{other}"),
    }
}

/// Each clause of the JSON stands in the TSV with the same numbers, and no other.
#[test]
fn json_and_tsv_have_the_same_clauses() {
    let folder = own_examples();
    let line = "-k 9 -m 20 strain.fa reference.fa turned.fa";
    let report = Parser::whole(&folder.done(&format!("{line} --json")));
    let numbers = [
        "clause",
        "first_start",
        "first_end",
        "second_start",
        "second_end",
        "weight",
    ];
    let mut rows = Vec::new();
    for comparison in report.of("comparisons").list() {
        let second = comparison.of("second");
        for clause in comparison.of("clauses").list() {
            let mut row = vec![report.of("first").of("name").text().to_string()];
            row.push(second.of("name").text().to_string());
            row.extend(numbers.map(|name| clause.of(name).number().to_string()));
            row.push(clause.of("strand").text().to_string());
            row.push(second.of("record").number().to_string());
            rows.push(row.join("\t"));
        }
        assert_eq!(
            comparison.of("listed").number(),
            comparison.of("clauses").list().len() as u64
        );
        assert_eq!(comparison.of("refusal"), &Value::Null);
    }
    let tsv = folder.done(&format!("{line} --tsv"));
    assert_eq!(uncommented(&tsv)[1..], rows);
    assert!(rows.len() > 10);
}

#[test]
fn a_report_of_every_outcome_is_json() {
    let files: [(&str, &[u8]); 3] = [
        ("first.fa", b">x\nACCGT\n"),
        (
            "second.fa",
            b">a\"b\\c\nACGGT\n>d\xC3\xA9\nAC\x7Et\n>empty\n",
        ),
        ("a\t\"b.fa", b"ACGGT"),
    ];
    let folder = Folder::new("json", &files);
    let mut command = folder.command(&format!("{P1} --json first.fa second.fa"));
    let output = command.arg("a\t\"b.fa").output().unwrap();
    let report = Parser::whole(&String::from_utf8(output.stdout).unwrap());
    let comparisons = report.of("comparisons").list();
    let names = comparisons
        .iter()
        .map(|it| it.of("second").of("name").text());
    assert!(names.eq(["a\"b\\c", "dé", "empty", "a_\"b.fa"]));
    assert_eq!(comparisons[3].of("second").of("file").text(), "a\\t\"b.fa");
    let outcomes = comparisons
        .iter()
        .map(|it| (it.of("refusal"), it.of("no_clause")));
    let told: Vec<[bool; 2]> = outcomes
        .map(|(refused, none)| [refused, none].map(|it| *it != Value::Null))
        .collect();
    assert_eq!(told, [[false; 2], [true, false], [false, true], [false; 2]]);
    let counts = [
        "records",
        "with_clauses",
        "without",
        "refused",
        "not_compared",
        "clauses",
    ];
    let batch = counts.map(|name| report.of("batch").of(name).number());
    assert_eq!(batch, [4, 2, 1, 1, 0, 4]);
}

#[test]
fn a_refusal_of_the_settings_is_json() {
    let output = examples("refused-json")
        .run("-k 0 --json p5.txt p5.txt")
        .output;
    let report = Parser::whole(&output);
    assert_eq!(report.of("settings").of("k").number(), 0);
    let comparison = &report.of("comparisons").list()[0];
    assert_eq!(comparison.of("number").number(), 1);
    assert!(comparison
        .of("refusal")
        .text()
        .starts_with("refused, number 1: "));
    assert!(comparison.of("clauses").list().is_empty());
}
