//! The command line.

use crate::numbers::{grouped, whole};
use crate::sources::Source;
use settings::{Masked, Settings, Strands, A, B, K, M};
use std::ffi::OsString;
use std::fmt::Display;
use std::ops::RangeInclusive;
use std::path::PathBuf;

/// What `--help` prints: one screen of 24 lines and 80 columns.
pub const HELP: &str = include_str!("help.txt");

/// How the output is written.
#[derive(Clone, Copy, Debug, PartialEq, Eq)]
pub enum Format {
    /// For the eye.
    Text,
    /// Tab-separated values.
    Tsv,
    /// One JSON object.
    Json,
    /// minimap2's pairwise mapping format.
    Paf,
}

/// What is to be compared, and how it is shown.
#[derive(Debug, PartialEq, Eq)]
pub struct Options {
    /// The settings.
    pub settings: Settings,
    /// How the output is written.
    pub format: Format,
    /// Where the first sequence is read from.
    pub first: Source,
    /// Where the second sequences are read from, one at least.
    pub seconds: Vec<Source>,
}

/// What the command line asks for.
#[derive(Debug, PartialEq, Eq)]
pub enum Request {
    /// The help page.
    Help,
    /// The version, and what it was proved with.
    Version,
    /// A comparison.
    Compare(Options),
}

/// Reads the arguments after the command's name. The error is in plain words.
pub fn parse(arguments: impl Iterator<Item = OsString>) -> Result<Request, String> {
    let mut reading = Reading {
        settings: Settings::default(),
        format: None,
        sources: Vec::new(),
    };
    let mut arguments = arguments.peekable();
    while let Some(argument) = arguments.next() {
        match argument.to_str() {
            Some("-h" | "--help") => return Ok(Request::Help),
            Some("-V" | "--version") => return Ok(Request::Version),
            Some("--") => reading.sources.extend(arguments.by_ref().map(source)),
            Some(option) if option.starts_with('-') && option != "-" => {
                let next = arguments.peek().and_then(|next| next.to_str());
                if reading.option(option, next)? == Taken::Two {
                    arguments.next();
                }
            }
            _ => reading.sources.push(source(argument)),
        }
    }
    reading.finish().map(Request::Compare)
}

fn source(argument: OsString) -> Source {
    match argument.to_str() {
        Some("-") => Source::StandardInput,
        _ => Source::File(PathBuf::from(argument)),
    }
}

/// What has been read so far.
struct Reading {
    settings: Settings,
    format: Option<Format>,
    sources: Vec<Source>,
}

/// How many arguments an option took.
#[derive(PartialEq, Eq)]
enum Taken {
    One,
    Two,
}

impl Reading {
    fn option(&mut self, option: &str, next: Option<&str>) -> Result<Taken, String> {
        match option {
            "--tsv" => self.show_as(Format::Tsv),
            "--json" => self.show_as(Format::Json),
            "--paf" => self.show_as(Format::Paf),
            _ => self.set(option, next),
        }
    }

    /// A setting. Its value is the rest of its argument or the next.
    fn set(&mut self, option: &str, next: Option<&str>) -> Result<Taken, String> {
        let (name, rest) = name_and_rest(option);
        let (value, taken) = match rest {
            Some(rest) => (Some(rest), Taken::One),
            None => (next, Taken::Two),
        };
        let Settings { strand, masked, .. } = &mut self.settings;
        match name {
            "--strand" => *strand = one_of(name, value, [Strands::Forward, Strands::Both])?,
            "--masked" => *masked = one_of(name, value, [Masked::Form, Masked::Break])?,
            _ => {
                let (setting, accepted) = self.number(name).ok_or_else(|| unknown(option))?;
                *setting = number(name, value, accepted)?;
            }
        }
        Ok(taken)
    }

    /// The setting that an option names, and what the library accepts for it.
    fn number(&mut self, name: &str) -> Option<(&mut u32, RangeInclusive<u32>)> {
        match name {
            "-k" => Some((&mut self.settings.k, K)),
            "-b" => Some((&mut self.settings.b, B)),
            "-a" => Some((&mut self.settings.a, A)),
            "-m" => Some((&mut self.settings.m, M)),
            _ => None,
        }
    }

    fn show_as(&mut self, format: Format) -> Result<Taken, String> {
        if self.format.is_some_and(|earlier| earlier != format) {
            return Err("only one of --tsv, --json and --paf can be had at once".to_string());
        }
        self.format = Some(format);
        Ok(Taken::One)
    }

    fn finish(self) -> Result<Options, String> {
        let given = self.sources.len();
        let inputs = self.sources.iter();
        if inputs.filter(|it| **it == Source::StandardInput).count() > 1 {
            return Err("standard input, -, can be read only once".to_string());
        }
        let mut sources = self.sources.into_iter();
        match (sources.next(), sources.as_slice()) {
            (Some(first), [_, ..]) => Ok(Options {
                settings: self.settings,
                format: self.format.unwrap_or(Format::Text),
                first,
                seconds: sources.collect(),
            }),
            _ => Err(format!(
                "two files at least are needed, FIRST and SECOND, and {given} given (annex --help)"
            )),
        }
    }
}

/// An option's name, and its value where that stands in the same argument: -k5
/// or --strand=both.
fn name_and_rest(option: &str) -> (&str, Option<&str>) {
    if option.starts_with("--") {
        let parts = option.split_once('=');
        return parts.map_or((option, None), |(name, value)| (name, Some(value)));
    }
    let (name, rest) = option.split_at_checked(2).unwrap_or((option, ""));
    (name, Some(rest).filter(|rest| !rest.is_empty()))
}

fn unknown(option: &str) -> String {
    format!("there is no option {option} (annex --help)")
}

/// The choice that is named by its word.
fn one_of<T: Copy + Display>(
    name: &str,
    value: Option<&str>,
    choices: [T; 2],
) -> Result<T, String> {
    let needed = format!("{name} needs {} or {}", choices[0], choices[1]);
    let value = value.ok_or_else(|| format!("{needed} after it"))?;
    let named = choices.into_iter().find(|it| it.to_string() == value);
    named.ok_or_else(|| format!("{needed}, not {}", quoted(value)))
}

/// Any number that can be handed on: whether it is accepted is for the library to
/// say.
fn number(name: &str, value: Option<&str>, accepted: RangeInclusive<u32>) -> Result<u32, String> {
    let (least, greatest) = accepted.into_inner();
    let [least, greatest] = [least, greatest].map(|it| grouped(u64::from(it)));
    let needed = format!("{name} needs a whole number from {least} to {greatest}");
    let value = value.ok_or_else(|| format!("{needed} after it"))?;
    whole(value).ok_or_else(|| format!("{needed}, not {}", quoted(value)))
}

/// A value as it was given, so that an empty one and blanks can be seen.
fn quoted(value: &str) -> String {
    format!("'{}'", value.escape_debug())
}

#[cfg(test)]
mod tests {
    use super::*;

    fn parsed(arguments: &[&str]) -> Result<Request, String> {
        parse(arguments.iter().map(OsString::from))
    }

    fn options(arguments: &[&str]) -> Options {
        match parsed(arguments) {
            Ok(Request::Compare(options)) => options,
            other => panic!("{other:?}"),
        }
    }

    #[test]
    fn the_help_fits_one_screen() {
        assert!(HELP.lines().count() <= 24);
        assert!(HELP.lines().all(|line| line.chars().count() <= 80));
    }

    #[test]
    fn the_help_names_the_defaults() {
        let Settings { k, b, a, m, .. } = Settings::default();
        for (name, value) in [("k", k), ("b", b), ("a", a), ("m", m)] {
            let mut lines = HELP.lines();
            let line = lines.find(|line| line.starts_with(&format!("  -{name} N")));
            assert!(line.unwrap().ends_with(&format!("({value})")));
        }
        let Settings { strand, masked, .. } = Settings::default();
        for (option, value) in [
            ("strand forward|both", strand.to_string()),
            ("masked form|break", masked.to_string()),
        ] {
            let mut lines = HELP.lines();
            let line = lines.find(|line| line.starts_with(&format!("  --{option} ")));
            assert!(line.unwrap().ends_with(&format!(" ({value})")));
        }
    }

    fn file(name: &str) -> Source {
        Source::File(PathBuf::from(name))
    }

    #[test]
    fn settings_stand_before_after_or_between_the_files() {
        let expected = Settings {
            k: 5,
            b: 1_024,
            a: 7,
            m: 0,
            strand: Strands::Forward,
            masked: Masked::Break,
        };
        let words = ["--strand", "forward", "--masked", "break"];
        for arguments in [
            [
                &["-k", "5", "-a7", "-m0", "-b", "1,024"],
                &words[..],
                &["x", "y", "z"],
            ],
            [
                &["x"],
                &words,
                &["-m0", "y", "-k", "5", "-a7", "-b1,024", "z"],
            ],
        ] {
            let options = options(&arguments.concat());
            assert_eq!(options.settings, expected);
            assert_eq!(options.first, file("x"));
            assert_eq!(options.seconds, [file("y"), file("z")]);
        }
    }

    #[test]
    fn the_strand_is_both_unless_forward_is_asked_for() {
        let strand = |arguments: &[&str]| options(arguments).settings.strand;
        assert_eq!(strand(&["x", "y"]), Strands::Both);
        assert_eq!(strand(&["x", "y", "--strand", "both"]), Strands::Both);
        assert_eq!(strand(&["--strand=forward", "x", "y"]), Strands::Forward);
    }

    #[test]
    fn masked_letters_form_kmers_unless_they_are_to_break_them() {
        let masked = |arguments: &[&str]| options(arguments).settings.masked;
        assert_eq!(masked(&["x", "y"]), Masked::Form);
        assert_eq!(masked(&["x", "y", "--masked", "form"]), Masked::Form);
        assert_eq!(masked(&["--masked=break", "x", "y"]), Masked::Break);
    }

    #[test]
    fn after_two_dashes_all_are_files() {
        let options = options(&["--json", "--", "-k", "--tsv"]);
        assert_eq!(options.format, Format::Json);
        assert_eq!(options.first, file("-k"));
        assert_eq!(options.seconds, [file("--tsv")]);
    }

    #[test]
    fn one_dash_is_standard_input_once() {
        assert_eq!(options(&["-", "y"]).first, Source::StandardInput);
        let options = options(&["x", "y", "--", "-"]);
        assert_eq!(options.seconds, [file("y"), Source::StandardInput]);
        let complaint = parsed(&["-", "-"]).unwrap_err();
        assert_eq!(complaint, "standard input, -, can be read only once");
    }

    #[test]
    fn help_and_version_are_asked_for_anywhere() {
        for (words, request) in [
            (["-h", "x"], Request::Help),
            (["x", "--help"], Request::Help),
            (["-V", "-k"], Request::Version),
            (["x", "--version"], Request::Version),
        ] {
            assert_eq!(parsed(&words), Ok(request));
        }
    }

    #[test]
    fn faults_are_told_in_plain_words() {
        let faults: [(&[&str], &str); 22] = [
            (&[], "0 given"),
            (&["x"], "1 given"),
            (&["-"], "1 given"),
            (
                &["x", "y", "-k"],
                "-k needs a whole number from 1 to 31 after it",
            ),
            (&["x", "y", "-k", "five"], "from 1 to 31, not 'five'"),
            (&["x", "y", "-k", "-1"], "from 1 to 31, not '-1'"),
            (&["x", "y", "-k", ""], "from 1 to 31, not ''"),
            (&["x", "y", "-b", "1,02"], "from 1 to 1,024, not '1,02'"),
            (
                &["x", "y", "-a", "\u{a0}1"],
                "from 1 to 1,024, not '\\u{a0}1'",
            ),
            (
                &["x", "y", "-m4294967296"],
                "from 0 to 16,384, not '4294967296'",
            ),
            (&["x", "y", "--strand"], "forward or both after it"),
            (&["x", "y", "--strand", "reverse"], "not 'reverse'"),
            (&["x", "y", "--strand", "1"], "not '1'"),
            (&["x", "y", "--strand="], "forward or both, not ''"),
            (&["x", "y", "--masked"], "form or break after it"),
            (&["x", "y", "--masked", "soft"], "not 'soft'"),
            (&["x", "y", "--masked=1"], "form or break, not '1'"),
            (&["x", "y", "--masked", "Break"], "not 'Break'"),
            (&["x", "y", "--xml"], "no option --xml"),
            (&["x", "-j"], "no option -j"),
            (&["x", "-é"], "no option -é"),
            (&["x", "y", "--tsv", "--paf"], "only one of"),
        ];
        for (arguments, words) in faults {
            let complaint = parsed(arguments).unwrap_err();
            assert!(complaint.contains(words), "{complaint}");
        }
    }
}
