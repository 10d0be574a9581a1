//! Whole processes, from their start to their end: `annex`, the field's own
//! programs where they are installed, and an earlier `annex`.

use crate::calls::Call;
use crate::jobs::Job;
use crate::table::{self, duration, times};
use crate::timing::{medians_of_rounds, ratio, time};
use hornbeamlet::Settings;
use std::env;
use std::fs;
use std::path::{Path, PathBuf};
use std::process::{Command, Stdio};
use std::time::Duration;

/// A program and the words before its two files.
struct Program {
    name: &'static str,
    path: PathBuf,
    /// The words of a job, a space between two.
    words: fn(&Job) -> String,
    /// Whether the file that is searched in comes first.
    second_first: bool,
}

/// The programs that are compared, and the folder of their files.
pub struct Programs {
    found: Vec<Program>,
    folder: PathBuf,
}

/// How many of those that are found are `annex`.
const OWN: usize = 2;

impl Programs {
    /// `annex`, then `annex` with its help page for a start alone, then the
    /// field's own that are installed.
    pub fn find() -> Result<Programs, String> {
        let path = built_annex()?;
        let found = [
            Some(annex(&path, setting_words)),
            Some(annex(&path, |_| "--help".to_string())),
            other("minimap2", |_| "-x asm20".to_string()),
            other("mummer", |_| "-maxmatch -l 15".to_string()),
        ];
        Programs::new(found.into_iter().flatten().collect())
    }

    /// The earlier `annex` at the path, then the present one. Both are copied first:
    /// how a file was written makes a process that is started from it some
    /// hundredths faster or slower.
    pub fn versions(before: &Path) -> Result<Programs, String> {
        let folder = folder()?;
        let copied = |from: &Path, name: &str| {
            let path = folder.join(name);
            let copied = fs::copy(from, &path).map_err(|error| error.to_string());
            copied.map(|_| annex(&path, setting_words))
        };
        let before = copied(before, "annex-before")?;
        let after = copied(&built_annex()?, "annex-after")?;
        Programs::new(vec![before, after])
    }

    fn new(found: Vec<Program>) -> Result<Programs, String> {
        let folder = folder()?;
        Ok(Programs { found, folder })
    }

    /// The median times of all programs, job by job. They take turns, and each
    /// round another one begins: what ran just before it makes a process some
    /// hundredths faster or slower.
    pub fn medians<'a>(&self, jobs: impl Iterator<Item = &'a Job>) -> Vec<Duration> {
        let jobs = jobs.map(|job| (job, self.write(job)));
        let jobs: Vec<(&Job, [PathBuf; 2])> = jobs.collect();
        let mut begin = 0;
        medians_of_rounds(|| {
            begin += 1;
            let times = jobs
                .iter()
                .flat_map(|(job, files)| self.times(job, files, begin));
            times.collect()
        })
    }

    /// The times of all programs on one pair, in their order, whichever begins.
    fn times(&self, job: &Job, files: &[PathBuf; 2], begin: usize) -> Vec<Duration> {
        let programs = self.found.len();
        let mut times = vec![Duration::ZERO; programs];
        for turn in begin..begin + programs {
            let at = turn % programs;
            times[at] = time(|| self.found[at].run(job, files));
        }
        times
    }

    /// The files of a job, written once.
    fn write(&self, job: &Job) -> [PathBuf; 2] {
        let named = |which: &str| self.folder.join(format!("{}, {which}.fa", job.name));
        let files = [named("first"), named("second")];
        for (file, letters) in files.iter().zip([&job.first, &job.second]) {
            let lines: Vec<&[u8]> = letters.chunks(70).collect();
            let text = [b">sequence\n", lines.join(&b'\n').as_slice(), b"\n"].concat();
            fs::write(file, text).expect("a file can be written beside this program");
        }
        files
    }
}

/// All settings that `annex` is asked for: an earlier one may have had others
/// where none are given. No letter of a pair is masked, so that `--masked`, which
/// an earlier one may not know, changes nothing and is left out.
fn setting_words(job: &Job) -> String {
    let Settings {
        k, b, a, m, strand, ..
    } = job.settings;
    format!("-k {k} -b {b} -a {a} -m {m} --strand {strand}")
}

impl Program {
    fn run(&self, job: &Job, [first, second]: &[PathBuf; 2]) {
        let mut command = silent(&self.path);
        command.args((self.words)(job).split(' '));
        if self.second_first {
            command.args([second, first]);
        } else {
            command.args([first, second]);
        }
        let done = command.status().is_ok_and(|status| status.success());
        assert!(done, "{} failed", self.path.display());
    }
}

fn here() -> Result<PathBuf, String> {
    env::current_exe().map_err(|error| error.to_string())
}

/// The folder of what is written for the measurements, beside this program.
fn folder() -> Result<PathBuf, String> {
    let folder = here()?.with_file_name("bench-files");
    let made = fs::create_dir_all(&folder).map_err(|error| error.to_string());
    made.map(|()| folder)
}

/// The path of `annex`, which is not a part of this program: it is built beside
/// it, and from the folder whose .cargo/config.toml says how it is linked.
fn built_annex() -> Result<PathBuf, String> {
    let cargo = env::var_os("CARGO").unwrap_or("cargo".into());
    let here = here()?;
    let target = here
        .ancestors()
        .nth(2)
        .ok_or("this program has no folder")?;
    let built = Command::new(cargo)
        .current_dir(Path::new(env!("CARGO_MANIFEST_DIR")).join(".."))
        .args(["build", "--quiet", "--release", "--offline", "-p", "annex"])
        .arg("--target-dir")
        .arg(target)
        .status();
    match built {
        Ok(status) if status.success() => Ok(here.with_file_name("annex")),
        _ => Err("annex could not be built".to_string()),
    }
}

fn annex(path: &Path, words: fn(&Job) -> String) -> Program {
    Program {
        name: "annex",
        path: path.to_path_buf(),
        words,
        second_first: false,
    }
}

/// A program of the field, or a note that it is not installed.
fn other(name: &'static str, words: fn(&Job) -> String) -> Option<Program> {
    if silent(Path::new(name)).arg("--version").status().is_err() {
        println!("{name} is not installed and is left out.\n");
        return None;
    }
    Some(Program {
        name,
        path: PathBuf::from(name),
        words,
        second_first: true,
    })
}

fn silent(program: &Path) -> Command {
    let mut command = Command::new(program);
    command
        .stdin(Stdio::null())
        .stdout(Stdio::null())
        .stderr(Stdio::null());
    command
}

/// The times of all programs on the pairs of some calls.
pub struct Processes<'a> {
    programs: &'a Programs,
    calls: &'a [Call],
    /// Those of all programs, call by call.
    medians: Vec<Duration>,
}

impl<'a> Processes<'a> {
    /// Runs all programs on all pairs, in turn.
    pub fn measure(programs: &'a Programs, calls: &'a [Call]) -> Processes<'a> {
        Processes {
            programs,
            calls,
            medians: programs.medians(calls.iter().map(|it| &it.job)),
        }
    }

    /// The table: the time of `annex`, of its start alone and of the call, and how
    /// many times as long the others take as `annex` and as the call.
    pub fn print(&self) {
        let own = ["pair", "annex", "start alone", "the call"];
        let mut headings = own.map(str::to_string).to_vec();
        for against in ["annex", "the call"] {
            let others = self.programs.found[OWN..].iter();
            headings.extend(others.map(|it| format!("{} : {against}", it.name)));
        }
        let headings: Vec<&str> = headings.iter().map(String::as_str).collect();
        let by_call = self.medians.chunks(self.programs.found.len());
        let rows: Vec<Vec<String>> = self.calls.iter().zip(by_call).map(row).collect();
        table::print("Whole processes, from files to output", &headings, &rows);
    }

    /// The times of a program, call by call, where it is installed.
    pub fn times_of(&self, name: &str) -> Option<Vec<Duration>> {
        let programs = &self.programs.found;
        let at = programs.iter().position(|it| it.name == name)?;
        let times = self.medians.iter().skip(at).step_by(programs.len());
        Some(times.copied().collect())
    }
}

fn row((call, medians): (&Call, &[Duration])) -> Vec<String> {
    let (own, others) = medians.split_at(OWN);
    let mut row = vec![call.job.name.clone()];
    row.extend([own[0], own[1], call.time].map(duration));
    for against in [own[0], call.time] {
        row.extend(others.iter().map(|&time| times(ratio(time, against))));
    }
    row
}
