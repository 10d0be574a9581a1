//! The script `annex`: what it says and builds in a folder that was just cloned,
//! and later. The proof and the compiler are stand-ins that leave what the script
//! looks for; what answers before the proof is the real program.

#![forbid(unsafe_code)]

mod clone;

use clone::{Clone, PROVING};
use std::fs;
use std::os::unix::fs::symlink;
use std::path::Path;
use std::process::{Command, Stdio};
use std::thread::sleep;
use std::time::{Duration, Instant};

const HELP: &str = include_str!("../../src/help.txt");
const RAN: &str = "compared: a.fa b.fa\n";

#[test]
fn help_needs_no_build_at_all() {
    let clone = Clone::new("help");
    for word in ["--help", "-h"] {
        let run = clone.run(word);
        assert_eq!(
            (run.status, run.output.as_str(), run.complaints.as_str()),
            (0, HELP, "")
        );
    }
    assert_eq!(clone.log(), "");
    // Beside other words it is the command line's to say.
    assert_eq!(clone.run("a.fa --help").output, HELP);
    assert_eq!(clone.log(), "cargo asked\n");
}

#[test]
fn what_needs_no_library_is_told_before_the_proof() {
    let clone = Clone::new("at-once");
    let version = clone.run("--version");
    assert_eq!(version.status, 0);
    let not_yet = concat!(
        "annex ",
        env!("CARGO_PKG_VERSION"),
        ", not proved in this folder yet\n"
    );
    assert_eq!(version.output, not_yet);
    for (line, told) in [
        ("a.fa", "annex: two files at least are needed"),
        ("--fast a.fa b.fa", "annex: there is no option --fast"),
        (
            "-k -1 a.fa b.fa",
            "annex: -k needs a whole number from 1 to 31",
        ),
        (
            "a.fa missing.fa",
            "annex: missing.fa: there is no such file\n",
        ),
        ("many.fa a.fa", "annex: many.fa: this holds 2 records"),
    ] {
        let run = clone.run(line);
        assert_eq!((run.status, run.output.as_str()), (2, ""), "{line}");
        assert!(run.complaints.starts_with(told), "{}", run.complaints);
    }
    assert!(!clone.log().contains("proof"));
}

/// Elsewhere than on a terminal it is one sentence, and then nothing more.
#[test]
fn the_first_run_says_that_it_proves_and_the_next_does_not() {
    let clone = Clone::new("first");
    let run = clone.run("a.fa b.fa");
    assert_eq!(
        (run.status, run.output.as_str(), run.complaints.as_str()),
        (0, RAN, PROVING)
    );
    assert_eq!(clone.log(), "cargo asked\nproof\ncargo annex\n");
    let run = clone.run("a.fa b.fa");
    assert_eq!(
        (run.status, run.output.as_str(), run.complaints.as_str()),
        (0, RAN, "")
    );
    assert_eq!(clone.log(), "cargo asked\nproof\ncargo annex\n");
}

#[test]
fn what_has_changed_is_built_again() {
    let clone = Clone::new("changed");
    clone.run("a.fa b.fa");
    clone.touch("crates/lines/src/lib.rt");
    assert_eq!(clone.run("a.fa b.fa").complaints, PROVING);
    clone.touch("host/asked/src/help.txt");
    assert_eq!(clone.run("a.fa b.fa").complaints, "");
    let log = clone.log();
    assert_eq!(log.matches("proof\n").count(), 2);
    assert!(log.ends_with("proof\ncargo annex\ncargo annex\n"));
}

/// What the check removes is not what the script stands on.
#[test]
fn nothing_is_built_again_where_target_is_removed() {
    let clone = Clone::new("removed");
    fs::create_dir_all(clone.top.join("target/rlib")).unwrap();
    clone.run("a.fa b.fa");
    fs::remove_dir_all(clone.top.join("target")).unwrap();
    runs_with_one_proof(&clone);
}

/// Once more, without another proof.
fn runs_with_one_proof(clone: &Clone) {
    assert_eq!(clone.run("a.fa b.fa").complaints, "");
    assert_eq!(clone.log().matches("proof\n").count(), 1);
}

/// Nor is what it leaves beside the sources.
#[test]
fn nothing_is_built_again_for_what_the_check_leaves() {
    let clone = Clone::new("left");
    let out = clone.top.join("crates/lines/out");
    fs::create_dir_all(&out).unwrap();
    clone.run("a.fa b.fa");
    fs::write(out.join("kept"), "").unwrap();
    clone.touch("crates/lines/out/kept");
    runs_with_one_proof(&clone);
    fs::remove_dir_all(&out).unwrap();
    runs_with_one_proof(&clone);
}

#[test]
fn links_lead_to_the_script() {
    let clone = Clone::new("links");
    let links = clone.top.join("links");
    fs::create_dir(&links).unwrap();
    symlink("../annex", links.join("relative")).unwrap();
    symlink(clone.top.join("annex"), links.join("absolute")).unwrap();
    symlink("relative", links.join("twice")).unwrap();
    symlink(&links, clone.top.join("folder")).unwrap();
    for link in [
        "links/relative",
        "links/absolute",
        "links/twice",
        "folder/twice",
    ] {
        let mut command = clone.command("a.fa b.fa", &clone.top.join(link));
        let output = command.output().unwrap();
        assert_eq!(String::from_utf8(output.stdout).unwrap(), RAN, "{link}");
    }
    // As it is found on the PATH, from another folder.
    let mut command = Command::new("sh");
    command.current_dir("/").args(["-c", "twice a.fa b.fa"]);
    command.env("PATH", format!("{}:{}", links.display(), clone.path()));
    assert_eq!(
        String::from_utf8(command.output().unwrap().stdout).unwrap(),
        RAN
    );
}

#[test]
fn of_several_first_runs_one_proves() {
    if Command::new("flock").arg("--version").output().is_err() {
        println!("flock is not there, so this is not tried");
        return;
    }
    let clone = Clone::new("several");
    fs::write(clone.top.join("slow"), "").unwrap();
    let runs = ["1", "2", "3"].map(|run| {
        let told = fs::File::create(clone.top.join(run)).unwrap();
        let mut command = clone.command("a.fa b.fa", &clone.top.join("annex"));
        command.stdout(Stdio::piped()).stderr(told);
        command.spawn().unwrap()
    });
    let told = || ["1", "2", "3"].map(|run| fs::read_to_string(clone.top.join(run)).unwrap());
    let waiting = "annex: another run is building what this one needs; waiting for it\n";
    let count = |sentence: &str| told().iter().filter(|told| *told == sentence).count();
    // The proof ends only once the others wait for it.
    let begun = Instant::now();
    while count(waiting) < 2 && begun.elapsed() < Duration::from_secs(60) {
        sleep(Duration::from_millis(10));
    }
    fs::remove_file(clone.top.join("slow")).unwrap();
    for run in runs {
        let output = run.wait_with_output().unwrap();
        assert_eq!(String::from_utf8(output.stdout).unwrap(), RAN);
    }
    assert_eq!((count(PROVING), count(waiting)), (1, 2), "{:?}", told());
    assert_eq!(clone.log().matches("proof\n").count(), 1);
}

#[test]
fn a_proof_that_fails_is_shown_and_nothing_is_compared() {
    let clone = Clone::new("fails");
    fs::write(clone.top.join("broken"), "").unwrap();
    let run = clone.run("a.fa b.fa");
    assert_eq!((run.status, run.output.as_str()), (2, ""));
    let told = "rt: lines proved (0 s)\nrt: rules refused\nannex: the library could not be built\n";
    assert_eq!(run.complaints, PROVING.to_string() + told);
    fs::remove_file(clone.top.join("broken")).unwrap();
    assert_eq!(clone.run("a.fa b.fa").output, RAN);
}

/// So is a pipe that is named as a file, which can be read only once too.
#[test]
fn standard_input_is_left_for_the_comparison() {
    for word in ["-", "/dev/stdin"] {
        let clone = Clone::new("input");
        let script = format!(
            "cat a.fa | '{}' {word} b.fa",
            clone.top.join("annex").display()
        );
        let mut command = clone.command("", "sh".as_ref());
        let output = command.args(["-c", &script]).output().unwrap();
        let output = String::from_utf8(output.stdout).unwrap();
        assert_eq!(output, format!("compared: {word} b.fa\n>a\nACGT\n"));
    }
}

#[test]
fn a_closed_standard_output_is_a_fault() {
    let clone = Clone::new("closed");
    for line in ["--help", "a.fa b.fa"] {
        let script = format!("'{}' {line} >&-", clone.top.join("annex").display());
        let mut command = clone.command("", "sh".as_ref());
        let output = command.args(["-c", &script]).output().unwrap();
        assert_eq!(output.status.code(), Some(2));
        let told = String::from_utf8(output.stderr).unwrap();
        assert_eq!(
            told,
            "annex: standard output is closed, so that nothing can be listed\n"
        );
    }
    // One that is full is a fault too, also before anything is built.
    if Path::new("/dev/full").exists() {
        let script = format!("'{}' --help >/dev/full", clone.top.join("annex").display());
        let mut command = clone.command("", "sh".as_ref());
        let output = command.args(["-c", &script]).output().unwrap();
        assert_eq!(output.status.code(), Some(2));
    }
    // What is thrown away is not closed.
    let script = format!(
        "'{}' a.fa b.fa >/dev/null",
        clone.top.join("annex").display()
    );
    let mut command = clone.command("", "sh".as_ref());
    assert!(command.args(["-c", &script]).status().unwrap().success());
}

/// The command `script` gives a terminal, where it is there.
#[test]
fn a_terminal_shows_crate_by_crate() {
    let version = Command::new("script").arg("--version").output();
    let usual = version.is_ok_and(|it| String::from_utf8_lossy(&it.stdout).contains("util-linux"));
    if !usual {
        println!("script is not there, so this is not tried");
        return;
    }
    let clone = Clone::new("terminal");
    let line = format!("'{}' a.fa b.fa", clone.top.join("annex").display());
    let mut command = clone.command("", "script".as_ref());
    let output = command.args(["-qec", &line, "/dev/null"]).output().unwrap();
    let shown = String::from_utf8(output.stdout).unwrap();
    assert!(shown.contains("\rannex: crate 1 of 3: lines"), "{shown}");
    assert!(shown.contains("\rannex: crate 2 of 3: rules"), "{shown}");
    assert!(
        shown.contains("\rannex: all 3 crates are proved; building the library"),
        "{shown}"
    );
    assert_eq!(shown.matches("crate ").count(), 2, "{shown}");
    assert!(shown.ends_with("\x1B[Kcompared: a.fa b.fa\r\n"), "{shown}");
}

#[test]
fn a_command_that_is_missing_is_named() {
    let clone = Clone::new("missing");
    for missing in ["cargo", "rt"] {
        fs::rename(clone.top.join("bin").join(missing), clone.top.join("away")).unwrap();
        let mut command = clone.command("a.fa b.fa", &clone.top.join("annex"));
        command.env(
            "PATH",
            format!("{}:/usr/bin:/bin", clone.top.join("bin").display()),
        );
        let elsewhere = ["/usr/bin", "/bin"].map(|folder| format!("{folder}/{missing}"));
        if elsewhere.iter().any(|path| fs::metadata(path).is_ok()) {
            println!("{missing} is among the system's own, so this is not tried");
        } else {
            let output = command.output().unwrap();
            let told = String::from_utf8(output.stderr).unwrap();
            assert!(
                told.starts_with(&format!("annex: the command {missing}, which ")),
                "{told}"
            );
            assert_eq!(output.status.code(), Some(2));
        }
        fs::rename(clone.top.join("away"), clone.top.join("bin").join(missing)).unwrap();
    }
}
