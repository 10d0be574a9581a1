//! The other ways to link: the shared library, and pkg-config. Where a tool is
//! not there that no user needs, its test says so and passes.

#![forbid(unsafe_code)]

mod c;
mod native;

use c::{compile, include, printed, ANSWERS, DOCUMENT};
use native::folder;
use std::path::Path;
use std::process::Command;

/// The functions of the header, in the order of their names.
const FUNCTIONS: [&str; 8] = [
    "hornbeamlet_compare",
    "hornbeamlet_compare_indexed",
    "hornbeamlet_index",
    "hornbeamlet_need",
    "hornbeamlet_read_frame",
    "hornbeamlet_stopped",
    "hornbeamlet_stopped_indexed",
    "hornbeamlet_write_frame",
];

#[test]
fn a_c_program_is_linked_with_the_shared_library() {
    let shared = folder().join("libhornbeamlet.so");
    let flags = [include(), shared.display().to_string()];
    let program = compile("shared", Path::new(DOCUMENT), &flags);
    let mut run = Command::new(program);
    run.env("LD_LIBRARY_PATH", folder().canonicalize().unwrap());
    assert_eq!(printed(&mut run), ANSWERS);
}

#[test]
fn the_shared_library_shows_the_headers_functions_alone() {
    if !is_there("nm") {
        return;
    }
    let shared = folder().join("libhornbeamlet.so");
    let seen = printed(
        Command::new("nm")
            .args(["-D", "--defined-only"])
            .arg(shared),
    );
    let names = seen.lines().map(|line| line.rsplit(' ').next().unwrap());
    let mut names: Vec<&str> = names.collect();
    names.sort_unstable();
    assert_eq!(names, FUNCTIONS);
}

#[test]
fn pkg_config_names_what_to_link_with() {
    if !is_there("pkg-config") {
        return;
    }
    let version = asked_of_pkg_config("--modversion");
    assert_eq!(
        version,
        [env!("CARGO_PKG_VERSION")],
        "where the version has changed, run tools/staticlib"
    );
    let mut flags = asked_of_pkg_config("--cflags");
    flags.extend(asked_of_pkg_config("--libs"));
    let program = compile("pkg-config", Path::new(DOCUMENT), &flags);
    // No word on where the library is: the flags tell the program.
    let mut run = Command::new(program);
    assert_eq!(printed(run.env_remove("LD_LIBRARY_PATH")), ANSWERS);
}

/// What pkg-config tells of the library, in words as a shell would cut them.
fn asked_of_pkg_config(option: &str) -> Vec<String> {
    let mut asked = Command::new("pkg-config");
    asked.args([option, "hornbeamlet"]);
    asked.env("PKG_CONFIG_PATH", folder());
    let told = printed(&mut asked);
    let mut shell = Command::new("sh");
    shell.args(["-c", r#"eval "set -- $1"; printf '%s\n' "$@""#, "sh", &told]);
    printed(&mut shell).lines().map(str::to_owned).collect()
}

fn is_there(tool: &str) -> bool {
    let found = Command::new(tool).arg("--version").output().is_ok();
    if !found {
        println!("{tool} is not there, so this is not tried");
    }
    found
}
