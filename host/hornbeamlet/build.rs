//! Links the proved library from the place where tools/staticlib leaves it, and
//! tells the crate which kit proved it.

#![forbid(unsafe_code)]

use std::path::{Path, PathBuf};
use std::process::exit;
use std::{env, fs};

const ARCHIVE: &str = "libhornbeamlet.a";
/// Beside the archive, one line: the identity of the kit.
const KIT: &str = "kit";
/// Where this is set, it names the archive's folder.
const OTHER_FOLDER: &str = "HORNBEAMLET_NATIVE";

fn main() {
    println!("cargo:rerun-if-env-changed={OTHER_FOLDER}");
    let folder = folder();
    link(&folder);
    tell_kit(&kit(&folder));
}

fn folder() -> PathBuf {
    let manifest = env::var("CARGO_MANIFEST_DIR").expect("cargo names the manifest's folder");
    let usual = Path::new(&manifest).join("../../native");
    env::var_os(OTHER_FOLDER).map_or(usual, PathBuf::from)
}

fn link(folder: &Path) {
    let archive = folder.join(ARCHIVE);
    // Also where it is missing: then the next build looks again.
    println!("cargo:rerun-if-changed={}", archive.display());
    let Ok(folder) = folder.canonicalize().and_then(|folder| {
        archive.metadata()?;
        Ok(folder)
    }) else {
        let missing = archive.display();
        eprintln!("{missing} is missing: run tools/staticlib first");
        exit(1);
    };
    println!("cargo:rustc-link-search=native={}", folder.display());
    println!("cargo:rustc-link-lib=static=hornbeamlet");
}

/// What the file says, in one line as cargo takes it. Archives of earlier
/// revisions have no such file.
fn kit(folder: &Path) -> String {
    let file = folder.join(KIT);
    println!("cargo:rerun-if-changed={}", file.display());
    let said = fs::read_to_string(file).unwrap_or_default();
    match said.lines().next().map(str::trim) {
        Some(kit) if !kit.is_empty() => kit.to_owned(),
        _ => "unknown kit".to_owned(),
    }
}

fn tell_kit(kit: &str) {
    println!("cargo:rustc-env=HORNBEAMLET_KIT={kit}");
}
