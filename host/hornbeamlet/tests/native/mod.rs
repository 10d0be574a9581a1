//! Where the repository and the built library are.

use std::env;
use std::path::{Path, PathBuf};

/// The top of the repository.
pub fn top() -> PathBuf {
    let top = Path::new(env!("CARGO_MANIFEST_DIR")).join("../..");
    top.canonicalize().unwrap()
}

/// The folder of what tools/staticlib writes, or the other one that is named, as
/// build.rs takes it.
pub fn folder() -> PathBuf {
    env::var_os("HORNBEAMLET_NATIVE").map_or_else(|| top().join("native"), PathBuf::from)
}
