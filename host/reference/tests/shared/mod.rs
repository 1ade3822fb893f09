//! The folder that the team shares.

use std::io::Write;
use std::path::{Path, PathBuf};

/// A folder of the shared ones, or nothing with a line that says so.
pub fn folder(name: &str) -> Option<PathBuf> {
    let shared = match std::env::var_os("ZAHRUFIN_SHARED") {
        Some(path) => PathBuf::from(path),
        None => Path::new(env!("CARGO_MANIFEST_DIR")).join("../../../shared"),
    };
    let folder = shared.join(name);
    if folder.is_dir() {
        return Some(folder);
    }
    // Not eprintln, whose line the test runner would keep back.
    let line = format!("skipped: there is no {}\n", folder.display());
    let _ = std::io::stderr().write_all(line.as_bytes());
    None
}
