//! Links the static archive of the proved library.

use std::path::{Path, PathBuf};

/// The archive's path: ZAHRUFIN_LIB, or the place where the project builds it.
fn archive() -> PathBuf {
    match std::env::var_os("ZAHRUFIN_LIB") {
        Some(path) => PathBuf::from(path),
        None => Path::new(env!("CARGO_MANIFEST_DIR")).join("../../target/staticlib/libzahrufin.a"),
    }
}

/// The name that the linker wants: the file name without `lib` and `.a`.
fn link_name(archive: &Path) -> Option<&str> {
    archive
        .file_name()?
        .to_str()?
        .strip_prefix("lib")?
        .strip_suffix(".a")
}

/// Tells cargo where the archive is, or says in one line why it cannot be linked.
fn main() {
    let archive = archive();
    println!("cargo::rerun-if-env-changed=ZAHRUFIN_LIB");
    println!("cargo::rerun-if-changed={}", archive.display());
    let Ok(found) = archive.canonicalize() else {
        let path = archive.display();
        println!("cargo::error=no static library at {path}: build it with tools/staticlib, or set ZAHRUFIN_LIB");
        return;
    };
    let (Some(name), Some(folder)) = (link_name(&archive), found.parent()) else {
        let path = archive.display();
        println!("cargo::error={path} is not named lib*.a");
        return;
    };
    println!("cargo::rustc-link-search=native={}", folder.display());
    println!("cargo::rustc-link-lib=static:-bundle={name}");
}
