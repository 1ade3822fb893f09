//! Finds the real fonts that the comparison and the benchmark use.

use std::fs;
use std::path::{Path, PathBuf};

/// A PK file: its name and its bytes.
pub struct Font {
    pub name: String,
    pub bytes: Vec<u8>,
}

/// The fonts of the gate's listing program, in the order of its input (docs/FONTS.md says how they were made).
const NAMES: [&str; 10] = [
    "cmex10.cx.300",
    "cminch.cx.300",
    "cmmi10.cx.300",
    "cmr10.cx.300",
    "cmr10.ljfour.600",
    "cmr10.mactrue.72",
    "cmsy10.cx.300",
    "logo10.cx.300",
    "ps2pk_putr8a.300",
    "vnr10.cx.300",
];

/// The PK files of `folder`, or else those that the gate lists.
pub fn real_fonts(folder: Option<PathBuf>) -> Vec<Font> {
    match folder {
        Some(folder) => fonts_in(&folder),
        None => gate_fonts().unwrap_or_default(),
    }
}

/// The PK files of one folder in order of name; none if it is absent.
fn fonts_in(folder: &Path) -> Vec<Font> {
    let entries = fs::read_dir(folder).into_iter().flatten();
    let mut fonts: Vec<Font> = entries
        .filter_map(|entry| Some(entry.ok()?.path()))
        .filter(|path| path.extension().is_some_and(|e| e == "pk"))
        .filter_map(|path| {
            let name = path.file_stem()?.to_string_lossy().into_owned();
            let bytes = fs::read(&path).ok()?;
            Some(Font { name, bytes })
        })
        .collect();
    fonts.sort_by(|a, b| a.name.cmp(&b.name));
    fonts
}

/// The fonts of the listing program's input: each behind its length in four bytes, the first most significant.
fn gate_fonts() -> Option<Vec<Font>> {
    let path = Path::new(env!("CARGO_MANIFEST_DIR")).join("../../crates/list_fonts/stdin");
    let input = fs::read(path).ok()?;
    let mut rest = &input[..];
    let mut fonts = Vec::new();
    for name in NAMES {
        let (length, behind) = rest.split_first_chunk::<4>()?;
        let (bytes, after) = behind.split_at_checked(u32::from_be_bytes(*length) as usize)?;
        fonts.push(Font {
            name: name.to_string(),
            bytes: bytes.to_vec(),
        });
        rest = after;
    }
    Some(fonts)
}
