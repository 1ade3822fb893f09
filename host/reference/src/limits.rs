//! 01's limits.

/// The most bytes of a font, and the most pixels of a bitmap.
pub const MOST: usize = 65_536;

/// The pixels of a w × h bitmap, or nothing if w and h are outside the limits.
pub fn area(w: i64, h: i64) -> Option<usize> {
    if (w, h) == (0, 0) {
        return Some(0);
    }
    if w < 1 || h < 1 {
        return None;
    }
    let area = usize::try_from(w.checked_mul(h)?).ok()?;
    (area <= MOST).then_some(area)
}

/// Says whether a character may have this code.
pub fn is_code(code: i64) -> bool {
    (0..=255).contains(&code)
}
