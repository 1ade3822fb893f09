//! What the calls answer: measures and refusals, the same for both implementations.

use std::error::Error;
use std::fmt::{Display, Formatter, Result};

/// A character's measures; dx and dy are in pixels times 65,536 (01, Flags and the three forms).
#[repr(C)]
#[derive(Clone, Copy, Debug, Default, PartialEq, Eq)]
pub struct Measures {
    pub code: i64,
    pub w: i64,
    pub h: i64,
    pub tfm: i64,
    pub dx: i64,
    pub dy: i64,
    pub hoff: i64,
    pub voff: i64,
}

/// A refusal: its number in 01's table and its place.
#[derive(Clone, Copy, Debug, PartialEq, Eq)]
pub struct Refusal {
    pub number: u32,
    pub place: u32,
}

impl Display for Refusal {
    /// The number and the place, as the programs print them.
    fn fmt(&self, f: &mut Formatter) -> Result {
        write!(f, "refuse {} {}", self.number, self.place)
    }
}

impl Error for Refusal {}
