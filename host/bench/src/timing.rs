//! The time of a pass by both implementations, measured in turn.

use crate::work::{Call, Implementation, Work, OURS, REFERENCE};
use std::hint::black_box;
use std::time::{Duration, Instant};

/// How often both are measured; the best time of each counts.
const ROUNDS: usize = 15;
/// A measurement takes at least so long.
const LEAST: Duration = Duration::from_millis(3);

/// Nanoseconds of ours and of the reference.
#[derive(Clone, Copy, Default)]
pub struct Times {
    pub ours: f64,
    pub reference: f64,
}

impl Times {
    /// Ours divided by the reference's.
    pub fn ratio(self) -> f64 {
        self.ours / self.reference
    }

    /// The times divided by a number of glyphs.
    pub fn per(self, glyphs: usize) -> Times {
        Times {
            ours: self.ours / glyphs as f64,
            reference: self.reference / glyphs as f64,
        }
    }
}

/// The best time of a pass by each.
pub fn measure(work: &Work, call: Call, buffer: &mut [u8]) -> Times {
    let repeats = repeats_for(work, call, buffer);
    let mut best = Times {
        ours: f64::INFINITY,
        reference: f64::INFINITY,
    };
    for _ in 0..ROUNDS {
        best.ours = best.ours.min(time(work, &OURS, call, repeats, buffer));
        let reference = time(work, &REFERENCE, call, repeats, buffer);
        best.reference = best.reference.min(reference);
    }
    best
}

/// How many passes one measurement needs; both make as many.
fn repeats_for(work: &Work, call: Call, buffer: &mut [u8]) -> usize {
    let least = LEAST.as_nanos() as f64;
    let mut repeats = 1;
    while time(work, &REFERENCE, call, repeats, buffer) * (repeats as f64) < least {
        repeats *= 2;
    }
    repeats
}

/// The nanoseconds of one pass, over so many passes.
fn time(work: &Work, with: &Implementation, call: Call, repeats: usize, buffer: &mut [u8]) -> f64 {
    let start = Instant::now();
    let mut sum: u64 = 0;
    for _ in 0..repeats {
        sum = sum.wrapping_add(work.pass(with, call, buffer));
    }
    black_box(sum);
    start.elapsed().as_nanos() as f64 / repeats as f64
}
