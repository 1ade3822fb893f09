//! Compares the proved library with the independent implementation, call by call.
//!
//! `compare [COUNT] [SEED] [CASE]` makes at least COUNT calls, case after case from CASE on. A case
//! is a few calls that its seed and number fix, so a failed one can be repeated alone. With
//! ZAHRUFIN_TRACE set, each case is named before it runs, so that a crash or a hang can be found.

#![forbid(unsafe_code)]

mod bitmaps;
mod damage;
mod harness;
mod made;
mod packing;
mod random;
mod rasters;
mod reading;
mod tally;

use harness::Harness;
use random::Random;
use reading::Real;

const COUNT: u64 = 1_000_000;
const SEED: u64 = 20_261_115;
/// From so many calls on, every answer must have been met.
const ALL_MET: u64 = 100_000;

/// Makes the calls, prints the tally, and fails if an answer was never met.
fn main() {
    let count = argument(1, COUNT);
    let seed = argument(2, SEED);
    let first_case = argument(3, 0);
    let fonts = fonts::real_fonts(std::env::var_os("ZAHRUFIN_FONTS").map(Into::into));
    let fonts: Vec<Real> = fonts
        .into_iter()
        .map(|font| Real::new(font.bytes))
        .collect();
    println!("seed {seed}, {} real fonts", fonts.len());
    if fonts.is_empty() {
        println!("FAILED: no real font to compare");
        std::process::exit(1);
    }
    let trace = std::env::var_os("ZAHRUFIN_TRACE").is_some();
    let mut harness = Harness::new(seed);
    let mut case = first_case;
    while harness.tally.calls() < count {
        if trace {
            eprintln!("case {case}");
        }
        harness.begin(case);
        run_case(&mut harness, &fonts);
        case += 1;
    }
    harness.tally.print();
    let missing = harness.tally.missing();
    if count >= ALL_MET && !missing.is_empty() {
        println!("FAILED: never met: {}", missing.join(", "));
        std::process::exit(1);
    }
    println!(
        "{} calls of {} cases, all alike",
        harness.tally.calls(),
        case - first_case
    );
}

/// The number given as an argument, or another if there is none.
fn argument(which: usize, other: u64) -> u64 {
    match std::env::args().nth(which) {
        None => other,
        Some(text) => text.parse().unwrap_or_else(|_| {
            eprintln!("usage: compare [COUNT] [SEED] [CASE], not '{text}'");
            std::process::exit(2);
        }),
    }
}

/// Runs the case whose number the harness holds: the first two are the same for each seed but for the codes drawn.
fn run_case(harness: &mut Harness, fonts: &[Real]) {
    let random = &mut Random::new(harness.seed, harness.case);
    match harness.case {
        0 => reading::every_truncation(random, harness, fonts),
        1 => reading::every_bit(random, harness, fonts),
        _ => random_case(random, harness, fonts),
    }
}

/// Runs a case of a kind that is drawn by lot.
fn random_case(random: &mut Random, harness: &mut Harness, fonts: &[Real]) {
    match random.below(1000) {
        0..=119 => reading::legal_font(random, harness),
        120..=269 => reading::hostile_font(random, harness),
        270..=429 => reading::damaged_font(random, harness),
        430..=432 => reading::truncated_font(random, harness),
        433..=435 => reading::swept_font(random, harness),
        436..=438 => reading::longest_font(random, harness),
        439..=449 => reading::few_bytes(random, harness),
        450..=569 => reading::real_font(random, harness, fonts),
        _ => packing::packed_bitmap(random, harness),
    }
}
