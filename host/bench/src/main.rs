//! Times the proved library beside the independent implementation.
//!
//! `bench [FOLDER]` times all three calls on each real font.
//! `bench --only ours|reference check|draw|pack FONT REPEATS` makes only these passes, on a font of the
//! table or on a file, for a counter of instructions. Drawing the characters beforehand is counted
//! too: take the difference of two REPEATS.

#![forbid(unsafe_code)]

mod timing;
mod work;

use std::hint::black_box;
use std::process::exit;
use timing::{measure, Times};
use work::{Call, Work, OURS, REFERENCE};

/// What the letter asks: forty sheets a minute of four thousand glyphs.
const BOARD: f64 = 40.0 * 4000.0 / 60.0;

/// Reads the arguments.
fn main() {
    let arguments: Vec<String> = std::env::args().skip(1).collect();
    let arguments: Vec<&str> = arguments.iter().map(String::as_str).collect();
    match arguments[..] {
        ["--only", with, call, font, repeats] => only(with, call, font, repeats),
        [] => table(None),
        [folder] if !folder.starts_with('-') => table(Some(folder)),
        _ => usage(),
    }
}

/// Says how the program is called and ends it.
fn usage() -> ! {
    eprintln!("usage: bench [FOLDER]");
    eprintln!("       bench --only ours|reference check|draw|pack FONT REPEATS");
    exit(2);
}

/// Makes the passes of one call by one implementation on one font.
fn only(with: &str, call: &str, font: &str, repeats: &str) {
    let with = [&OURS, &REFERENCE].into_iter().find(|w| w.name == with);
    let call = Call::ALL.into_iter().find(|c| c.name() == call);
    let (Some(with), Some(call), Ok(repeats)) = (with, call, repeats.parse::<usize>()) else {
        usage()
    };
    let work = Work::new(font.to_string(), bytes_of(font)).unwrap_or_else(|refusal| {
        eprintln!("{font}: {refusal}");
        exit(2);
    });
    let mut buffer = vec![0; 65_536];
    for _ in 0..repeats {
        black_box(work.pass(with, call, &mut buffer));
    }
    println!("{repeats} passes of {} glyphs", work.glyphs());
}

/// The bytes of a font of the table, or of a file.
fn bytes_of(font: &str) -> Vec<u8> {
    let named = fonts::real_fonts(None).into_iter().find(|f| f.name == font);
    if let Some(named) = named {
        return named.bytes;
    }
    std::fs::read(font).unwrap_or_else(|error| {
        eprintln!("{font}: {error}");
        exit(2);
    })
}

/// Times all fonts and prints a table.
fn table(folder: Option<&str>) {
    let works = works(folder);
    if works.is_empty() {
        eprintln!("no font to time");
        exit(2);
    }
    println!("nanoseconds per glyph: ours, reference, ours / reference");
    println!("(one check serves all glyphs of a font)");
    print!("{:24}{:>6}", "font", "glyphs");
    let [check, draw, pack] = Call::ALL.map(Call::name);
    println!("{check:>26}{draw:>26}{pack:>26}");
    let mut buffer = vec![0; 65_536];
    let mut totals = [Times::default(); 3];
    for work in &works {
        let times = Call::ALL.map(|call| measure(work, call, &mut buffer));
        print_line(&work.name, work.glyphs(), times);
        for (total, time) in totals.iter_mut().zip(times) {
            total.ours += time.ours;
            total.reference += time.reference;
        }
    }
    let glyphs = works.iter().map(Work::glyphs).sum();
    print_line("all", glyphs, totals);
    print_board(totals[Call::Draw as usize].per(glyphs));
}

/// The fonts that can be timed, with a line for each one that is refused.
fn works(folder: Option<&str>) -> Vec<Work> {
    let fonts = fonts::real_fonts(folder.map(Into::into));
    let works = fonts.into_iter().filter_map(|font| {
        let refused = font.name.clone();
        Work::new(font.name, font.bytes)
            .map_err(|refusal| println!("{refused} is left out: {refusal}"))
            .ok()
    });
    works.collect()
}

/// Prints the times of one font.
fn print_line(name: &str, glyphs: usize, times: [Times; 3]) {
    print!("{name:24}{glyphs:>6}");
    for time in times {
        let each = time.per(glyphs);
        print!(
            "{:>10.1}{:>10.1}{:>6.2}",
            each.ours,
            each.reference,
            each.ratio()
        );
    }
    println!();
}

/// Prints glyphs per second beside what the board asks.
fn print_board(draw: Times) {
    let ours = 1e9 / draw.ours;
    let reference = 1e9 / draw.reference;
    println!("glyphs drawn per second: ours {ours:.0}, reference {reference:.0}");
    println!(
        "the board asks for {BOARD:.0}: ours draws {:.1} times that",
        ours / BOARD
    );
}
