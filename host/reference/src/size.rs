//! How many nybbles a count list takes for each f (01, What packing chooses).

use crate::counts::Item;
use crate::nybbles::{hexadecimal_digits, two_nybble_limit};

/// How many f there are for runs: 0 to 13.
const RUN_FS: usize = 14;

/// The nybbles of a packed number.
const fn number_size(number: u32, f: u8) -> u32 {
    let limit = two_nybble_limit(f);
    if number <= f as u32 {
        1
    } else if number <= limit {
        2
    } else {
        2 * hexadecimal_digits(number + 15 - limit) - 1
    }
}

/// The sizes, for each f, of the numbers that take at most two nybbles for some f.
static SMALL: [[u8; RUN_FS]; 209] = small_sizes();

/// Works out `SMALL`.
const fn small_sizes() -> [[u8; RUN_FS]; 209] {
    let mut sizes = [[0; RUN_FS]; 209];
    let mut number = 1;
    while number < sizes.len() {
        let mut f = 0;
        while f < RUN_FS {
            sizes[number][f] = number_size(number as u32, f as u8) as u8;
            f += 1;
        }
        number += 1;
    }
    sizes
}

/// The nybbles of a count list for each f from 0 to 13.
pub fn sizes(list: &[Item]) -> [u32; RUN_FS] {
    let mut sizes = [0; RUN_FS];
    let mut marks = 0;
    for &item in list {
        match item {
            Item::Run(run) => add(&mut sizes, run),
            Item::Repeat(1) => marks += 1,
            Item::Repeat(repeat) => {
                marks += 1;
                add(&mut sizes, repeat);
            }
        }
    }
    sizes.map(|size| size + marks)
}

/// Adds the size of a packed number for each f.
fn add(sizes: &mut [u32; RUN_FS], number: u32) {
    if let Some(small) = SMALL.get(number as usize) {
        for (size, &more) in sizes.iter_mut().zip(small) {
            *size += u32::from(more);
        }
    } else {
        for (size, f) in sizes.iter_mut().zip(0..) {
            *size += number_size(number, f);
        }
    }
}

/// The f with the fewest nybbles, of equal ones the largest, and those nybbles.
pub fn fewest(sizes: [u32; RUN_FS]) -> (u8, u32) {
    let mut best = (0, sizes[0]);
    for (f, size) in (0..).zip(sizes) {
        if size <= best.1 {
            best = (f, size);
        }
    }
    best
}

#[cfg(test)]
mod tests {
    use super::*;
    use Item::{Repeat, Run};

    /// The count list of source document 000's letter (section 27).
    const LETTER: [Item; 22] = [
        Run(82),
        Repeat(2),
        Run(16),
        Run(2),
        Run(42),
        Repeat(2),
        Run(2),
        Run(12),
        Run(2),
        Run(4),
        Repeat(3),
        Run(16),
        Run(4),
        Repeat(2),
        Run(2),
        Run(12),
        Run(2),
        Run(62),
        Repeat(2),
        Run(2),
        Run(16),
        Run(82),
    ];

    /// The sizes that 01 names for the letter.
    #[test]
    fn the_letter() {
        let sizes = sizes(&LETTER);
        assert_eq!([3, 4, 8, 9].map(|f| sizes[f]), [38, 36, 36, 38]);
        assert_eq!(fewest(sizes), (8, 36));
    }
}
