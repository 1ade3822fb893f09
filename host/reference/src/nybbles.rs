//! Nybbles and packed numbers (01, Rasters).

use crate::counts::Item;
use crate::fault::Fault;

/// The nybble that says: a repeat, its number follows.
pub const REPEAT: u8 = 14;
/// The nybble that says: a repeat of 1.
pub const REPEAT_ONCE: u8 = 15;

/// M, the greatest number of at most two nybbles.
pub const fn two_nybble_limit(f: u8) -> u32 {
    208 - 15 * f as u32
}

/// The hexadecimal digits of a number above 0.
pub const fn hexadecimal_digits(number: u32) -> u32 {
    number.ilog2() / 4 + 1
}

/// Takes nybbles from bytes, the high half first. The calls are inlined: this keeps the place in a
/// register, and checking a font takes two thirds of the time.
pub struct Nybbles<'a> {
    bytes: &'a [u8],
    taken: usize,
}

impl<'a> Nybbles<'a> {
    /// Begins at the first of these bytes.
    pub fn new(bytes: &'a [u8]) -> Self {
        Nybbles { bytes, taken: 0 }
    }

    /// The next nybble.
    #[inline(always)]
    pub fn next(&mut self) -> Result<u8, Fault> {
        let byte = *self.bytes.get(self.taken / 2).ok_or(Fault::RasterEnds)?;
        let high = self.taken.is_multiple_of(2);
        self.taken += 1;
        Ok(if high { byte >> 4 } else { byte & 15 })
    }

    /// The packed number that begins with the nybble `first`, which is no mark of a repeat.
    #[inline(always)]
    pub fn number(&mut self, first: u8, f: u8) -> Result<usize, Fault> {
        if first == 0 {
            self.long_number(f)
        } else if first <= f {
            Ok(usize::from(first))
        } else {
            let high = usize::from(first - f - 1) * 16;
            Ok(high + usize::from(self.next()?) + usize::from(f) + 1)
        }
    }

    /// The packed number whose first zero was taken; the greatest usize stands for all above it.
    #[inline(always)]
    fn long_number(&mut self, f: u8) -> Result<usize, Fault> {
        let mut zeros = 1;
        let mut digit = self.next()?;
        while digit == 0 {
            zeros += 1;
            digit = self.next()?;
        }
        let mut number = usize::from(digit);
        for _ in 0..zeros {
            digit = self.next()?;
            number = number.saturating_mul(16).saturating_add(usize::from(digit));
        }
        Ok((number - 15).saturating_add(two_nybble_limit(f) as usize))
    }

    /// Judges what was not taken: at most half a byte, and that zero.
    pub fn finish(&self) -> Result<(), Fault> {
        let spare = match self.taken % 2 {
            0 => 0,
            _ => self.bytes[self.taken / 2] & 15,
        };
        if spare != 0 || self.bytes.len() > self.taken.div_ceil(2) {
            return Err(Fault::LeftOver);
        }
        Ok(())
    }
}

/// Puts nybbles into bytes, the high half first; a half byte left over is zero.
pub struct NybbleWriter<'a> {
    bytes: &'a mut [u8],
    put: usize,
}

impl<'a> NybbleWriter<'a> {
    /// Begins at the first byte.
    pub fn new(bytes: &'a mut [u8]) -> Self {
        NybbleWriter { bytes, put: 0 }
    }

    /// Puts one nybble.
    fn nybble(&mut self, nybble: u8) {
        let byte = &mut self.bytes[self.put / 2];
        *byte = match self.put % 2 {
            0 => nybble << 4,
            _ => *byte | nybble,
        };
        self.put += 1;
    }

    /// Puts an item of the count list.
    pub fn item(&mut self, item: Item, f: u8) {
        match item {
            Item::Run(run) => self.number(run, f),
            Item::Repeat(1) => self.nybble(REPEAT_ONCE),
            Item::Repeat(repeat) => {
                self.nybble(REPEAT);
                self.number(repeat, f);
            }
        }
    }

    /// Puts a packed number.
    fn number(&mut self, number: u32, f: u8) {
        let limit = two_nybble_limit(f);
        if number <= u32::from(f) {
            self.nybble(number as u8);
        } else if number <= limit {
            let above = number - u32::from(f) - 1;
            self.nybble((above / 16) as u8 + f + 1);
            self.nybble((above % 16) as u8);
        } else {
            self.long_number(number + 15 - limit);
        }
    }

    /// Puts the digits of a number, with one zero less than digits before them.
    fn long_number(&mut self, number: u32) {
        let digits = hexadecimal_digits(number);
        for _ in 1..digits {
            self.nybble(0);
        }
        for digit in (0..digits).rev() {
            self.nybble((number >> (4 * digit)) as u8 & 15);
        }
    }
}
