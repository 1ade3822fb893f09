//! The calls that are timed.

use std::hint::black_box;
use types::{Measures, Refusal};

type Check = fn(&[u8]) -> Result<u32, Refusal>;
type Draw = fn(&[u8], u64, &mut [u8]) -> Result<Measures, Refusal>;
type Pack = fn(&[u8], &Measures, &mut [u8]) -> Result<usize, Refusal>;

/// One implementation's calls, reached through pointers so that neither is built into the loop.
pub struct Implementation {
    pub name: &'static str,
    check: Check,
    draw: Draw,
    pack: Pack,
}

pub const OURS: Implementation = Implementation {
    name: "ours",
    check: zahrufin::check,
    draw: zahrufin::draw,
    pack: zahrufin::pack,
};

pub const REFERENCE: Implementation = Implementation {
    name: "reference",
    check: reference::check,
    draw: reference::draw,
    pack: reference::pack,
};

/// The three calls.
#[derive(Clone, Copy)]
pub enum Call {
    Check,
    Draw,
    Pack,
}

impl Call {
    pub const ALL: [Call; 3] = [Call::Check, Call::Draw, Call::Pack];

    /// The call's name.
    pub fn name(self) -> &'static str {
        match self {
            Call::Check => "check",
            Call::Draw => "draw",
            Call::Pack => "pack",
        }
    }
}

/// A font and its characters, already drawn.
pub struct Work {
    pub name: String,
    font: Vec<u8>,
    characters: Vec<(Measures, Vec<u8>)>,
}

impl Work {
    /// Draws all characters of a font; nothing if it is refused.
    pub fn new(name: String, font: Vec<u8>) -> Result<Work, Refusal> {
        reference::check(&font)?;
        let mut pixels = vec![0; 65_536];
        let mut characters = Vec::new();
        for code in 0..=255 {
            if let Ok(measures) = reference::draw(&font, code, &mut pixels) {
                let area = (measures.w * measures.h) as usize;
                characters.push((measures, pixels[..area].to_vec()));
            }
        }
        Ok(Work {
            name,
            font,
            characters,
        })
    }

    /// The number of characters.
    pub fn glyphs(&self) -> usize {
        self.characters.len()
    }

    /// Makes one pass: checks the font once, or draws or packs each character; a sum of the answers.
    pub fn pass(&self, with: &Implementation, call: Call, buffer: &mut [u8]) -> u64 {
        let font = black_box(&self.font[..]);
        match call {
            Call::Check => u64::from((with.check)(font).unwrap()),
            Call::Draw => self.draw_all(with, font, buffer),
            Call::Pack => self.pack_all(with, buffer),
        }
    }

    /// Draws each character.
    fn draw_all(&self, with: &Implementation, font: &[u8], buffer: &mut [u8]) -> u64 {
        let mut sum = 0;
        for (measures, _) in &self.characters {
            let drawn = (with.draw)(font, measures.code as u64, buffer).unwrap();
            sum += drawn.tfm as u64 + u64::from(black_box(&*buffer)[0]);
        }
        sum
    }

    /// Packs each character.
    fn pack_all(&self, with: &Implementation, buffer: &mut [u8]) -> u64 {
        let mut sum = 0;
        for (measures, pixels) in &self.characters {
            let length = (with.pack)(black_box(pixels), measures, buffer).unwrap();
            sum += length as u64 + u64::from(black_box(&*buffer)[length - 1]);
        }
        sum
    }
}
