//! Cases of checking and drawing.

use crate::damage::{damage, damage_bytes};
use crate::harness::{Harness, Lent};
use crate::made::{self, Made};
use crate::random::Random;

/// A real font of at most so many bytes is damaged at every place; longer ones are by lot.
const SHORT: usize = 2_000;

/// A font from a file, with the code and number of pixels of each character.
pub struct Real {
    bytes: Vec<u8>,
    characters: Vec<(u8, usize)>,
}

impl Real {
    /// A real font; a refused one has no characters.
    pub fn new(bytes: Vec<u8>) -> Self {
        let mut pixels = vec![0; 65_536];
        let characters = (0..=255)
            .filter_map(|code: u8| {
                let measures = reference::draw(&bytes, code.into(), &mut pixels).ok()?;
                Some((code, (measures.w * measures.h) as usize))
            })
            .collect();
        Real { bytes, characters }
    }
}

/// A legal font.
pub fn legal_font(random: &mut Random, harness: &mut Harness) {
    let made = made::font(random, false);
    if made.bytes.len() <= 65_536 {
        let chars = made.characters.len() as u32;
        if harness.check(made.bytes[..].into()) != Ok(chars) {
            harness.fail(
                "a font made legal is refused",
                crate::harness::shown(&made.bytes),
            );
        }
    }
    for _ in 0..3 {
        draw_some(random, harness, &made.bytes, &made.characters);
    }
}

/// A font with a raster that may be wrong.
pub fn hostile_font(random: &mut Random, harness: &mut Harness) {
    let made = made::font(random, true);
    check_and_draw(random, harness, &made);
}

/// A font with damage to its pieces.
pub fn damaged_font(random: &mut Random, harness: &mut Harness) {
    let also_rasters = random.one_in(8);
    let mut made = made::font(random, also_rasters);
    for _ in 0..random.pick(&[1, 1, 1, 2]) {
        damage(random, &mut made);
    }
    check_and_draw(random, harness, &made);
}

/// A small font cut off at every length; what was cut off stands after it in memory.
pub fn truncated_font(random: &mut Random, harness: &mut Harness) {
    let made = made::small_font(random);
    for length in 0..made.bytes.len() {
        let (bytes, after) = made.bytes.split_at(length);
        let _ = harness.check(Lent { bytes, after });
        if random.one_in(4) {
            let _ = harness.draw(Lent { bytes, after }, 11, 20);
        }
    }
}

/// Each short real font cut off at every length; what was cut off stands after it in memory.
pub fn every_truncation(random: &mut Random, harness: &mut Harness, fonts: &[Real]) {
    for font in fonts.iter().filter(|font| font.bytes.len() <= SHORT) {
        for length in 0..font.bytes.len() {
            let (bytes, after) = font.bytes.split_at(length);
            let _ = harness.check(Lent { bytes, after });
            draw_some(random, harness, bytes, &font.characters);
        }
    }
}

/// Each short real font with each of its bits turned.
pub fn every_bit(random: &mut Random, harness: &mut Harness, fonts: &[Real]) {
    for font in fonts.iter().filter(|font| font.bytes.len() <= SHORT) {
        let mut bytes = font.bytes.clone();
        for at in 0..8 * bytes.len() {
            bytes[at / 8] ^= 1 << (at % 8);
            let _ = harness.check(bytes[..].into());
            draw_some(random, harness, &bytes, &font.characters);
            bytes[at / 8] ^= 1 << (at % 8);
        }
    }
}

/// A small font with each of its bytes changed in turn.
pub fn swept_font(random: &mut Random, harness: &mut Harness) {
    let mut made = made::small_font(random);
    for at in 0..made.bytes.len() {
        let old = made.bytes[at];
        made.bytes[at] = match random.below(4) {
            0 => old.wrapping_add(1),
            1 => old.wrapping_sub(1),
            2 => old ^ 1 << random.below(8),
            _ => random.byte(),
        };
        let _ = harness.check(made.bytes[..].into());
        draw_some(random, harness, &made.bytes, &made.characters);
        made.bytes[at] = old;
    }
}

/// A font at or beside the greatest length.
pub fn longest_font(random: &mut Random, harness: &mut Harness) {
    let length = random.pick(&[65_528, 65_532, 65_536, 65_536, 65_540, 65_544]);
    let mut made = made::font_of_length(random, length);
    if random.one_in(3) {
        made.bytes.truncate(length - random.below(8));
    }
    match random.below(6) {
        0 => made.bytes[0] ^= 1,
        1 => drop(made.bytes.pop().map(|_| made.bytes.push(246))),
        _ => (),
    }
    check_and_draw(random, harness, &made);
}

/// A few bytes, mostly none of a font.
pub fn few_bytes(random: &mut Random, harness: &mut Harness) {
    let mut bytes: Vec<u8> = (0..random.below(24)).map(|_| random.byte()).collect();
    let begin = random.below(3).min(bytes.len());
    bytes[..begin].copy_from_slice(&[247, 89][..begin]);
    let _ = harness.check(bytes[..].into());
    draw_some(random, harness, &bytes, &[]);
}

/// A font from a file, mostly with damage.
pub fn real_font(random: &mut Random, harness: &mut Harness, fonts: &[Real]) {
    let font = &fonts[random.below(fonts.len())];
    let mut bytes = font.bytes.clone();
    if !random.one_in(20) {
        damage_bytes(random, &mut bytes);
    }
    let _ = harness.check(bytes[..].into());
    for _ in 0..2 {
        draw_some(random, harness, &bytes, &font.characters);
    }
}

/// Checks a font and draws from it.
fn check_and_draw(random: &mut Random, harness: &mut Harness, made: &Made) {
    let _ = harness.check(made.bytes[..].into());
    draw_some(random, harness, &made.bytes, &made.characters);
}

/// Draws a code, there or not, with room for it or not.
fn draw_some(random: &mut Random, harness: &mut Harness, font: &[u8], characters: &[(u8, usize)]) {
    let (code, area) = match characters {
        [] => (random.byte(), 30),
        _ => random.pick(characters),
    };
    let code = match random.below(12) {
        0 => u64::from(random.byte()),
        1 => u64::from(code) + (1 << random.pick(&[8, 9, 16, 31, 32, 63])),
        2 => random.pick(&[256, u64::MAX, u64::MAX - 255 + u64::from(code)]),
        _ => u64::from(code),
    };
    let room = match random.below(9) {
        0 => area.saturating_sub(1),
        1 => area + 1,
        2 => area + random.below(60),
        3 => random.below(area + 1),
        4 if random.one_in(50) => 70_000,
        _ => area,
    };
    let _ = harness.draw(font.into(), code, room);
}
