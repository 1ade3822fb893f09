//! Cases of packing, and of drawing what was packed.

use crate::bitmaps::{bitmap, measures, spoil};
use crate::harness::{shown, Harness};
use crate::made::font_around;
use crate::random::Random;
use types::Measures;

/// Packs a bitmap with room enough, then with another room, and draws what was packed.
pub fn packed_bitmap(random: &mut Random, harness: &mut Harness) {
    let mut bitmap = bitmap(random);
    let measures = measures(random, &bitmap);
    if random.one_in(12) {
        spoil(random, &mut bitmap.pixels);
    }
    let pixels = &bitmap.pixels[..];
    let enough = 37 + pixels.len().div_ceil(8) + random.below(3);
    let Ok(packet) = harness.pack(pixels.into(), &measures, enough) else {
        let _ = harness.pack(pixels.into(), &measures, random.below(enough));
        return;
    };
    let packet = packet.to_vec();
    if random.one_in(2) {
        let length = packet.len();
        let room = random.pick(&[length, length, length + 1, length - 1, length / 2, 0]);
        let _ = harness.pack(pixels.into(), &measures, room);
    }
    if random.one_in(2) {
        draw_back(random, harness, &packet, &measures, pixels);
    }
}

/// Sets a packet in a font alone; it must be accepted and draw the same measures and pixels.
fn draw_back(
    random: &mut Random,
    harness: &mut Harness,
    packet: &[u8],
    measures: &Measures,
    pixels: &[u8],
) {
    let font = font_around(random, packet).bytes;
    let chars = harness.check(font[..].into());
    let drawn = harness.draw(font[..].into(), measures.code as u64, pixels.len());
    if chars != Ok(1) || drawn != Ok((*measures, pixels)) {
        harness.fail("a packet does not draw back", shown(&font));
    }
}
