//! 01 in plain Rust, written from the documents alone: the counterpart that the proved library is
//! compared with and timed against.
//!
//! Reading goes `font` → `packet` → `raster` → `nybbles`; packing goes `counts` → `size` → `pack` → `form`.

#![forbid(unsafe_code)]

mod counts;
mod fault;
mod fields;
mod font;
mod form;
mod limits;
mod nybbles;
mod pack;
mod packet;
mod raster;
mod size;

use fault::Fault;
pub use pack::pack;
pub use types::{Measures, Refusal};

/// Checks a whole font and answers with its number of characters.
pub fn check(font: &[u8]) -> Result<u32, Refusal> {
    font::read(font, |_| ())
}

/// Draws one code into the first w × h bytes of `pixels` and answers with its measures.
pub fn draw(font: &[u8], code: u64, pixels: &mut [u8]) -> Result<Measures, Refusal> {
    let mut found = None;
    font::read(font, |packet| {
        if packet.measures.code as u64 == code {
            found = Some(packet);
        }
    })?;
    let packet = found.ok_or(Fault::CodeAbsent.at(0))?;
    let room = pixels.get_mut(..packet.area());
    raster::draw(&packet, room.ok_or(Fault::NoRoom.at(0))?);
    Ok(packet.measures)
}
