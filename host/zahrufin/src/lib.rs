//! The proved library behind safe calls. All `unsafe` of the workspace stands here.
//!
//! `check`, `draw` and `pack` answer as Rust does; `checked`, `drawn` and `packed` answer with
//! the C structs, so that a comparison sees every field.

pub use types::{Measures, Refusal};

/// The C answer of a check; refusal 0 is acceptance, and fields that an answer does not use are 0.
#[repr(C)]
#[derive(Clone, Copy, Debug, Default, PartialEq, Eq)]
pub struct Checked {
    pub refusal: u32,
    pub place: u32,
    pub chars: u32,
}

/// The C answer of a drawing.
#[repr(C)]
#[derive(Clone, Copy, Debug, Default, PartialEq, Eq)]
pub struct Drawn {
    pub refusal: u32,
    pub place: u32,
    pub measures: Measures,
}

/// The C answer of a packing.
#[repr(C)]
#[derive(Clone, Copy, Debug, Default, PartialEq, Eq)]
pub struct Packed {
    pub refusal: u32,
    pub place: u32,
    pub length: u32,
}

extern "C" {
    fn zahrufin_check(font: *const u8, font_len: usize) -> Checked;
    fn zahrufin_draw(
        font: *const u8,
        font_len: usize,
        code: u64,
        pixels: *mut u8,
        pixels_len: usize,
    ) -> Drawn;
    fn zahrufin_pack(
        bitmap: *const u8,
        bitmap_len: usize,
        measures: Measures,
        packet: *mut u8,
        packet_len: usize,
    ) -> Packed;
}

/// Checks a whole font; the C answer.
pub fn checked(font: &[u8]) -> Checked {
    // SAFETY: pointer and length are those of a live slice, which the library only reads.
    unsafe { zahrufin_check(font.as_ptr(), font.len()) }
}

/// Draws one code; the C answer.
pub fn drawn(font: &[u8], code: u64, pixels: &mut [u8]) -> Drawn {
    let (room, length) = (pixels.as_mut_ptr(), pixels.len());
    // SAFETY: both slices are live and apart; the library reads the first and writes the second.
    unsafe { zahrufin_draw(font.as_ptr(), font.len(), code, room, length) }
}

/// Packs one bitmap; the C answer.
pub fn packed(bitmap: &[u8], measures: &Measures, packet: &mut [u8]) -> Packed {
    let (room, length) = (packet.as_mut_ptr(), packet.len());
    // SAFETY: both slices are live and apart; the library reads the first and writes the second.
    unsafe { zahrufin_pack(bitmap.as_ptr(), bitmap.len(), *measures, room, length) }
}

/// Checks a whole font and answers with its number of characters.
pub fn check(font: &[u8]) -> Result<u32, Refusal> {
    let answer = checked(font);
    accepted(answer.refusal, answer.place).map(|()| answer.chars)
}

/// Draws one code into the first w × h bytes of `pixels` and answers with its measures.
pub fn draw(font: &[u8], code: u64, pixels: &mut [u8]) -> Result<Measures, Refusal> {
    let answer = drawn(font, code, pixels);
    accepted(answer.refusal, answer.place).map(|()| answer.measures)
}

/// Packs one bitmap into the front of `packet` and answers with the packet's length.
pub fn pack(bitmap: &[u8], measures: &Measures, packet: &mut [u8]) -> Result<usize, Refusal> {
    let answer = packed(bitmap, measures, packet);
    accepted(answer.refusal, answer.place).map(|()| answer.length as usize)
}

/// Nothing if the call was accepted, or its refusal.
fn accepted(number: u32, place: u32) -> Result<(), Refusal> {
    match number {
        0 => Ok(()),
        _ => Err(Refusal { number, place }),
    }
}
