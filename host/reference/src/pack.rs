//! Packing: the bitmap judged, its raster chosen and written (01, What packing chooses).

use crate::counts::{count_list, Item};
use crate::fault::Fault;
use crate::form::Form;
use crate::limits;
use crate::nybbles::NybbleWriter;
use crate::packet::BITMAP;
use crate::size::{fewest, sizes};
use types::{Measures, Refusal};

/// Packs one bitmap into the front of `packet` and answers with the packet's length.
pub fn pack(bitmap: &[u8], measures: &Measures, packet: &mut [u8]) -> Result<usize, Refusal> {
    judge(bitmap, measures).map_err(|fault| fault.at(0))?;
    let list = count_list(bitmap, measures.w as usize);
    let raster = Raster::choose(bitmap, &list);
    let form = Form::choose(measures, raster.bytes).ok_or(Fault::NoForm.at(0))?;
    let length = form.fixed_part() + raster.bytes;
    let packet = packet.get_mut(..length).ok_or(Fault::NoRoom.at(0))?;
    let room = form.write(raster.kind(), measures, packet);
    raster.write(bitmap, &list, room);
    Ok(length)
}

/// Judges the bitmap and its code.
fn judge(bitmap: &[u8], measures: &Measures) -> Result<(), Fault> {
    let area = limits::area(measures.w, measures.h).ok_or(Fault::BitmapOutsideLimits)?;
    let all_bits = bitmap.iter().fold(0, |bits, &pixel| bits | pixel);
    if bitmap.len() != area || all_bits > 1 {
        return Err(Fault::BadBitmap);
    }
    if !limits::is_code(measures.code) {
        return Err(Fault::BadCode);
    }
    Ok(())
}

/// The raster that 01's rules choose: its f, its black bit and its length.
struct Raster {
    f: u8,
    first_is_black: bool,
    bytes: usize,
}

impl Raster {
    /// Chooses between runs and bits.
    fn choose(bitmap: &[u8], list: &[Item]) -> Raster {
        let (f, nybbles) = fewest(sizes(list));
        let run_bytes = nybbles.div_ceil(2) as usize;
        let bit_bytes = bitmap.len().div_ceil(8);
        if bit_bytes < run_bytes || bitmap.is_empty() {
            return Raster {
                f: BITMAP,
                first_is_black: false,
                bytes: bit_bytes,
            };
        }
        Raster {
            f,
            first_is_black: bitmap[0] == 1,
            bytes: run_bytes,
        }
    }

    /// The flag's bits that tell f and the colour of the first run.
    fn kind(&self) -> u8 {
        self.f * 16 + u8::from(self.first_is_black) * 8
    }

    /// Writes the raster into exactly its bytes.
    fn write(&self, bitmap: &[u8], list: &[Item], room: &mut [u8]) {
        if self.f == BITMAP {
            return write_bits(bitmap, room);
        }
        let mut nybbles = NybbleWriter::new(room);
        for &item in list {
            nybbles.item(item, self.f);
        }
    }
}

/// Writes a bitmap raster, the most significant bit first.
fn write_bits(bitmap: &[u8], room: &mut [u8]) {
    for (byte, pixels) in room.iter_mut().zip(bitmap.chunks(8)) {
        *byte = (0..)
            .zip(pixels)
            .fold(0, |bits, (i, pixel)| bits | pixel << (7 - i));
    }
}
