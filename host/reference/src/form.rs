//! The form of a packet that is written (01, What packing chooses).

use crate::fields::Writer;
use types::Measures;

/// The three forms.
#[derive(Clone, Copy)]
pub enum Form {
    Short,
    Extended,
    Long,
}

impl Form {
    /// The first form that holds the measures and a raster of this many bytes.
    pub fn choose(measures: &Measures, raster: usize) -> Option<Form> {
        if 8 + raster < 4 << 8 && holds(measures, 8) {
            Some(Form::Short)
        } else if 13 + raster < 3 << 16 && holds(measures, 16) {
            Some(Form::Extended)
        } else if long_holds(measures) {
            Some(Form::Long)
        } else {
            None
        }
    }

    /// The bytes from the flag to the last fixed field.
    pub fn fixed_part(self) -> usize {
        match self {
            Form::Short => 11,
            Form::Extended => 17,
            Form::Long => 37,
        }
    }

    /// Writes the flag and the fixed fields of a packet and hands back the room for its raster.
    pub fn write<'a>(self, kind: u8, m: &Measures, packet: &'a mut [u8]) -> &'a mut [u8] {
        let kind = i64::from(kind);
        let raster = (packet.len() - self.fixed_part()) as i64;
        let mut out = Writer::new(packet);
        match self {
            Form::Short => {
                let length = 8 + raster;
                out.put::<1>(&[kind + (length >> 8), length, m.code]);
                out.put::<3>(&[m.tfm]);
                out.put::<1>(&[m.dx >> 16, m.w, m.h, m.hoff, m.voff]);
            }
            Form::Extended => {
                let length = 13 + raster;
                out.put::<1>(&[kind + 4 + (length >> 16)]);
                out.put::<2>(&[length]);
                out.put::<1>(&[m.code]);
                out.put::<3>(&[m.tfm]);
                out.put::<2>(&[m.dx >> 16, m.w, m.h, m.hoff, m.voff]);
            }
            Form::Long => {
                out.put::<1>(&[kind + 7]);
                out.put::<4>(&[28 + raster, m.code, m.tfm, m.dx, m.dy]);
                out.put::<4>(&[m.w, m.h, m.hoff, m.voff]);
            }
        }
        out.rest()
    }
}

/// Says whether the short form (8 bits) or the extended form (16 bits) holds the measures.
fn holds(m: &Measures, bits: u32) -> bool {
    let size = 0..1 << bits;
    let offset = -(1 << (bits - 1))..1 << (bits - 1);
    (0..1 << 24).contains(&m.tfm)
        && m.dx % 65_536 == 0
        && m.dy == 0
        && [m.dx >> 16, m.w, m.h].iter().all(|n| size.contains(n))
        && [m.hoff, m.voff].iter().all(|n| offset.contains(n))
}

/// Says whether the long form holds the measures; code, w, h and the length always fit.
fn long_holds(m: &Measures) -> bool {
    let fields = [m.tfm, m.dx, m.dy, m.hoff, m.voff];
    fields.iter().all(|&n| i32::try_from(n).is_ok())
}
