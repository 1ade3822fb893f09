//! A packet's fixed part in its three forms (01, Flags and the three forms).

use crate::fault::Fault;
use crate::fields::Fields;
use crate::limits;
use types::Measures;

/// The f of a bitmap raster.
pub const BITMAP: u8 = 14;

/// A packet whose fixed part is in order.
#[derive(Clone, Copy)]
pub struct Packet<'a> {
    flag: u8,
    pub measures: Measures,
    pub raster: &'a [u8],
    /// All bytes of the packet, its flag included.
    pub length: usize,
}

impl<'a> Packet<'a> {
    /// Reads the packet at the front of `piece`, which is not empty; its raster is not judged.
    pub fn read(piece: &'a [u8]) -> Result<Self, Fault> {
        let flag = piece[0];
        let mut fields = Fields::new(&piece[1..]);
        let fixed_part = match flag % 8 {
            0..=3 => short(flag, &mut fields),
            4..=6 => extended(flag, &mut fields),
            _ => long(&mut fields),
        };
        let (raster, measures) = fixed_part.ok_or(Fault::FileEnds)?;
        let raster = usize::try_from(raster).map_err(|_| Fault::BadLength)?;
        let raster = fields.bytes(raster).ok_or(Fault::FileEnds)?;
        limits::area(measures.w, measures.h).ok_or(Fault::OutsideLimits)?;
        if !limits::is_code(measures.code) {
            return Err(Fault::BadCode);
        }
        let length = piece.len() - fields.left();
        Ok(Packet {
            flag,
            measures,
            raster,
            length,
        })
    }

    /// The f of the raster, 14 for a bitmap.
    pub fn f(&self) -> u8 {
        self.flag / 16
    }

    /// Says whether the first run is black.
    pub fn first_is_black(&self) -> bool {
        self.flag & 8 != 0
    }

    /// The pixels of a row.
    pub fn w(&self) -> usize {
        self.measures.w as usize
    }

    /// The number of rows.
    pub fn h(&self) -> usize {
        self.measures.h as usize
    }

    /// The number of pixels.
    pub fn area(&self) -> usize {
        self.w() * self.h()
    }
}

/// The raster's length, below 0 if the fixed fields do not fit, and the measures of a short packet.
fn short(flag: u8, fields: &mut Fields) -> Option<(i64, Measures)> {
    let length = i64::from(flag % 4) * 256 + fields.unsigned::<1>()?;
    let measures = Measures {
        code: fields.unsigned::<1>()?,
        tfm: fields.unsigned::<3>()?,
        dx: fields.unsigned::<1>()? << 16,
        dy: 0,
        w: fields.unsigned::<1>()?,
        h: fields.unsigned::<1>()?,
        hoff: fields.signed::<1>()?,
        voff: fields.signed::<1>()?,
    };
    Some((length - 8, measures))
}

/// The same of an extended packet.
fn extended(flag: u8, fields: &mut Fields) -> Option<(i64, Measures)> {
    let length = i64::from(flag % 4) * 65_536 + fields.unsigned::<2>()?;
    let measures = Measures {
        code: fields.unsigned::<1>()?,
        tfm: fields.unsigned::<3>()?,
        dx: fields.unsigned::<2>()? << 16,
        dy: 0,
        w: fields.unsigned::<2>()?,
        h: fields.unsigned::<2>()?,
        hoff: fields.signed::<2>()?,
        voff: fields.signed::<2>()?,
    };
    Some((length - 13, measures))
}

/// The same of a long packet.
fn long(fields: &mut Fields) -> Option<(i64, Measures)> {
    let length = fields.signed::<4>()?;
    let measures = Measures {
        code: fields.signed::<4>()?,
        tfm: fields.signed::<4>()?,
        dx: fields.signed::<4>()?,
        dy: fields.signed::<4>()?,
        w: fields.signed::<4>()?,
        h: fields.signed::<4>()?,
        hoff: fields.signed::<4>()?,
        voff: fields.signed::<4>()?,
    };
    Some((length - 28, measures))
}
