//! The refusals of 01's table.

use types::Refusal;

/// What can be wrong, with 01's numbers.
#[derive(Clone, Copy, Debug, PartialEq, Eq)]
pub enum Fault {
    FontTooLong = 1,
    NoPreamble = 2,
    WrongIdentification = 3,
    FileEnds = 4,
    NoPiece = 5,
    BadLength = 6,
    OutsideLimits = 7,
    BadCode = 8,
    CodeTwice = 9,
    RasterEnds = 10,
    TooManyPixels = 11,
    SecondRepeat = 12,
    LeftOver = 13,
    BadEnding = 14,
    NoPacket = 15,
    CodeAbsent = 16,
    NoRoom = 17,
    BitmapOutsideLimits = 18,
    BadBitmap = 19,
    NoForm = 20,
}

impl Fault {
    /// The refusal for this fault at a place of the font.
    pub fn at(self, place: usize) -> Refusal {
        Refusal {
            number: self as u32,
            place: place as u32,
        }
    }
}
