//! The cut of a font into pieces (01, Pieces of a file).

use crate::fault::Fault;
use crate::fields::Fields;
use crate::limits::MOST;
use crate::packet::Packet;
use crate::raster;
use types::Refusal;

const PREAMBLE: u8 = 247;
const IDENTIFICATION: u8 = 89;
const ENDING: u8 = 245;
const NO_OP: u8 = 246;

/// Reads the whole font, shows each packet to `visit`, and answers with the number of characters.
pub fn read<'a>(font: &'a [u8], mut visit: impl FnMut(Packet<'a>)) -> Result<u32, Refusal> {
    let mut at = preamble(font).map_err(|fault| fault.at(0))?;
    let mut seen = [false; 256];
    let mut chars = 0;
    loop {
        let piece = &font[at..];
        let first = *piece.first().ok_or(Fault::FileEnds.at(at))?;
        let length = match first {
            0..=239 => packet(piece, &mut seen).map(|packet| {
                chars += 1;
                visit(packet);
                packet.length
            }),
            240..=244 => command(piece),
            NO_OP => Ok(1),
            ENDING => return ending(font, at, chars),
            247..=255 => Err(Fault::NoPiece),
        };
        at += length.map_err(|fault| fault.at(at))?;
    }
}

/// The length of the preamble.
fn preamble(font: &[u8]) -> Result<usize, Fault> {
    if font.len() > MOST {
        return Err(Fault::FontTooLong);
    }
    if font.first() != Some(&PREAMBLE) {
        return Err(Fault::NoPreamble);
    }
    if font.get(1).is_some_and(|&byte| byte != IDENTIFICATION) {
        return Err(Fault::WrongIdentification);
    }
    let comment = *font.get(2).ok_or(Fault::FileEnds)?;
    let length = 3 + usize::from(comment) + 16;
    font.get(..length).ok_or(Fault::FileEnds)?;
    Ok(length)
}

/// The length of a command that has a body.
fn command(piece: &[u8]) -> Result<usize, Fault> {
    let mut fields = Fields::new(&piece[1..]);
    let body = match piece[0] {
        240 => fields.unsigned::<1>(),
        241 => fields.unsigned::<2>(),
        242 => fields.unsigned::<3>(),
        243 => fields.signed::<4>(),
        _ => Some(4),
    };
    let body = usize::try_from(body.ok_or(Fault::FileEnds)?).map_err(|_| Fault::BadLength)?;
    fields.bytes(body).ok_or(Fault::FileEnds)?;
    Ok(piece.len() - fields.left())
}

/// The packet that begins a part of the font, with its raster judged and its code marked as seen.
fn packet<'a>(piece: &'a [u8], seen: &mut [bool; 256]) -> Result<Packet<'a>, Fault> {
    let packet = Packet::read(piece)?;
    let seen = &mut seen[packet.measures.code as usize];
    if std::mem::replace(seen, true) {
        return Err(Fault::CodeTwice);
    }
    raster::judge(&packet)?;
    Ok(packet)
}

/// Judges the ending that stands at `at` and answers with the number of characters.
fn ending(font: &[u8], at: usize, chars: u32) -> Result<u32, Refusal> {
    let padded = font[at + 1..].iter().all(|&byte| byte == NO_OP);
    if chars == 0 {
        Err(Fault::NoPacket.at(at))
    } else if !padded || !font.len().is_multiple_of(4) {
        Err(Fault::BadEnding.at(at))
    } else {
        Ok(chars)
    }
}
