//! Damage to a font.

use crate::made::Made;
use crate::random::Random;

/// Damages a made font in one way; its lists of places are not kept up.
pub fn damage(random: &mut Random, made: &mut Made) {
    match random.below(10) {
        0..=3 => set_field(random, made),
        4 => set_piece(random, made),
        5 => move_piece(random, made),
        6 => spoil_ending(random, &mut made.bytes),
        _ => damage_bytes(random, &mut made.bytes),
    }
}

/// Damages any bytes: a few bits, a byte more, a byte less, or the end cut off.
pub fn damage_bytes(random: &mut Random, bytes: &mut Vec<u8>) {
    if bytes.is_empty() {
        return;
    }
    let at = random.below(bytes.len());
    match random.below(10) {
        0 => bytes.truncate(at),
        1 => drop(bytes.remove(at)),
        2 => bytes.insert(at, random.byte()),
        3 => bytes[at] = random.byte(),
        _ => {
            for _ in 0..random.within(1..=2) {
                let at = random.below(bytes.len());
                bytes[at] ^= 1 << random.below(8);
            }
        }
    }
}

/// Gives a field a number near its own, or one at a limit.
fn set_field(random: &mut Random, made: &mut Made) {
    let (at, length) = random.pick(&made.fields);
    let Some(field) = made.bytes.get_mut(at..at + length) else {
        return;
    };
    let old = field.iter().fold(0, |n, &b| n << 8 | i64::from(b));
    let few = random.pick(&[0, 1, 7, 8, 12, 13, 27, 28, 255, 256, 65_535, 65_536, 65_537]);
    let number = match random.below(4) {
        0 => old + random.pick(&[-1, 1, 1 << (8 * length - 1)]),
        1 => few,
        2 => -few,
        _ => random.edge(),
    };
    field.copy_from_slice(&number.to_be_bytes()[8 - length..]);
}

/// Begins a piece with another byte.
fn set_piece(random: &mut Random, made: &mut Made) {
    let at = random.pick(&made.pieces);
    let other = random.within(240..=255) as u8;
    let bit = 1 << random.below(8);
    if let Some(first) = made.bytes.get_mut(at) {
        *first = if random.one_in(2) {
            other
        } else {
            *first ^ bit
        };
    }
}

/// Sets a piece a second time, leaves it out, or leaves out all from it to the last one.
fn move_piece(random: &mut Random, made: &mut Made) {
    let which = random.below(made.pieces.len());
    let start = made.pieces[which];
    let last = made.pieces[made.pieces.len() - 1];
    let end = made
        .pieces
        .get(which + 1)
        .copied()
        .unwrap_or(made.bytes.len());
    if end > made.bytes.len() || last > made.bytes.len() || start > end {
        return;
    }
    let piece = made.bytes[start..end].to_vec();
    let to = random.pick(&made.pieces);
    match random.below(3) {
        0 => drop(made.bytes.splice(to..to, piece)),
        1 => drop(made.bytes.drain(start..end)),
        _ => drop(made.bytes.drain(start..last.max(start))),
    }
}

/// Makes the ending too short, too long, or other than it must be.
fn spoil_ending(random: &mut Random, bytes: &mut Vec<u8>) {
    match random.below(6) {
        0 => drop(bytes.pop()),
        1 => bytes.extend(vec![246; random.within(1..=4)]),
        2 => bytes.extend([random.byte(), 246, 246, 246]),
        3 => bytes.extend([245, 246, 246, 246]),
        4 => {
            while bytes.last().is_some_and(|&byte| byte >= 245) {
                bytes.pop();
            }
        }
        _ => {
            if let Some(last) = bytes.last_mut() {
                *last = random.byte();
            }
        }
    }
}
