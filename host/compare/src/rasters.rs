//! Rasters made for tests: legal ones, and ones with a fault.

use crate::random::Random;

/// A raster with the flag's bits that tell how to read it.
pub struct Raster {
    pub f: u8,
    pub black: bool,
    pub bytes: Vec<u8>,
}

/// An item of a raster as it is written: a repeat of 1 has two ways.
#[derive(Clone, Copy)]
enum Item {
    Run(u128),
    Repeat(u128),
    RepeatOnce,
}

/// A legal raster for w × h pixels.
pub fn legal(random: &mut Random, w: usize, h: usize) -> Raster {
    let f = random.within(0..=16).min(14) as u8;
    let black = random.one_in(2);
    let bytes = match f {
        14 => bits(random, w * h),
        _ => to_bytes(&nybbles(&items(random, w, h), f)),
    };
    Raster { f, black, bytes }
}

/// A raster that mostly has a fault.
pub fn hostile(random: &mut Random, w: usize, h: usize) -> Raster {
    let mut raster = legal(random, w, h);
    match random.below(4) {
        0 => spoil_bytes(random, &mut raster.bytes),
        _ if raster.f == 14 => spoil_bits(random, &mut raster.bytes, w * h),
        1 => spoil_items(random, &mut raster, w, h),
        _ => spoil_nybbles(random, &mut raster.bytes),
    }
    raster
}

/// The bytes of a legal bitmap raster.
fn bits(random: &mut Random, area: usize) -> Vec<u8> {
    let mut bytes: Vec<u8> = (0..area.div_ceil(8)).map(|_| random.byte()).collect();
    if let Some(last) = bytes.last_mut() {
        *last &= 0xFF << spare_bits(area);
    }
    bytes
}

/// The bits of the last byte of a bitmap raster that are no pixels.
fn spare_bits(area: usize) -> usize {
    area.next_multiple_of(8) - area
}

/// Legal items that fill w × h pixels.
fn items(random: &mut Random, w: usize, h: usize) -> Vec<Item> {
    let mut items = Vec::new();
    let most = random.pick(&[1, 3, 12, 40, 300]) + w * h / 60;
    let (mut row, mut column, mut repeat) = (0, 0, 0);
    while row < h {
        let rows_after = h - row - 1;
        if repeat == 0 && rows_after > 0 && random.one_in(4) {
            let any = random.within(1..=rows_after);
            repeat = random.pick(&[1, 1, 2, any, rows_after]).min(rows_after);
            items.push(repeat_of(random, repeat));
        }
        let row_rest = w - column;
        let rows_free = rows_after - repeat;
        let left = row_rest + w * rows_free;
        let run = match random.below(12) {
            0 => row_rest,
            1 => left,
            2 => row_rest + w * random.within(0..=rows_free),
            3 => at_limit(random).min(left),
            _ => random.within(1..=most.min(left)),
        };
        items.push(Item::Run(run as u128));
        if run < row_rest {
            column += run;
        } else {
            row += 1 + repeat + (run - row_rest) / w;
            column = (run - row_rest) % w;
            repeat = 0;
        }
    }
    items
}

/// A number that is the last or first of its number of nybbles for some f.
fn at_limit(random: &mut Random) -> usize {
    let limit = 208 - 15 * random.below(14);
    limit + random.pick(&[0, 1, 240, 241, 4080, 4081])
}

/// A repeat, in either way if it is 1.
fn repeat_of(random: &mut Random, repeat: usize) -> Item {
    if repeat == 1 && !random.one_in(4) {
        Item::RepeatOnce
    } else {
        Item::Repeat(repeat as u128)
    }
}

/// The nybbles of items.
fn nybbles(items: &[Item], f: u8) -> Vec<u8> {
    let mut nybbles = Vec::new();
    for &item in items {
        match item {
            Item::Run(run) => number(&mut nybbles, run, f),
            Item::RepeatOnce => nybbles.push(15),
            Item::Repeat(repeat) => {
                nybbles.push(14);
                number(&mut nybbles, repeat, f);
            }
        }
    }
    nybbles
}

/// Adds the nybbles of a packed number.
fn number(nybbles: &mut Vec<u8>, number: u128, f: u8) {
    let one = u128::from(f);
    let two = (13 - one) * 16 + one;
    if number <= one {
        nybbles.push(number as u8);
    } else if number <= two {
        let above = number - one - 1;
        nybbles.extend([(one + 1 + above / 16) as u8, (above % 16) as u8]);
    } else {
        let digits = format!("{:x}", number - two + 15);
        nybbles.extend(vec![0; digits.len() - 1]);
        nybbles.extend(
            digits
                .chars()
                .map(|digit| digit.to_digit(16).unwrap() as u8),
        );
    }
}

/// Nybbles as bytes, with a zero half byte at the end if it is needed.
fn to_bytes(nybbles: &[u8]) -> Vec<u8> {
    let pair = |pair: &[u8]| pair[0] << 4 | pair.get(1).unwrap_or(&0);
    nybbles.chunks(2).map(pair).collect()
}

/// Makes an item wrong and writes the raster anew.
fn spoil_items(random: &mut Random, raster: &mut Raster, w: usize, h: usize) {
    let mut items = items(random, w, h);
    let at = random.below(items.len() + 1);
    let any = u128::from(random.edge().unsigned_abs() | 1);
    let wrong = match random.below(5) {
        0 => Item::RepeatOnce,
        1 => Item::Repeat(random.pick(&[1, 2, h.max(1) as u128, any])),
        2 => Item::Run((w * h) as u128 + 1),
        3 => Item::Run(any),
        _ => Item::Run(1),
    };
    match items.get_mut(at) {
        Some(Item::Run(run) | Item::Repeat(run)) if random.one_in(2) => {
            *run += 1 << random.pick(&[0, 0, 0, 16, 31, 32, 63, 64, 120]);
        }
        Some(item) if random.one_in(2) => *item = wrong,
        _ => items.insert(at, wrong),
    }
    raster.bytes = to_bytes(&nybbles(&items, raster.f));
}

/// Changes the nybbles: zeros by the hundred, marks, a nybble more or less.
fn spoil_nybbles(random: &mut Random, bytes: &mut Vec<u8>) {
    let mut nybbles: Vec<u8> = bytes.iter().flat_map(|b| [b >> 4, b & 15]).collect();
    let at = random.below(nybbles.len() + 1);
    match random.below(7) {
        0 => drop(nybbles.splice(at..at, [14])),
        1 => drop(nybbles.splice(at..at, [15])),
        2 => drop(nybbles.splice(at..at, [random.byte() & 15])),
        3 => nybbles.truncate(at),
        4 => nybbles.push(random.byte() & 15),
        _ => {
            let zeros = many(random);
            let digits = random.pick(&[zeros, zeros + 1, zeros + 1, zeros / 2]);
            let digits: Vec<u8> = (0..digits).map(|_| random.byte() & 15).collect();
            nybbles.splice(at..at, digits);
            nybbles.splice(at..at, vec![0; zeros]);
        }
    }
    *bytes = to_bytes(&nybbles);
}

/// A count that is now and then very great.
fn many(random: &mut Random) -> usize {
    match random.below(200) {
        0 => random.within(1000..=60_000),
        1..=9 => random.within(20..=400),
        _ => random.within(1..=20),
    }
}

/// Changes the bytes: one more, one less, or one other.
fn spoil_bytes(random: &mut Random, bytes: &mut Vec<u8>) {
    match random.below(4) {
        0 => bytes.push(random.byte()),
        1 => bytes.push(0),
        2 => drop(bytes.pop()),
        _ if bytes.is_empty() => bytes.push(random.byte()),
        _ => {
            let at = random.below(bytes.len());
            bytes[at] = random.byte();
        }
    }
}

/// Sets a spare bit of a bitmap raster, or changes its bytes if it has none.
fn spoil_bits(random: &mut Random, bytes: &mut Vec<u8>, area: usize) {
    match bytes.last_mut() {
        Some(last) if spare_bits(area) > 0 => *last |= 1 << random.below(spare_bits(area)),
        _ => spoil_bytes(random, bytes),
    }
}
