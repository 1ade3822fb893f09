//! Fonts made for tests.

use crate::random::Random;
use crate::rasters::{hostile, legal, Raster};

/// A font: its bytes, the places of its pieces and of its fields, and its characters.
#[derive(Clone, Default)]
pub struct Made {
    pub bytes: Vec<u8>,
    pub pieces: Vec<usize>,
    /// Place and length of each number, and of each piece's first byte.
    pub fields: Vec<(usize, usize)>,
    /// Code and number of pixels of each packet.
    pub characters: Vec<(u8, usize)>,
}

/// Sizes at 01's limits.
const LARGE: [(usize, usize); 12] = [
    (65_536, 1),
    (1, 65_536),
    (256, 256),
    (65_535, 1),
    (1, 65_535),
    (32_768, 2),
    (2, 32_768),
    (255, 257),
    (257, 255),
    (3, 21_845),
    (21_845, 3),
    (655, 100),
];

/// A legal font of a few packets, or one whose rasters may have faults.
pub fn font(random: &mut Random, with_faults: bool) -> Made {
    let packets = match random.below(300) {
        0 => 256,
        1..=20 => random.within(8..=30),
        _ => random.within(1..=4),
    };
    let mut made = Made::preamble(random);
    let (start, step) = (random.byte(), random.byte() | 1);
    for i in 0..packets {
        made.commands(random);
        let code = (i as u8).wrapping_mul(step).wrapping_add(start);
        let (w, h) = if packets > 30 {
            (1, i % 3 + 1)
        } else {
            size(random)
        };
        let raster = match with_faults && random.one_in(2) {
            true => hostile(random, w, h),
            false => legal(random, w, h),
        };
        made.packet(random, code, (w, h), &raster);
    }
    made.commands(random);
    made.ending(random);
    made
}

/// A legal font of few bytes.
pub fn small_font(random: &mut Random) -> Made {
    let mut made = Made::preamble(random);
    for code in 0..random.within(1..=2) {
        made.commands(random);
        let (w, h) = (random.within(1..=5), random.within(1..=4));
        let raster = legal(random, w, h);
        made.packet(random, 11 + code as u8, (w, h), &raster);
    }
    made.ending(random);
    made
}

/// A legal font of exactly `length` bytes, most of them in a command; `length` is a multiple of four.
pub fn font_of_length(random: &mut Random, length: usize) -> Made {
    let mut made = Made::preamble(random);
    let raster = legal(random, 3, 2);
    made.packet(random, 65, (3, 2), &raster);
    let body = length - made.bytes.len() - 5 - 1;
    made.piece(243);
    made.field(body as i64, 4);
    made.bytes.resize(length - 1, random.byte());
    made.piece(245);
    made
}

/// A font of one packet that is already written.
pub fn font_around(random: &mut Random, packet: &[u8]) -> Made {
    let mut made = Made::preamble(random);
    made.bytes.extend(packet);
    made.ending(random);
    made
}

/// The size of a character: mostly small, now and then blank or at a limit.
fn size(random: &mut Random) -> (usize, usize) {
    match random.below(300) {
        0 | 1 => random.pick(&LARGE),
        2..=5 => (random.within(1..=120), random.within(1..=90)),
        6..=25 => (0, 0),
        26..=60 => (random.within(1..=300), random.within(1..=3)),
        61..=80 => (random.within(1..=2), random.within(1..=300)),
        _ => (random.within(1..=12), random.within(1..=9)),
    }
}

impl Made {
    /// Begins a font.
    fn preamble(random: &mut Random) -> Made {
        let mut made = Made::default();
        made.piece(247);
        made.field(89, 1);
        let comment = match random.below(30) {
            0 => 255,
            1..=9 => random.within(1..=20),
            _ => 0,
        };
        made.field(comment as i64, 1);
        made.bytes.extend((0..comment).map(|_| random.byte()));
        for _ in 0..4 {
            made.field(random.next() as i64, 4);
        }
        made
    }

    /// Begins a piece with its first byte.
    fn piece(&mut self, first: u8) {
        self.pieces.push(self.bytes.len());
        self.field(i64::from(first), 1);
    }

    /// Adds a number of some bytes.
    fn field(&mut self, number: i64, bytes: usize) {
        self.fields.push((self.bytes.len(), bytes));
        self.bytes.extend(&number.to_be_bytes()[8 - bytes..]);
    }

    /// Adds no, one or some commands.
    fn commands(&mut self, random: &mut Random) {
        while random.one_in(3) {
            let first = random.within(240..=246) as u8;
            match first {
                240..=243 => self.special(random, first),
                244 => {
                    self.piece(244);
                    self.field(random.next() as i64, 4);
                }
                _ => self.piece(246),
            }
        }
    }

    /// Adds a command with a length.
    fn special(&mut self, random: &mut Random, first: u8) {
        let body = match random.below(40) {
            0 if first > 240 => random.within(256..=700),
            _ => random.below(9),
        };
        self.piece(first);
        self.field(body as i64, usize::from(first - 239));
        self.bytes.extend((0..body).map(|_| random.byte()));
    }

    /// Adds a packet in one of the forms that hold it.
    fn packet(&mut self, random: &mut Random, code: u8, size: (usize, usize), raster: &Raster) {
        let (w, h) = (size.0 as i64, size.1 as i64);
        let length = raster.bytes.len() as i64;
        let kind = raster.f << 4 | u8::from(raster.black) << 3;
        let short = w < 256 && h < 256 && 8 + length < 1024;
        let extended = w < 65_536 && h < 65_536 && 13 + length < 65_536;
        let [tfm, dx, dy, hoff, voff] = [(); 5].map(|()| random.edge());
        match random.below(5) {
            0..=2 if short => {
                self.piece(kind + ((8 + length) >> 8) as u8);
                self.fields_of(1, 8 + length, code, tfm, [dx, w, h, hoff, voff]);
            }
            0..=3 if extended => {
                self.piece(kind + 4);
                self.fields_of(2, 13 + length, code, tfm, [dx, w, h, hoff, voff]);
            }
            _ => {
                self.piece(kind + 7);
                for number in [28 + length, code.into(), tfm, dx, dy, w, h, hoff, voff] {
                    self.field(number, 4);
                }
            }
        }
        self.bytes.extend(&raster.bytes);
        self.characters.push((code, size.0 * size.1));
    }

    /// Adds the fixed fields of a short packet (1 byte to a field) or of an extended one (2 bytes).
    fn fields_of(&mut self, bytes: usize, length: i64, code: u8, tfm: i64, others: [i64; 5]) {
        self.field(length, bytes);
        self.field(code.into(), 1);
        self.field(tfm, 3);
        for number in others {
            self.field(number, bytes);
        }
    }

    /// Ends the font.
    fn ending(&mut self, random: &mut Random) {
        self.piece(245);
        let more = 4 * random.below(3);
        let length = self.bytes.len().next_multiple_of(4) + more;
        self.bytes.resize(length, 246);
    }
}
