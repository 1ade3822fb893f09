//! Bitmaps and measures made for tests.

use crate::random::Random;
use types::Measures;

/// Large sizes within the limits.
const LARGE: [(usize, usize); 12] = [
    (65_536, 1),
    (1, 65_536),
    (256, 256),
    (255, 257),
    (257, 255),
    (65_535, 1),
    (1, 65_535),
    (2, 32_768),
    (3, 21_845),
    (5, 13_000),
    (16, 4096),
    (1000, 65),
];

/// Sizes at which a bitmap raster makes the packet length reach 255, 256, 1,023 and 1,024.
const EXACT: [(usize, usize); 4] = [(76, 26), (62, 32), (116, 70), (127, 64)];

/// A size outside the limits, or one whose product would wrap.
const OUTSIDE: [(i64, i64); 16] = [
    (0, 1),
    (1, 0),
    (-1, -1),
    (-2, 3),
    (65_537, 1),
    (1, 65_537),
    (256, 257),
    (257, 256),
    (65_536, 65_536),
    (1 << 32, 1 << 32),
    (1 << 63, 1 << 63),
    (1 << 63, -1),
    (i64::MAX, i64::MAX),
    (i64::MAX, 2),
    (0, i64::MIN),
    (-256, -256),
];

/// A bitmap's size and pixels.
pub struct Bitmap {
    pub w: usize,
    pub h: usize,
    pub pixels: Vec<u8>,
}

/// The size of a bitmap: mostly small.
fn size(random: &mut Random) -> (usize, usize) {
    match random.below(400) {
        0 | 1 => random.pick(&LARGE),
        2..=4 => (random.within(100..=255), random.within(30..=200)),
        5..=20 => (random.within(20..=120), random.within(10..=90)),
        101..=104 => random.pick(&EXACT),
        105..=112 => (random.within(254..=257), random.within(1..=3)),
        113..=120 => (random.within(1..=3), random.within(254..=257)),
        121..=126 => (random.within(2..=4), random.within(200..=5000)),
        127..=132 => (random.within(500..=5000), random.within(1..=4)),
        21..=30 => (random.within(100..=300), 1),
        31..=40 => (1, random.within(100..=300)),
        41..=60 => (0, 0),
        61..=80 => (1, 1),
        81..=100 => (random.within(200..=600), random.within(1..=4)),
        _ => (random.within(1..=20), random.within(1..=14)),
    }
}

/// Any bitmap.
pub fn bitmap(random: &mut Random) -> Bitmap {
    let (w, h) = size(random);
    let mut pixels = match random.below(8) {
        0 => vec![0; w * h],
        1 => vec![1; w * h],
        2 => runs(random, w * h),
        3 => limit_runs(random, w * h),
        4 => stripes(random, w, h),
        _ => noise(random, w * h),
    };
    let kept = random.pick(&[1, 1, 2, 5, 50, 1_000_000]);
    for row in 1..h {
        if !random.one_in(kept) {
            pixels.copy_within((row - 1) * w..row * w, row * w);
        } else if random.one_in(9) {
            pixels[row * w..][..w].fill(row as u8 & 1);
        }
    }
    Bitmap { w, h, pixels }
}

/// Pixels each black with the same chance.
fn noise(random: &mut Random, area: usize) -> Vec<u8> {
    let (black, of) = random.pick(&[(1, 2), (1, 2), (1, 8), (7, 8), (1, 40), (1, 1000)]);
    (0..area)
        .map(|_| u8::from(random.below(of) < black))
        .collect()
}

/// Runs of changing colour.
fn runs(random: &mut Random, area: usize) -> Vec<u8> {
    let most = random.pick(&[2, 5, 14, 30, 100, 250, 1000, 9000]);
    let mut colour = random.byte() & 1;
    let mut pixels = Vec::with_capacity(area);
    while pixels.len() < area {
        let run = random.within(1..=most).min(area - pixels.len());
        pixels.resize(pixels.len() + run, colour);
        colour = 1 - colour;
    }
    pixels
}

/// Runs whose packed numbers are the last or first of their number of nybbles for one f.
fn limit_runs(random: &mut Random, area: usize) -> Vec<u8> {
    let f = random.below(14);
    let limit = 208 - 15 * f;
    let steps = [
        1,
        f.max(1),
        f + 1,
        limit,
        limit + 1,
        limit + 240,
        limit + 241,
    ];
    let far = [limit + 4080, limit + 4081, 65_535, 65_536];
    let mut colour = random.byte() & 1;
    let mut pixels = Vec::with_capacity(area);
    while pixels.len() < area {
        let run = if random.one_in(8) {
            random.pick(&far)
        } else {
            random.pick(&steps)
        };
        pixels.resize(area.min(pixels.len() + run), colour);
        colour = 1 - colour;
    }
    pixels
}

/// Stripes down, across or aslant.
fn stripes(random: &mut Random, w: usize, h: usize) -> Vec<u8> {
    let (a, b) = random.pick(&[(0, 1), (1, 0), (1, 1), (1, 3)]);
    let broad = random.within(1..=20);
    let stripe = |at: usize| (at % w * a + at / w * b) / broad;
    (0..w * h).map(|at| (stripe(at) % 2) as u8).collect()
}

/// Measures for a bitmap: most fields ordinary, some at a limit.
pub fn measures(random: &mut Random, bitmap: &Bitmap) -> Measures {
    let mut measures = Measures {
        code: i64::from(random.byte()),
        w: bitmap.w as i64,
        h: bitmap.h as i64,
        tfm: random.below(1 << 24) as i64,
        dx: i64::from(random.byte()) << 16,
        dy: 0,
        hoff: i64::from(random.byte() as i8),
        voff: i64::from(random.byte() as i8),
    };
    for _ in 0..random.pick(&[0, 0, 1, 1, 2, 3]) {
        set_measure(random, &mut measures);
    }
    measures
}

/// Sets one measure to a number at a limit.
fn set_measure(random: &mut Random, m: &mut Measures) {
    let edge = match random.below(3) {
        0 => random.within(0..=300) as i64 - 20,
        _ => random.edge(),
    };
    match random.below(13) {
        0 => m.code = edge,
        1 | 2 => m.tfm = edge,
        3 => m.dx = edge,
        4 | 5 => m.dx = edge.wrapping_mul(65_536),
        6 => m.dx = m.dx.wrapping_add(random.pick(&[-1, 1, 32_768])),
        7 => m.dy = edge,
        8 | 9 => m.hoff = edge,
        10 | 11 => m.voff = edge,
        _ => set_size(random, m, edge),
    }
}

/// Sets w, h or both to numbers that do not fit the bitmap or the limits.
fn set_size(random: &mut Random, m: &mut Measures, edge: i64) {
    match random.below(5) {
        0 => m.w = edge,
        1 => m.h = edge,
        2 => (m.w, m.h) = (m.h, m.w),
        _ => (m.w, m.h) = random.pick(&OUTSIDE),
    }
}

/// Makes a bitmap longer, shorter, or gives it a byte that is no pixel.
pub fn spoil(random: &mut Random, pixels: &mut Vec<u8>) {
    match random.below(4) {
        0 => pixels.push(random.byte() & 1),
        1 => drop(pixels.pop()),
        _ => {
            let last = pixels.len().saturating_sub(1);
            let at = random.pick(&[0, last, last / 2]);
            if let Some(pixel) = pixels.get_mut(at) {
                *pixel = random.byte() | 2 << random.below(7);
            }
        }
    }
}
