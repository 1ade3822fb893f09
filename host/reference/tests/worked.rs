//! 01's worked examples and traps.

use reference::{check, draw, pack, Measures, Refusal};

/// The preamble of 01's listing example.
const PREAMBLE: [u8; 19] = [
    0xF7, 0x59, 0x00, 0x00, 0xA0, 0x00, 0x00, 0x00, 0x00, 0x04, 0xD2, 0x00, 0x04, 0x26, 0xAE, 0x00,
    0x04, 0x26, 0xAE,
];

/// The packet of source document 000's letter.
const LETTER: [u8; 29] = [
    0x88, 0x1A, 0x04, 0x09, 0xC7, 0x1C, 0x19, 0x14, 0x1D, 0xFE, 0x1C, 0xD9, 0xE2, 0x97, 0x2B, 0x1E,
    0x22, 0x93, 0x24, 0xE3, 0x97, 0x4E, 0x22, 0x93, 0x2C, 0x5E, 0x22, 0x97, 0xD9,
];

/// A font of the given packets.
fn font(packets: &[&[u8]]) -> Vec<u8> {
    let mut font = [&PREAMBLE, packets.concat().as_slice(), &[245]].concat();
    font.resize(font.len().next_multiple_of(4), 246);
    font
}

/// A short packet of code 7 with a raster.
fn short(flag: u8, w: u8, h: u8, raster: &[u8]) -> Vec<u8> {
    let fixed = [flag, 8 + raster.len() as u8, 7, 0, 0, 1, 2, w, h, 0, 0];
    [&fixed, raster].concat()
}

/// What drawing a short packet gives: its pixels or the number of the refusal.
fn pixels(flag: u8, w: u8, h: u8, raster: &[u8]) -> Result<Vec<u8>, u32> {
    let mut pixels = vec![9; usize::from(w) * usize::from(h)];
    let font = font(&[&short(flag, w, h, raster)]);
    match draw(&font, 7, &mut pixels) {
        Ok(_) => Ok(pixels),
        Err(Refusal { number, place }) => {
            assert_eq!(place, 19);
            assert!(pixels.iter().all(|&pixel| pixel == 9));
            Err(number)
        }
    }
}

/// The packet of a bitmap whose other measures are small.
fn packed(w: i64, h: i64, bitmap: &[u8]) -> Vec<u8> {
    let measures = Measures {
        code: 7,
        w,
        h,
        ..Measures::default()
    };
    let mut packet = vec![9; 70_000];
    let length = pack(bitmap, &measures, &mut packet).unwrap();
    assert!(packet[length..].iter().all(|&byte| byte == 9));
    packet.truncate(length);
    packet
}

/// A run of `number` pixels read at this f in a bitmap of one row.
fn reads(f: u8, number: u16, raster: &[u8]) -> bool {
    let [high, low] = number.to_be_bytes();
    let fixed = [f << 4 | 12, 0, 13 + raster.len() as u8, 7, 0, 0, 1];
    let sizes = [0, 2, high, low, 0, 1, 0, 0, 0, 0];
    check(&font(&[&[&fixed[..], &sizes, raster].concat()])) == Ok(1)
}

/// 01's packed numbers.
#[test]
fn packed_numbers() {
    assert!(reads(8, 8, &[0x80]));
    assert!(reads(8, 82, &[0xD9]));
    assert!(reads(8, 88, &[0xDF]));
    assert!(reads(8, 89, &[0x01, 0x00]));
    assert!(reads(13, 13, &[0xD0]));
    assert!(reads(13, 14, &[0x01, 0x00]));
    assert!(reads(0, 1, &[0x10]));
    assert!(reads(0, 208, &[0xDF]));
    assert!(reads(0, 209, &[0x01, 0x00]));
}

/// The all-white bitmap of 256 × 256.
#[test]
fn all_white() {
    let packet = packed(256, 256, &[0; 65_536]);
    assert_eq!(packet[0], 0xC4);
    assert_eq!(packet[17..], [0x00, 0x0F, 0xFF, 0x30]);
}

/// The letter of source document 000, drawn and packed.
#[test]
fn the_letter() {
    let mut pixels = [9; 600];
    let font = font(&[&LETTER]);
    let measures = draw(&font, 4, &mut pixels).unwrap();
    let expected = Measures {
        code: 4,
        w: 20,
        h: 29,
        tfm: 640_796,
        dx: 1_638_400,
        dy: 0,
        hoff: -2,
        voff: 28,
    };
    assert_eq!((font.len(), measures), (52, expected));
    assert!(pixels[580..].iter().all(|&pixel| pixel == 9));
    let mut packet = [9; 29];
    assert_eq!(pack(&pixels[..580], &measures, &mut packet), Ok(29));
    assert_eq!(packet, LETTER);
}

/// One black pixel.
#[test]
fn one_black_pixel() {
    let packet = packed(1, 1, &[1]);
    assert_eq!((packet[0], &packet[11..]), (0xD8, &[0x10][..]));
}

/// Rows 10 and 10, as bits and as a repeat.
#[test]
fn two_equal_rows() {
    let packet = packed(2, 2, &[1, 0, 1, 0]);
    assert_eq!((packet[0], &packet[11..]), (0xE0, &[0xA0][..]));
    assert_eq!(pixels(0xD8, 2, 2, &[0xF1, 0x10]), Ok(vec![1, 0, 1, 0]));
}

/// The rasters of w = h = 2 and their refusals.
#[test]
fn two_by_two() {
    assert_eq!(pixels(0xD8, 2, 2, &[0x40]), Ok(vec![1; 4]));
    assert_eq!(pixels(0xD8, 2, 2, &[0x41]), Err(13));
    assert_eq!(pixels(0xD8, 2, 2, &[0xFF, 0x11]), Err(12));
    assert_eq!(pixels(0xD8, 2, 2, &[0x55]), Err(11));
    assert_eq!(pixels(0xD8, 2, 2, &[0xE3, 0x11]), Err(11));
    assert_eq!(pixels(0xD8, 2, 2, &[0x00]), Err(10));
}

/// Extended dm 65,535 and hoff FF FE.
#[test]
fn extended_fields() {
    let fixed = [0xE4, 0, 13, 7, 0, 0, 1, 255, 255, 0, 0, 0, 0];
    let offsets = [0xFF, 0xFE, 0x00, 0x05];
    let measures = draw(&font(&[&[&fixed[..], &offsets].concat()]), 7, &mut []).unwrap();
    assert_eq!(measures.dx, 4_294_901_760);
    assert_eq!((measures.hoff, measures.voff), (-2, 5));
}

/// Packets that do not stand in order of code.
#[test]
fn packets_in_any_order() {
    let first = short(0xD8, 1, 1, &[0x10]);
    let font = font(&[&first, &LETTER, &[0xE0, 8, 200, 0, 0, 0, 0, 0, 0, 0, 0]]);
    assert_eq!(check(&font), Ok(3));
    for code in [4, 7, 200] {
        assert_eq!(draw(&font, code, &mut [0; 580]).unwrap().code, code as i64);
    }
    let absent = draw(&font, 256 + 4, &mut [0; 580]);
    assert_eq!(
        absent,
        Err(Refusal {
            number: 16,
            place: 0
        })
    );
}

/// A run that crosses out of a row with a repeat.
#[test]
fn a_repeat_stays_with_its_row() {
    let rows = vec![0, 1, 0, 1, 1, 1, 1, 0];
    assert_eq!(pixels(0xD0, 2, 4, &[0x1F, 0x41]), Ok(rows));
    assert_eq!(pixels(0xD0, 2, 4, &[0x1F, 0x60]), Err(11));
}

/// Numbers that no machine word holds.
#[test]
fn hostile_numbers() {
    let mut raster = vec![0; 100];
    raster.extend([0xFF; 100]);
    assert_eq!(pixels(0xD0, 2, 2, &raster), Err(10));
    raster.push(0xFF);
    assert_eq!(pixels(0xD0, 2, 2, &raster), Err(11));
    let (least, most) = (i64::MIN, i64::MAX);
    for (w, h) in [
        (most, most),
        (least, least),
        (least, -1),
        (1 << 32, 1 << 32),
        (0, 1),
    ] {
        let measures = Measures {
            w,
            h,
            ..Measures::default()
        };
        let refused = Refusal {
            number: 18,
            place: 0,
        };
        assert_eq!(pack(&[0], &measures, &mut []), Err(refused));
    }
}
