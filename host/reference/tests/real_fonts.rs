//! Real fonts against what other programs say of them: PKtype's measures, and gftopk's packets.

use reference::{check, draw, pack, Measures};
use std::path::Path;

mod shared;

/// What PKtype prints of a packet.
#[derive(Default)]
struct Described {
    place: usize,
    length: usize,
    measures: Measures,
}

/// The numbers of a line.
fn numbers(line: &str) -> Vec<i64> {
    line.split_whitespace()
        .filter_map(|word| word.parse().ok())
        .collect()
}

/// Reads PKtype's text.
fn described(text: &str) -> Vec<Described> {
    let mut packets: Vec<Described> = Vec::new();
    for line in text.lines() {
        let numbers = numbers(line);
        if line.contains("Flag byte = ") {
            let place = line.split(':').next().unwrap().parse().unwrap();
            let mut packet = Described {
                place,
                length: numbers[2] as usize,
                ..Described::default()
            };
            packet.measures.code = numbers[1];
            packets.push(packet);
        }
        let Some(packet) = packets.last_mut() else {
            continue;
        };
        let m = &mut packet.measures;
        if line.starts_with("  TFM width = ") {
            (m.tfm, m.dx) = (numbers[0], numbers[1]);
            m.dy = numbers.get(2).copied().unwrap_or(0);
        } else if line.starts_with("  Height = ") {
            (m.h, m.w, m.hoff, m.voff) = (numbers[0], numbers[1], numbers[2], numbers[3]);
        }
    }
    packets
}

/// A packet as 01 wants it: gftopk leaves the black bit of some bitmap rasters set.
fn without_black_bit(packet: &[u8]) -> Vec<u8> {
    let mut packet = packet.to_vec();
    if packet[0] / 16 == 14 {
        packet[0] &= !8;
    }
    packet
}

/// Compares one font and answers with its number of characters; none if it is refused.
fn compare(path: &Path) -> usize {
    let font = std::fs::read(path).unwrap();
    let Ok(chars) = check(&font) else { return 0 };
    let text = std::fs::read(path.with_extension("pktype.txt")).unwrap();
    let packets = described(&String::from_utf8_lossy(&text));
    assert_eq!(packets.len(), chars as usize);
    let made_by_gftopk = !path.to_string_lossy().contains("ps2pk");
    let (mut pixels, mut packed) = (vec![0; 65_536], vec![0; 65_536]);
    for packet in &packets {
        let m = draw(&font, packet.measures.code as u64, &mut pixels).unwrap();
        assert_eq!(m, packet.measures);
        let length = pack(&pixels[..(m.w * m.h) as usize], &m, &mut packed).unwrap();
        let theirs = without_black_bit(&font[packet.place..][..packet.length]);
        assert!(
            !made_by_gftopk || packed[..length] == theirs,
            "{path:?} {m:?}"
        );
    }
    packets.len()
}

/// All real fonts.
#[test]
fn real_fonts() {
    let Some(folder) = shared::folder("fonts") else {
        return;
    };
    let paths = std::fs::read_dir(folder)
        .unwrap()
        .map(|entry| entry.unwrap().path());
    let fonts = paths.filter(|path| path.extension().is_some_and(|e| e == "pk"));
    let characters: usize = fonts.map(|path| compare(&path)).sum();
    eprintln!("{characters} characters of real fonts alike");
}
