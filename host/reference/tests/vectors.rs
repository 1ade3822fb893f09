//! Runs the shared vectors: every answer must be the one that stands beside its call.

use reference::{check, draw, pack, Measures, Refusal};
use std::path::Path;

mod shared;

/// Takes the parts of a record from the front of a file.
struct Records(std::vec::IntoIter<u8>);

impl Records {
    /// Opens a file of records.
    fn open(path: &Path) -> Records {
        Records(std::fs::read(path).unwrap().into_iter())
    }

    /// Says whether a record follows.
    fn more(&self) -> bool {
        !self.0.as_slice().is_empty()
    }

    /// A number of four bytes.
    fn number(&mut self) -> usize {
        let bytes = self.bytes(4);
        u32::from_be_bytes(bytes.try_into().unwrap()) as usize
    }

    /// A signed number of eight bytes.
    fn signed(&mut self) -> i64 {
        let bytes = self.bytes(8);
        i64::from_be_bytes(bytes.try_into().unwrap())
    }

    /// The next `count` bytes.
    fn bytes(&mut self, count: usize) -> Vec<u8> {
        self.0.by_ref().take(count).collect()
    }

    /// A length and that many bytes.
    fn counted(&mut self) -> Vec<u8> {
        let count = self.number();
        self.bytes(count)
    }
}

/// The README's mark over bytes.
fn mark(bytes: &[u8]) -> u64 {
    bytes
        .iter()
        .fold(1, |mark, &byte| (mark * 257 + u64::from(byte)) % 65_521)
}

/// A line of an answer file, with the buffer's tail held to what it was.
fn line(answer: Result<(String, usize), Refusal>, buffer: &[u8]) -> String {
    let (text, written) = match answer {
        Ok((text, written)) => (format!("{text} {}", mark(&buffer[..written])), written),
        Err(refusal) => (refused(refusal), 0),
    };
    assert!(buffer[written..].iter().all(|&byte| byte == 0xAA));
    text
}

/// A refusal's line.
fn refused(refusal: Refusal) -> String {
    format!("refuse {} {}", refusal.number, refusal.place)
}

/// Runs the calls of one kind and compares line by line.
fn run(kind: &str, mut call: impl FnMut(&mut Records) -> String) {
    let Some(folder) = shared::folder("vectors") else {
        return;
    };
    let mut records = Records::open(&folder.join(format!("{kind}.bin")));
    let answers = std::fs::read_to_string(folder.join(format!("{kind}.out"))).unwrap();
    let mut calls = 0;
    for expected in answers.lines() {
        assert_eq!(call(&mut records), expected, "{kind} {calls}");
        calls += 1;
    }
    assert!(!records.more());
    eprintln!("{kind}: {calls} answers equal");
}

/// The vectors of checking.
#[test]
fn check_vectors() {
    run("check", |records| match check(&records.counted()) {
        Ok(chars) => format!("ok {chars}"),
        Err(refusal) => refused(refusal),
    });
}

/// The vectors of drawing.
#[test]
fn draw_vectors() {
    run("draw", |records| {
        let code = records.number() as u64;
        let mut pixels = vec![0xAA; records.number()];
        let answer = draw(&records.counted(), code, &mut pixels);
        let answer = answer.map(|m| (drawn(&m), (m.w * m.h) as usize));
        line(answer, &pixels)
    });
}

/// The measures in the order of an answer file.
fn drawn(m: &Measures) -> String {
    let [code, w, h, tfm] = [m.code, m.w, m.h, m.tfm];
    let [dx, dy, hoff, voff] = [m.dx, m.dy, m.hoff, m.voff];
    format!("ok {code} {w} {h} {tfm} {dx} {dy} {hoff} {voff}")
}

/// The vectors of packing.
#[test]
fn pack_vectors() {
    run("pack", |records| {
        let measures = Measures {
            code: records.signed(),
            w: records.signed(),
            h: records.signed(),
            tfm: records.signed(),
            dx: records.signed(),
            dy: records.signed(),
            hoff: records.signed(),
            voff: records.signed(),
        };
        let mut packet = vec![0xAA; records.number()];
        let answer = pack(&records.counted(), &measures, &mut packet);
        line(
            answer.map(|length| (format!("ok {length}"), length)),
            &packet,
        )
    });
}
