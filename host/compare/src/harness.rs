//! One call made to both implementations, and everything that can be seen of it compared.

use crate::tally::{Kind, Tally};
use types::{Measures, Refusal};
use zahrufin::{Checked, Drawn, Packed};

/// The bytes before and after a lent buffer that no call may touch.
const GUARD: usize = 64;
/// The most bytes of an input that are printed.
const PRINTED: usize = 4096;

/// Bytes lent for reading, and bytes that stand after them in memory, which no call may read.
#[derive(Clone, Copy)]
pub struct Lent<'a> {
    pub bytes: &'a [u8],
    pub after: &'a [u8],
}

impl<'a> From<&'a [u8]> for Lent<'a> {
    /// Lends all of these bytes; an ending and pixels stand after them.
    fn from(bytes: &'a [u8]) -> Self {
        Lent {
            bytes,
            after: &[1, 0, 1, 245, 246, 246, 246, 246],
        }
    }
}

/// The buffers of both, the tally, and where the run stands.
pub struct Harness {
    pub tally: Tally,
    pub seed: u64,
    pub case: u64,
    input: Vec<u8>,
    ours: Vec<u8>,
    reference: Vec<u8>,
    /// The byte that filled the buffers before the last call; never a pixel.
    filling: u8,
    /// Each lent block stands alone in memory, with nothing before or after it, for valgrind to watch.
    exact: bool,
}

impl Harness {
    /// A harness that has made no calls.
    pub fn new(seed: u64) -> Self {
        Harness {
            tally: Tally::default(),
            seed,
            case: 0,
            input: Vec::new(),
            ours: Vec::new(),
            reference: Vec::new(),
            filling: 2,
            exact: std::env::var_os("ZAHRUFIN_EXACT").is_some(),
        }
    }

    /// The bytes before and after a lent buffer.
    fn guard(&self) -> usize {
        if self.exact {
            0
        } else {
            GUARD
        }
    }

    /// Begins a case; what follows depends on its number alone.
    pub fn begin(&mut self, case: u64) {
        self.case = case;
        self.filling = case as u8 | 2;
    }

    /// Compares a check.
    pub fn check(&mut self, font: Lent) -> Result<u32, Refusal> {
        self.lend(font, 0);
        let ours = zahrufin::checked(&self.input[..font.bytes.len()]);
        let answer = reference::check(font.bytes);
        let expected = match answer {
            Ok(chars) => Checked {
                chars,
                ..Checked::default()
            },
            Err(Refusal { number, place }) => Checked {
                refusal: number,
                place,
                chars: 0,
            },
        };
        let call = || format!("check {}", shown(font.bytes));
        self.compare(ours, expected, font, 0, call);
        self.tally.count(Kind::Check, expected.refusal);
        answer
    }

    /// Compares a drawing into a buffer of `room` bytes and answers with the pixels too.
    pub fn draw(
        &mut self,
        font: Lent,
        code: u64,
        room: usize,
    ) -> Result<(Measures, &[u8]), Refusal> {
        self.lend(font, room);
        let guard = self.guard();
        let lent = guard..guard + room;
        let input = &self.input[..font.bytes.len()];
        let ours = zahrufin::drawn(input, code, &mut self.ours[lent.clone()]);
        let answer = reference::draw(font.bytes, code, &mut self.reference[lent]);
        let (expected, written) = match answer {
            Ok(measures) => (
                Drawn {
                    measures,
                    ..Drawn::default()
                },
                (measures.w * measures.h) as usize,
            ),
            Err(Refusal { number, place }) => (
                Drawn {
                    refusal: number,
                    place,
                    ..Drawn::default()
                },
                0,
            ),
        };
        let call = || format!("draw code {code} room {room} {}", shown(font.bytes));
        self.compare(ours, expected, font, written, call);
        self.tally.count(Kind::Draw, expected.refusal);
        answer.map(|measures| (measures, &self.reference[guard..guard + written]))
    }

    /// Compares a packing into a buffer of `room` bytes and answers with the packet.
    pub fn pack(
        &mut self,
        bitmap: Lent,
        measures: &Measures,
        room: usize,
    ) -> Result<&[u8], Refusal> {
        self.lend(bitmap, room);
        let guard = self.guard();
        let lent = guard..guard + room;
        let input = &self.input[..bitmap.bytes.len()];
        let ours = zahrufin::packed(input, measures, &mut self.ours[lent.clone()]);
        let answer = reference::pack(bitmap.bytes, measures, &mut self.reference[lent]);
        let (expected, written) = match answer {
            Ok(length) => (
                Packed {
                    length: length as u32,
                    ..Packed::default()
                },
                length,
            ),
            Err(Refusal { number, place }) => (
                Packed {
                    refusal: number,
                    place,
                    length: 0,
                },
                0,
            ),
        };
        let call = || format!("pack {measures:?} room {room} {}", shown(bitmap.bytes));
        self.compare(ours, expected, bitmap, written, call);
        self.tally.count(Kind::Pack, expected.refusal);
        if written > 0 {
            self.tally.packet(self.reference[guard]);
        }
        answer.map(|length| &self.reference[guard..guard + length])
    }

    /// Copies the input, with what stands after it, and fills the buffers of both.
    fn lend(&mut self, input: Lent, room: usize) {
        self.filling = self.filling.checked_add(1).unwrap_or(2);
        if self.exact {
            self.input = input.bytes.to_vec();
            self.ours = vec![self.filling; room];
            self.reference = vec![self.filling; room];
            return;
        }
        self.input.clear();
        self.input.extend(input.bytes);
        self.input.extend(input.after);
        for buffer in [&mut self.ours, &mut self.reference] {
            buffer.clear();
            buffer.resize(GUARD + room + GUARD, self.filling);
        }
    }

    /// Ends the program if answers or buffers differ, or if a byte was touched that must stay.
    fn compare<A: PartialEq + std::fmt::Debug>(
        &self,
        ours: A,
        expected: A,
        input: Lent,
        written: usize,
        call: impl Fn() -> String,
    ) {
        let guard = self.guard();
        let stays = |part: &[u8]| part.iter().all(|&byte| byte == self.filling);
        let after = if self.exact { &[] } else { input.after };
        let what = if ours != expected {
            "the answers differ"
        } else if self.ours != self.reference {
            "the buffers differ"
        } else if !stays(&self.ours[..guard]) || !stays(&self.ours[guard + written..]) {
            "a byte was written that must stay"
        } else if !self.input.starts_with(input.bytes) || !self.input.ends_with(after) {
            "the input was written to"
        } else {
            return;
        };
        println!("ours      {ours:?}\nreference {expected:?}");
        if let Some(at) = (0..self.ours.len()).find(|&at| self.ours[at] != self.reference[at]) {
            let place = at as i64 - guard as i64;
            println!(
                "buffer byte {place}: ours {} reference {}",
                self.ours[at], self.reference[at]
            );
        }
        self.fail(what, call());
    }

    /// Says what failed and how to repeat it, and ends the program.
    pub fn fail(&self, what: &str, call: String) -> ! {
        println!("{call}");
        println!("FAILED: {what}, after {} calls", self.tally.calls());
        println!(
            "repeat with: tools/host compare 1 {} {}",
            self.seed, self.case
        );
        std::process::exit(1);
    }
}

/// The length of bytes, and the bytes in hexadecimal if they are few.
pub fn shown(bytes: &[u8]) -> String {
    let hexadecimal: String = match bytes.len() {
        0..=PRINTED => bytes.iter().map(|byte| format!("{byte:02X}")).collect(),
        _ => "(not printed)".to_string(),
    };
    format!("{} bytes {hexadecimal}", bytes.len())
}
