//! Rasters: judged when the font is checked, drawn when their code is asked for (01, Rasters).

use crate::fault::Fault;
use crate::nybbles::{Nybbles, REPEAT, REPEAT_ONCE};
use crate::packet::{Packet, BITMAP};

/// What becomes of the pixels while a raster is read.
trait Paper {
    /// Takes a run that begins at pixel `from`.
    fn run(&mut self, from: usize, length: usize, black: bool);
    /// Sends the row of `w` pixels that begins at pixel `from` again, `repeat` times.
    fn again(&mut self, from: usize, w: usize, repeat: usize);
}

/// Judging needs no pixels.
struct NoPaper;

impl Paper for NoPaper {
    /// Leaves the run.
    fn run(&mut self, _: usize, _: usize, _: bool) {}

    /// Leaves the rows.
    fn again(&mut self, _: usize, _: usize, _: usize) {}
}

impl Paper for &mut [u8] {
    /// Fills the run's bytes.
    fn run(&mut self, from: usize, length: usize, black: bool) {
        self[from..from + length].fill(u8::from(black));
    }

    /// Copies the row below itself.
    fn again(&mut self, from: usize, w: usize, repeat: usize) {
        for copy in 1..=repeat {
            self.copy_within(from..from + w, from + copy * w);
        }
    }
}

/// Judges a packet's raster.
pub fn judge(packet: &Packet) -> Result<(), Fault> {
    match packet.f() {
        BITMAP => judge_bits(packet),
        f => read_runs(packet, f, NoPaper),
    }
}

/// Draws a packet whose raster was judged into exactly its pixels.
pub fn draw(packet: &Packet, pixels: &mut [u8]) {
    match packet.f() {
        BITMAP => draw_bits(packet.raster, pixels),
        f => read_runs(packet, f, pixels).expect("the raster was judged"),
    }
}

/// Judges a bitmap raster: its bytes, then the spare bits of the last one.
fn judge_bits(packet: &Packet) -> Result<(), Fault> {
    let bytes = packet.area().div_ceil(8);
    if packet.raster.len() < bytes {
        return Err(Fault::RasterEnds);
    }
    let spare_bits = 8 * bytes - packet.area();
    let last = packet.raster.last().copied().unwrap_or(0);
    if packet.raster.len() > bytes || last & ((1 << spare_bits) - 1) != 0 {
        return Err(Fault::LeftOver);
    }
    Ok(())
}

/// Draws a bitmap raster, the most significant bit first.
fn draw_bits(raster: &[u8], pixels: &mut [u8]) {
    for (pixels, byte) in pixels.chunks_mut(8).zip(raster) {
        for (i, pixel) in pixels.iter_mut().enumerate() {
            *pixel = byte >> (7 - i) & 1;
        }
    }
}

/// Reads a raster of runs and repeats until its rows are full.
fn read_runs(packet: &Packet, f: u8, paper: impl Paper) -> Result<(), Fault> {
    let mut nybbles = Nybbles::new(packet.raster);
    let mut rows = Rows::new(packet, paper);
    while rows.row < rows.h {
        match nybbles.next()? {
            REPEAT | REPEAT_ONCE if rows.repeat > 0 => return Err(Fault::SecondRepeat),
            REPEAT_ONCE => rows.repeat(1)?,
            REPEAT => match nybbles.next()? {
                REPEAT | REPEAT_ONCE => return Err(Fault::SecondRepeat),
                first => rows.repeat(nybbles.number(first, f)?)?,
            },
            first => rows.run(nybbles.number(first, f)?)?,
        }
    }
    nybbles.finish()
}

/// The place of the next pixel, the repeat of its row (0 for none) and its colour.
struct Rows<P> {
    paper: P,
    w: usize,
    h: usize,
    row: usize,
    column: usize,
    repeat: usize,
    black: bool,
}

impl<P: Paper> Rows<P> {
    /// Begins with the first pixel of a packet.
    fn new(packet: &Packet, paper: P) -> Self {
        Rows {
            paper,
            w: packet.w(),
            h: packet.h(),
            row: 0,
            column: 0,
            repeat: 0,
            black: packet.first_is_black(),
        }
    }

    /// The rows after the current one that its repeat does not fill.
    fn rows_after(&self) -> usize {
        self.h - self.row - 1 - self.repeat
    }

    /// Takes a repeat for the current row.
    fn repeat(&mut self, repeat: usize) -> Result<(), Fault> {
        if repeat > self.rows_after() {
            return Err(Fault::TooManyPixels);
        }
        self.repeat = repeat;
        Ok(())
    }

    /// Takes a run, and the next one has the other colour.
    fn run(&mut self, length: usize) -> Result<(), Fault> {
        let row_rest = self.w - self.column;
        if length < row_rest {
            self.fill(length);
            self.column += length;
        } else if length - row_rest <= self.w * self.rows_after() {
            self.fill(row_rest);
            self.end_row();
            self.cross(length - row_rest);
        } else {
            return Err(Fault::TooManyPixels);
        }
        self.black = !self.black;
        Ok(())
    }

    /// Ends the current row, which is full: it is sent once more for each repeat.
    fn end_row(&mut self) {
        self.paper.again(self.row * self.w, self.w, self.repeat);
        self.row += 1 + self.repeat;
        self.column = 0;
        self.repeat = 0;
    }

    /// Takes the part of a run that lies in later rows; they have no repeat.
    fn cross(&mut self, length: usize) {
        self.fill(length);
        self.row += length / self.w;
        self.column = length % self.w;
    }

    /// Fills `length` pixels from the next one on.
    fn fill(&mut self, length: usize) {
        let from = self.row * self.w + self.column;
        self.paper.run(from, length, self.black);
    }
}
