//! The count list of a bitmap (01, What packing chooses).

/// An item of the count list.
#[derive(Clone, Copy, Debug, PartialEq, Eq)]
pub enum Item {
    Run(u32),
    Repeat(u32),
}

/// The count list of a bitmap with rows of `w` pixels; nothing for a bitmap without pixels.
pub fn count_list(bitmap: &[u8], w: usize) -> Vec<Item> {
    let mut list = List::default();
    let mut rows = bitmap.chunks_exact(w.max(1)).peekable();
    while let Some(row) = rows.next() {
        let mut repeat = 0;
        while rows
            .next_if(|below| *below == row && !is_one_colour(row))
            .is_some()
        {
            repeat += 1;
        }
        list.add_row(row, repeat);
    }
    list.end()
}

/// The list so far, with the run that is not yet ended.
struct List {
    items: Vec<Item>,
    colour: u8,
    run: u32,
}

impl Default for List {
    /// The empty list, before it the imaginary white pixel; most letters need no more room.
    fn default() -> Self {
        List {
            items: Vec::with_capacity(64),
            colour: 0,
            run: 0,
        }
    }
}

impl List {
    /// Adds a row; its repeat, if not 0, stands where the colour first changes.
    fn add_row(&mut self, row: &[u8], mut repeat: u32) {
        let mut rest = row;
        while let Some(&pixel) = rest.first() {
            if pixel != self.colour {
                self.end_run();
                self.colour = pixel;
                if repeat > 0 {
                    self.items.push(Item::Repeat(repeat));
                    repeat = 0;
                }
            }
            let same = length_of_colour(rest, pixel);
            self.run += same as u32;
            rest = &rest[same..];
        }
    }

    /// Ends the current run; before the first pixel there is none.
    fn end_run(&mut self) {
        if self.run > 0 {
            self.items.push(Item::Run(self.run));
            self.run = 0;
        }
    }

    /// Ends the list.
    fn end(mut self) -> Vec<Item> {
        self.end_run();
        self.items
    }
}

/// Says whether a row is all black or all white.
fn is_one_colour(row: &[u8]) -> bool {
    length_of_colour(row, row[0]) == row.len()
}

/// How many pixels from the first on have this colour; eight are looked at together.
fn length_of_colour(pixels: &[u8], colour: u8) -> usize {
    let all_same = u64::from_le_bytes([colour; 8]);
    let (eights, rest) = pixels.as_chunks::<8>();
    for (i, &eight) in eights.iter().enumerate() {
        let other = u64::from_le_bytes(eight) ^ all_same;
        if other != 0 {
            return 8 * i + other.trailing_zeros() as usize / 8;
        }
    }
    let other = rest.iter().position(|&pixel| pixel != colour);
    8 * eights.len() + other.unwrap_or(rest.len())
}
