//! Many-byte numbers, the first byte most significant.

/// Takes numbers from the front of bytes; nothing where the bytes end too soon.
pub struct Fields<'a> {
    rest: &'a [u8],
}

impl<'a> Fields<'a> {
    /// Begins at the first of these bytes.
    pub fn new(bytes: &'a [u8]) -> Self {
        Fields { rest: bytes }
    }

    /// The next `N` bytes as an unsigned number.
    pub fn unsigned<const N: usize>(&mut self) -> Option<i64> {
        let (field, rest) = self.rest.split_first_chunk::<N>()?;
        self.rest = rest;
        Some(field.iter().fold(0, |n, &b| n << 8 | i64::from(b)))
    }

    /// The next `N` bytes as a two's complement number.
    pub fn signed<const N: usize>(&mut self) -> Option<i64> {
        let unused = i64::BITS - 8 * N as u32;
        Some(self.unsigned::<N>()? << unused >> unused)
    }

    /// The next `count` bytes.
    pub fn bytes(&mut self, count: usize) -> Option<&'a [u8]> {
        let (taken, rest) = self.rest.split_at_checked(count)?;
        self.rest = rest;
        Some(taken)
    }

    /// How many bytes are not yet taken.
    pub fn left(&self) -> usize {
        self.rest.len()
    }
}

/// Puts numbers one after the other into a buffer that has room for them.
pub struct Writer<'a> {
    rest: &'a mut [u8],
}

impl<'a> Writer<'a> {
    /// Begins at the front of the buffer.
    pub fn new(buffer: &'a mut [u8]) -> Self {
        Writer { rest: buffer }
    }

    /// Puts the low `N` bytes of each number.
    pub fn put<const N: usize>(&mut self, numbers: &[i64]) {
        for number in numbers {
            let (field, rest) = std::mem::take(&mut self.rest).split_at_mut(N);
            field.copy_from_slice(&number.to_be_bytes()[8 - N..]);
            self.rest = rest;
        }
    }

    /// The part of the buffer after the numbers.
    pub fn rest(self) -> &'a mut [u8] {
        self.rest
    }
}
