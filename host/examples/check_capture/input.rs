//! What is left of a file, and the numbers in it.

/// The bytes that have not been taken yet, and the offset of the first of them in the file.
#[derive(Clone, Copy, Debug)]
pub struct Input<'a> {
    pub at: usize,
    pub rest: &'a [u8],
}

impl<'a> Input<'a> {
    pub fn new(file: &'a [u8]) -> Self {
        Self { at: 0, rest: file }
    }

    /// Takes so many bytes. None if there are not as many; then nothing is taken.
    pub fn take(&mut self, length: usize) -> Option<&'a [u8]> {
        let (taken, rest) = self.rest.split_at_checked(length)?;
        self.rest = rest;
        self.at = self.at.saturating_add(length);
        Some(taken)
    }

    /// The same with a length that stands in the file.
    pub fn take_claimed(&mut self, length: u32) -> Option<&'a [u8]> {
        self.take(usize::try_from(length).ok()?)
    }

    /// Takes the N bytes of something that always has as many.
    pub fn take_fixed<const N: usize>(&mut self) -> Option<[u8; N]> {
        self.take(N)?.first_chunk().copied()
    }
}

/// Which byte of a number stands first.
#[derive(Clone, Copy, Debug, PartialEq, Eq)]
pub enum ByteOrder {
    LowFirst,
    HighFirst,
}

impl ByteOrder {
    pub fn u16(self, bytes: [u8; 2]) -> u16 {
        match self {
            ByteOrder::LowFirst => u16::from_le_bytes(bytes),
            ByteOrder::HighFirst => u16::from_be_bytes(bytes),
        }
    }

    pub fn u32(self, bytes: [u8; 4]) -> u32 {
        match self {
            ByteOrder::LowFirst => u32::from_le_bytes(bytes),
            ByteOrder::HighFirst => u32::from_be_bytes(bytes),
        }
    }
}
