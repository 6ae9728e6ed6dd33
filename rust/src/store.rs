//! One store of a list.

/// One store: a word that goes into the four bytes of the area at an offset (R22).
#[derive(Clone, Copy, PartialEq, Eq, Hash, Debug)]
#[repr(C)]
pub struct Store {
    offset: u32,
    word: u32,
}

impl Store {
    /// Where in the area: a multiple of 4, below [`AREA_BYTES`](crate::AREA_BYTES).
    pub fn offset(&self) -> usize {
        self.offset as usize
    }

    /// What the four bytes become, read as a little-endian number.
    pub fn word(&self) -> u32 {
        self.word
    }
}
