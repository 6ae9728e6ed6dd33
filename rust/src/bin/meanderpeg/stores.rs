//! A call's stores done in a file, one word at a time, and stopped where a power cut is wanted.

use crate::failure::Failure;
use std::fs::OpenOptions;
use std::io::{Result, Seek, SeekFrom, Write};
use std::path::Path;

/// The storage of the device, which power may leave after so many stores.
pub struct Storage<'p> {
    path: &'p Path,
    listed: usize,
    /// How many stores power lasts for; none where it stays.
    power: Option<usize>,
    done: usize,
}

impl<'p> Storage<'p> {
    pub fn new(path: &'p Path, listed: usize, power: Option<usize>) -> Storage<'p> {
        Storage { path, listed, power, done: 0 }
    }

    pub fn done(&self) -> usize {
        self.done
    }

    /// Whether power leaves at this moment (P2). A call with fewer stores than power lasts for is over before.
    pub fn cut(&self) -> bool {
        self.power == Some(self.done)
    }

    /// One store: the word's four bytes at its offset, which are in the file, on its disk, before this returns (P16).
    pub fn store(&mut self, offset: usize, word: u32) -> std::result::Result<(), Failure> {
        if self.cut() {
            return Err(Failure::Cut(self.done, self.listed));
        }
        put(self.path, offset, word).map_err(|why| {
            let which = format!("store {} of {}, with the session lost as by a power cut", self.done + 1, self.listed);
            Failure::file(self.path, format!("{why} ({which})"))
        })?;
        self.done += 1;
        Ok(())
    }
}

fn put(path: &Path, offset: usize, word: u32) -> Result<()> {
    let mut file = OpenOptions::new().write(true).open(path)?;
    file.seek(SeekFrom::Start(offset as u64))?;
    file.write_all(&word.to_le_bytes())?;
    file.sync_data()
}
