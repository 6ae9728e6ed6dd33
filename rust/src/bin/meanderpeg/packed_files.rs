//! Files read one behind the other into a slice, as what is packed lies in three of them. A file that is named again is
//! there once: parts may share bytes (C26).

use crate::failure::Failure;
use crate::files;
use std::ffi::{OsStr, OsString};
use std::ops::Range;
use std::path::Path;

#[derive(Default)]
pub struct PackedFiles {
    bytes: Vec<u8>,
    /// Where each is, by the file's name, or by none for an empty part.
    files: Vec<(Option<OsString>, Range<usize>)>,
}

impl PackedFiles {
    /// Reads at most so many bytes of a file, behind those of the others, unless it is among them.
    pub fn put(&mut self, file: &OsStr, most: u64) -> Result<(), Failure> {
        let known = self.files.iter().find(|(name, _)| name.as_deref() == Some(file)).map(|(_, range)| range.clone());
        let range = match known {
            Some(range) => range,
            None => {
                let start = self.bytes.len();
                self.bytes.append(&mut files::read_part(Path::new(file), most)?);
                start..self.bytes.len()
            }
        };
        self.files.push((Some(file.to_os_string()), range));
        Ok(())
    }

    /// An empty part.
    pub fn put_nothing(&mut self) {
        self.files.push((None, 0..0));
    }

    pub fn bytes(&self) -> &[u8] {
        &self.bytes
    }

    /// Start and length of each part, in the order in which they were put.
    pub fn places(&self) -> impl Iterator<Item = (u64, u64)> + use<'_> {
        self.files.iter().map(|(_, range)| (range.start as u64, range.len() as u64))
    }

    /// The bytes of each part.
    pub fn parts(&self) -> impl Iterator<Item = &[u8]> {
        self.files.iter().map(|(_, range)| self.bytes.get(range.clone()).unwrap_or_default())
    }
}
