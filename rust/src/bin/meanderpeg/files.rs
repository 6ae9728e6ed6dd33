//! Files read whole, up to a bound, and written; what goes wrong is told in words.

use crate::failure::Failure;
use crate::layout::number_at;
use std::fs::{self, File};
use std::io::{self, ErrorKind, Read, Write};
use std::path::{Path, PathBuf};

/// A capsule's header, and where its own size stands in it (C1).
const CAPSULE_HEADER_BYTES: u64 = 28;
const CAPSULE_SIZE_AT: usize = 24;
/// Of a window so many bytes are read; a longer one is not gathered from.
const WINDOW_BYTES: u64 = 1 << 32;
/// A session's text is far shorter.
const TEXT_BYTES: u64 = 4_096;
/// So many bytes are read of the words for a directory, which have a line for each of 32 images at most.
const WORDS_BYTES: u64 = 1 << 16;

/// The first bytes of a file, at most so many.
fn read(path: &Path, most: u64) -> Result<Vec<u8>, Failure> {
    let mut bytes = vec![];
    let read = File::open(path).and_then(|file| file.take(most).read_to_end(&mut bytes));
    read.map(|_| bytes).map_err(|why| Failure::file(path, why))
}

/// A small text that may not be there: at most 4,096 bytes of it.
pub fn read_if_there(path: &Path) -> Result<Option<Vec<u8>>, Failure> {
    match path.symlink_metadata() {
        Err(why) if why.kind() == ErrorKind::NotFound => Ok(None),
        _ => read(path, TEXT_BYTES).map(Some),
    }
}

/// An area; of a file that is longer one byte more, so that the library refuses it (N20).
pub fn read_area(path: &Path) -> Result<Vec<u8>, Failure> {
    read(path, meanderpeg::AREA_BYTES as u64 + 1)
}

/// A capsule; of a file that is longer than its header tells one byte more, so that the library refuses it (C3, N11).
pub fn read_capsule(path: &Path) -> Result<Vec<u8>, Failure> {
    capsule_of(path).map_err(|why| Failure::file(path, why))
}

fn capsule_of(path: &Path) -> io::Result<Vec<u8>> {
    let (mut file, mut bytes) = (File::open(path)?, vec![]);
    (&mut file).take(CAPSULE_HEADER_BYTES).read_to_end(&mut bytes)?;
    let size = number_at(&bytes, CAPSULE_SIZE_AT, 4) as u64;
    file.take(size.saturating_sub(CAPSULE_HEADER_BYTES) + 1).read_to_end(&mut bytes)?;
    Ok(bytes)
}

pub fn read_window(path: &Path) -> Result<Vec<u8>, Failure> {
    read_up_to(path, WINDOW_BYTES, "a window file")
}

/// A text with words for a directory.
pub fn read_words(path: &Path) -> Result<Vec<u8>, Failure> {
    read_up_to(path, WORDS_BYTES, "a file of words")
}

/// What is to be packed: at most so many bytes of it.
pub fn read_part(path: &Path, most: u64) -> Result<Vec<u8>, Failure> {
    read(path, most)
}

/// A whole file, which is at fault where it is longer.
fn read_up_to(path: &Path, most: u64, what: &str) -> Result<Vec<u8>, Failure> {
    let bytes = read(path, most.saturating_add(1))?;
    if bytes.len() as u64 > most {
        return Err(Failure::file(path, format!("{what} has at most {most} bytes here")));
    }
    Ok(bytes)
}

/// A directory; of a file that is longer than any one byte more, so that the library refuses it (N45).
pub fn read_directory(path: &Path) -> Result<Vec<u8>, Failure> {
    read(path, meanderpeg::DIRECTORY_BYTES as u64 + 1)
}

/// Writes a file anew, over what stood there.
pub fn write(path: &Path, bytes: &[u8]) -> Result<(), Failure> {
    fs::write(path, bytes).map_err(|why| Failure::file(path, why))
}

/// Writes a file that must not be there yet.
pub fn write_new(path: &Path, bytes: &[u8]) -> Result<(), Failure> {
    let file = File::create_new(path).and_then(|mut file| file.write_all(bytes));
    file.map_err(|why| Failure::file(path, why))
}

/// Writes a file whole or not at all: into one beside it, which then takes its place. What is there and no plain file,
/// a device or a link, is not replaced.
pub fn replace(path: &Path, bytes: &[u8]) -> Result<(), Failure> {
    if path.symlink_metadata().is_ok_and(|there| !there.is_file()) {
        return Err(Failure::file(path, "it is there and no plain file, so it is not replaced"));
    }
    let beside = beside(path);
    let moved = File::create_new(&beside).and_then(|file| {
        let moved = put(file, bytes).and_then(|()| fs::rename(&beside, path));
        moved.inspect_err(|_| drop(fs::remove_file(&beside)))
    });
    moved.map_err(|why| Failure::file(path, why))
}

fn put(mut file: File, bytes: &[u8]) -> io::Result<()> {
    file.write_all(bytes)?;
    file.sync_all()
}

/// A name that no other run has.
fn beside(path: &Path) -> PathBuf {
    let mut name = path.as_os_str().to_os_string();
    name.push(format!(".{}.new", std::process::id()));
    PathBuf::from(name)
}
