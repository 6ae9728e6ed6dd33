//! The image directory, version 2 (DEN0118, tables 3.2 and 3.3): a header of 24 bytes, then an entry of 40 for each
//! image. Written from a record, read back from bytes.

use crate::bytes::{guid, number, put};
use crate::record::*;
use crate::session::{start_up, Session};

/// Bytes of the header and of an entry.
pub const HEADER: u128 = 24;
pub const ENTRY: u128 = 40;
/// How many words the caller gives for each image: permissions, maximum size, lowest accepted version, version.
pub const WORDS: u128 = 4;

/// How long the directory of so many images is.
pub fn directory_size(images: u128) -> u128 {
    HEADER + ENTRY * images
}

/// Bits 31 to 3 must be zero.
fn permissions_good(permissions: u128) -> bool {
    permissions < 8
}

/// Writes the directory of the record read at the front of the room, and answers its length. Refusals 20, 21, 28, as
/// start-up gives them, then 40, 41, 42; with one of them the room stays as it was.
pub fn directory_write(area: &[u8], booted: u32, words: &[u32], room: &mut [u8]) -> Result<u64, u32> {
    let answer = start_up(area, booted);
    let record = match answer.record {
        None => return Err(answer.refusal),
        Some(record) => record,
    };
    let count = images(&record);
    if (words.len() as u128) < WORDS * count {
        return Err(40);
    }
    // Words past those of the record's images are not looked at.
    for image in 0..count {
        if !permissions_good(words[(WORDS * image) as usize] as u128) {
            return Err(41);
        }
    }
    let size = directory_size(count);
    if (room.len() as u128) < size {
        return Err(42);
    }
    // Trial is a boot of the active bank as Regular is.
    let correct_boot = if answer.session == Session::Fallback { 0 } else { 1 };
    let directory = directory_bytes(&record, booted as u128, words, correct_boot);
    room[..directory.len()].copy_from_slice(&directory);
    Ok(size as u64)
}

/// The directory's bytes, with the accepted flags of the booted bank.
fn directory_bytes(record: &[u8], booted: u128, words: &[u32], correct_boot: u128) -> Vec<u8> {
    let count = images(record);
    let mut d = vec![0u8; directory_size(count) as usize];
    put(&mut d, 0, 4, 2);
    put(&mut d, 4, 4, HEADER);
    put(&mut d, 8, 4, count);
    put(&mut d, 12, 4, correct_boot);
    put(&mut d, 16, 4, ENTRY);
    for image in 0..count {
        let at = entry_at(image) as usize;
        d[at..at + 16].copy_from_slice(&type_guid(record, image));
        for word in 0..WORDS {
            let value = words[(WORDS * image + word) as usize];
            put(&mut d, at + 16 + 4 * word as usize, 4, value as u128);
        }
        put(&mut d, at + 32, 4, accepted(record, image, booted));
    }
    d
}

// The fields of a directory, at their offsets.

fn image_count(directory: &[u8]) -> u128 {
    number(directory, 8, 4)
}
fn correct_boot(directory: &[u8]) -> u128 {
    number(directory, 12, 4)
}
fn entry_at(image: u128) -> u128 {
    HEADER + ENTRY * image
}
fn permissions(directory: &[u8], image: u128) -> u128 {
    number(directory, entry_at(image) + 16, 4)
}
fn accepted_field(directory: &[u8], image: u128) -> u128 {
    number(directory, entry_at(image) + 32, 4)
}
fn entry_reserved(directory: &[u8], image: u128) -> u128 {
    number(directory, entry_at(image) + 36, 4)
}
fn entry_guid(directory: &[u8], image: u128) -> [u8; 16] {
    guid(directory, entry_at(image))
}

/// What 44 asks of the header.
fn header_good(directory: &[u8]) -> bool {
    number(directory, 0, 4) == 2
        && number(directory, 4, 4) == HEADER
        && 1 <= image_count(directory)
        && image_count(directory) <= 32
        && correct_boot(directory) <= 1
        && number(directory, 16, 4) == ENTRY
        && number(directory, 20, 4) == 0
}

/// What 46 asks of every entry.
fn entries_good(directory: &[u8]) -> bool {
    (0..image_count(directory)).all(|i| {
        permissions_good(permissions(directory, i))
            && accepted_field(directory, i) <= 1
            && entry_reserved(directory, i) == 0
            && (0..i).all(|j| entry_guid(directory, i) != entry_guid(directory, j))
    })
}

/// 0 for a directory that is taken, else 43 to 46, the first that applies.
pub fn directory_refusal(directory: &[u8]) -> u32 {
    let length = directory.len() as u128;
    if length < HEADER {
        return 43;
    }
    if !header_good(directory) {
        return 44;
    }
    if length != directory_size(image_count(directory)) {
        return 45;
    }
    if !entries_good(directory) {
        return 46;
    }
    0
}

/// What a directory shows: image count and correct_boot.
pub fn directory_check(directory: &[u8]) -> Result<(u32, u32), u32> {
    match directory_refusal(directory) {
        0 => Ok((image_count(directory) as u32, correct_boot(directory) as u32)),
        number => Err(number),
    }
}

/// Where the type GUID of an entry lies, start and length. At or past the image count both are 0.
pub fn directory_type_guid(directory: &[u8], entry: u64) -> Result<(u64, u64), u32> {
    let (images, _) = directory_check(directory)?;
    if entry >= images as u64 {
        return Ok((0, 0));
    }
    Ok((entry_at(entry as u128) as u64, 16))
}

/// Permissions, maximum size, lowest accepted version, version and accepted of an entry. At or past the image count
/// all are 0.
pub fn directory_numbers(directory: &[u8], entry: u64) -> Result<[u32; 5], u32> {
    let (images, _) = directory_check(directory)?;
    let mut numbers = [0u32; 5];
    if entry < images as u64 {
        for place in 0..5 {
            numbers[place] = number(directory, entry_at(entry as u128) + 16 + 4 * place as u128, 4) as u32;
        }
    }
    Ok(numbers)
}
