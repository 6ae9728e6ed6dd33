//! The words that the record does not tell of its images, as a text: a line for each image, in the record's order, with
//! permissions, maximum size, lowest accepted version and version. What is behind `#` is passed over, as are blank
//! lines:
//!
//! ```text
//! # permissions  maximum size  lowest accepted version  version
//! 0x3            0x100000      2                        5
//! ```

use crate::arguments::number_of;
use crate::failure::Failure;
use crate::files;
use meanderpeg::{ImageWords, Permissions};
use std::path::Path;

const WANTED: &str = "permissions, maximum size, lowest accepted version and version";

/// The words of all lines; a fault names its line.
pub fn read(path: &Path) -> Result<Vec<ImageWords>, Failure> {
    let bytes = files::read_words(path)?;
    let mut images = vec![];
    for (at, line) in bytes.split(|byte| *byte == b'\n').enumerate() {
        let words = words_in(line).map_err(|why| Failure::file(path, format!("line {}: {why}", at + 1)))?;
        images.extend(words);
    }
    Ok(images)
}

/// The words of a line, if it has any.
fn words_in(line: &[u8]) -> Result<Option<ImageWords>, String> {
    let before_comment = line.split(|byte| *byte == b'#').next().unwrap_or(&[]);
    let text = std::str::from_utf8(before_comment).map_err(|_| "it is no text".to_string())?;
    let numbers = text.split_whitespace().map(word_of).collect::<Result<Vec<u32>, String>>()?;
    match numbers[..] {
        [] => Ok(None),
        [permissions, maximum_size, lowest_accepted_version, version] => {
            let permissions = Permissions::from_bits(permissions);
            Ok(Some(ImageWords { permissions, maximum_size, lowest_accepted_version, version }))
        }
        _ => Err(format!("{} numbers, and four are wanted: {WANTED}", numbers.len())),
    }
}

fn word_of(text: &str) -> Result<u32, String> {
    let number = number_of(text).and_then(|number| u32::try_from(number).ok());
    number.ok_or_else(|| format!("{text:?} is no number from 0 to {}", u32::MAX))
}
