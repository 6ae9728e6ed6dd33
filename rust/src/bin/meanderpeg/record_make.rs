//! `record make`: a sound area to try things on. The library makes no area, so this is the command's own work; the
//! library is asked whether it is sound.

use crate::arguments::{guid, number, Arguments, Choice};
use crate::command::Command;
use crate::failure::Failure;
use crate::files;
use crate::record_fields::{image_entry_bytes, BANK_ENTRY_BYTES, COPY_BYTES, HEADER_BYTES};
use crate::session_file;
use crate::text::pair;
use meanderpeg::Guid;
use std::ops::RangeInclusive;

pub const COMMAND: Command = Command {
    name: "record make",
    usage: "FILE --banks N --image GUID ..",
    summary: "Makes a sound area to try things on",
    help: "\
FILE must not be there yet. N is 2 to 4; 1 to 32 images are given, each by an --image with its type GUID, all
different. Both copies hold the record: every bank accepted, active bank 0, previous bank 1. The other GUIDs
are zeros, and bytes outside the records are 0xff.
",
    operands: 1..=1,
    options: &[Choice { name: "--banks", value: Some("N") }, Choice { name: "--image", value: Some("GUID") }],
    run,
};

const BANKS: RangeInclusive<u64> = 2..=4;
const MOST_IMAGES: usize = 32;
/// A bank's part of an image's entry: image GUID, accepted, reserved.
const ACCEPTED_IN_BANK: [u8; BANK_ENTRY_BYTES] =
    [0, 0, 0, 0, 0, 0, 0, 0, 0, 0, 0, 0, 0, 0, 0, 0, 1, 0, 0, 0, 0, 0, 0, 0];

fn run(arguments: &Arguments, output: &mut String) -> Result<(), Failure> {
    let banks = arguments.value("--banks")?.ok_or_else(|| Failure::Usage("--banks is missing".to_string()))?;
    let banks = number(banks, "--banks", BANKS)? as usize;
    let images = images(arguments)?;
    let path = arguments.path(0);
    session_file::must_not_be_there(path)?;
    let area = area_of(record(banks, &images));
    if !meanderpeg::soundness(&area)?.equal {
        return Err(Failure::file(path, "not made: the library does not call it sound"));
    }
    files::write_new(path, &area)?;
    pair(output, "made", path.display());
    pair(output, "banks", banks);
    pair(output, "images", images.len());
    Ok(())
}

fn images(arguments: &Arguments) -> Result<Vec<Guid>, Failure> {
    let mut images: Vec<Guid> = vec![];
    for word in arguments.values("--image") {
        let guid = guid(word)?;
        if images.contains(&guid) {
            return Err(Failure::Usage(format!("{guid} is given twice")));
        }
        images.push(guid);
    }
    if images.is_empty() || images.len() > MOST_IMAGES {
        return Err(Failure::Usage(format!("1 to {MOST_IMAGES} images, not {}", images.len())));
    }
    Ok(images)
}

/// A record of version 2 with every bank accepted.
fn record(banks: usize, images: &[Guid]) -> Vec<u8> {
    let mut behind_crc = header_behind_crc(banks, images.len());
    for guid in images {
        behind_crc.extend_from_slice(guid.as_bytes());
        behind_crc.extend_from_slice(&[0; 16]);
        behind_crc.extend_from_slice(&ACCEPTED_IN_BANK.repeat(banks));
    }
    [&crc_32(&behind_crc).to_le_bytes()[..], &behind_crc].concat()
}

/// The header's fields from the version on, each a number and its bytes.
fn header_behind_crc(banks: usize, images: usize) -> Vec<u8> {
    let entry = image_entry_bytes(banks);
    let size = HEADER_BYTES + images * entry;
    let states = (0..4).fold(0, |states, bank| states | (if bank < banks { 252 } else { 255 }) << (8 * bank));
    let (active, previous, descriptor_offset, reserved) = (0, 1, 32, 0);
    let fields = [
        (2, 4),
        (active, 4),
        (previous, 4),
        (size, 4),
        (descriptor_offset, 2),
        (reserved, 2),
        (states, 4),
        (reserved, 4),
        (banks, 1),
        (reserved, 1),
        (images, 2),
        (entry, 2),
        (BANK_ENTRY_BYTES, 2),
    ];
    fields.iter().flat_map(|(number, width)| number.to_le_bytes().into_iter().take(*width)).collect()
}

/// The GPT's CRC-32 (R4), bit by bit.
fn crc_32(bytes: &[u8]) -> u32 {
    let step = |crc: u32, _| crc >> 1 ^ (0xEDB8_8320 & (crc & 1).wrapping_neg());
    !bytes.iter().fold(u32::MAX, |crc, byte| (0..8).fold(crc ^ u32::from(*byte), step))
}

/// An erased area with the record in both copies.
fn area_of(mut record: Vec<u8>) -> Vec<u8> {
    record.resize(COPY_BYTES, 0xFF);
    record.repeat(2)
}
