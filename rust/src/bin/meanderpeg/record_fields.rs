//! The fields of a record of version 2 (R1 to R3), for showing and for making one. Whether a copy is sound the library
//! alone says.

use crate::layout::{guid_at, number_at};
use meanderpeg::{Guid, Soundness};

/// Where copy 1 starts.
pub const COPY_BYTES: usize = 8_192;
/// Where the images' entries start.
pub const HEADER_BYTES: usize = 40;
/// A bank's part of an image's entry: image GUID, accepted, reserved.
pub const BANK_ENTRY_BYTES: usize = 24;

/// An image's entry: type GUID, location GUID, then a part for each bank.
pub fn image_entry_bytes(banks: usize) -> usize {
    32 + BANK_ENTRY_BYTES * banks
}

/// A record that the library called sound, in its copy.
pub struct Record<'a> {
    bytes: &'a [u8],
}

impl<'a> Record<'a> {
    /// The record in that copy of an area, as long as its size says.
    pub fn in_copy(area: &'a [u8], copy: usize) -> Record<'a> {
        let copy = area.get(COPY_BYTES * copy..).unwrap_or(&[]);
        let size = Record { bytes: copy }.size();
        Record { bytes: copy.get(..size).unwrap_or(copy) }
    }

    pub fn bytes(&self) -> &'a [u8] {
        self.bytes
    }

    pub fn crc(&self) -> u32 {
        self.number(0, 4) as u32
    }
    pub fn version(&self) -> usize {
        self.number(4, 4)
    }
    pub fn active(&self) -> usize {
        self.number(8, 4)
    }
    pub fn previous(&self) -> usize {
        self.number(12, 4)
    }
    pub fn size(&self) -> usize {
        self.number(16, 4)
    }
    pub fn state(&self, bank: usize) -> usize {
        self.number(24 + bank, 1)
    }
    pub fn banks(&self) -> usize {
        self.number(32, 1)
    }
    pub fn images(&self) -> usize {
        self.number(34, 2)
    }
    pub fn type_guid(&self, image: usize) -> Guid {
        self.guid(self.entry(image))
    }
    pub fn location_guid(&self, image: usize) -> Guid {
        self.guid(self.entry(image) + 16)
    }
    pub fn image_guid(&self, image: usize, bank: usize) -> Guid {
        self.guid(self.bank_entry(image, bank))
    }
    pub fn accepted(&self, image: usize, bank: usize) -> bool {
        self.number(self.bank_entry(image, bank) + 16, 4) == 1
    }

    fn entry(&self, image: usize) -> usize {
        HEADER_BYTES + image * image_entry_bytes(self.banks())
    }

    fn bank_entry(&self, image: usize, bank: usize) -> usize {
        self.entry(image) + 32 + BANK_ENTRY_BYTES * bank
    }

    fn number(&self, at: usize, width: usize) -> usize {
        number_at(self.bytes, at, width)
    }

    fn guid(&self, at: usize) -> Guid {
        guid_at(self.bytes, at)
    }
}

/// A bank's state with its name (R17).
pub fn state_in_words(state: usize) -> String {
    let word = match state {
        252 => "accepted",
        254 => "valid",
        255 => "invalid",
        _ => "unknown",
    };
    format!("{state} {word}")
}

/// The copy that start-up reads: copy 0 if sound, else copy 1 if sound (R20).
pub fn copy_read(found: Soundness) -> Option<usize> {
    match (found.copy_0, found.copy_1) {
        (true, _) => Some(0),
        (false, true) => Some(1),
        (false, false) => None,
    }
}

/// What the word at that offset of a copy is, in a record of so many banks.
pub fn field_name(offset: usize, banks: usize) -> String {
    const HEADER: [&str; 10] = [
        "crc_32",
        "version",
        "active",
        "previous",
        "size",
        "descriptor offset",
        "bank states",
        "reserved",
        "bank and image counts",
        "entry sizes",
    ];
    if let Some(name) = HEADER.get(offset / 4) {
        return name.to_string();
    }
    let (image, at) =
        ((offset - HEADER_BYTES) / image_entry_bytes(banks), (offset - HEADER_BYTES) % image_entry_bytes(banks));
    match at {
        0..16 => format!("image {image} type GUID"),
        16..32 => format!("image {image} location GUID"),
        _ => {
            format!("image {image} bank {} {}", (at - 32) / BANK_ENTRY_BYTES, bank_field((at - 32) % BANK_ENTRY_BYTES))
        }
    }
}

fn bank_field(at: usize) -> &'static str {
    match at {
        0..16 => "image GUID",
        16..20 => "accepted",
        _ => "reserved",
    }
}
