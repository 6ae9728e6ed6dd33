//! The capsule (rules C). Widths that they do not give are those of UEFI 2.10, 23.3.

use crate::bytes::{guid, number};

/// The GUID 6dcbd5ed-e82d-4c44-bda1-7194199ad92a as it is stored.
pub const FMP_GUID: [u8; 16] = [
    0xed, 0xd5, 0xcb, 0x6d, 0x2d, 0xe8, 0x44, 0x4c, 0xbd, 0xa1, 0x71, 0x94, 0x19, 0x9a, 0xd9, 0x2a,
];
pub const PERSIST: u128 = 0x0001_0000;
pub const RESET: u128 = 0x0004_0000;
/// C9.
pub const MOST_ITEMS: u128 = 64;

pub fn header_size(capsule: &[u8]) -> u128 {
    number(capsule, 16, 4)
}

pub fn flags(capsule: &[u8]) -> u128 {
    number(capsule, 20, 4)
}

/// C4, for reading and for packing.
pub fn flags_good(flags: u128) -> bool {
    flags & RESET == 0 || flags & PERSIST != 0
}

fn image_size(capsule: &[u8]) -> u128 {
    number(capsule, 24, 4)
}

/// C6: the body starts at HeaderSize.
fn body(capsule: &[u8]) -> &[u8] {
    &capsule[header_size(capsule) as usize..]
}

fn drivers(body: &[u8]) -> u128 {
    number(body, 4, 2)
}

fn payloads(body: &[u8]) -> u128 {
    number(body, 6, 2)
}

fn items(body: &[u8]) -> u128 {
    drivers(body) + payloads(body)
}

/// One 64-bit offset per item, from the body's start, behind Version and the counts.
fn offset(body: &[u8], item: u128) -> u128 {
    number(body, 8 + 8 * item, 8)
}

/// C12.
fn item_end(body: &[u8], item: u128) -> u128 {
    if item + 1 < items(body) {
        offset(body, item + 1)
    } else {
        body.len() as u128
    }
}

/// Refusal 14 (N14).
fn body_good(body: &[u8]) -> bool {
    let length = body.len() as u128;
    if length < 8 || number(body, 0, 4) != 1 || items(body) > MOST_ITEMS {
        return false;
    }
    // C10, C11. A list that passes the
    // body's end leaves no room for such an offset, so it is refused before it is read.
    let count = items(body);
    let list_end = 8 + 8 * count;
    if count > 0 && list_end > length {
        return false;
    }
    for item in 0..count {
        let at = offset(body, item);
        if at < list_end || at >= length {
            return false;
        }
        if item > 0 && at <= offset(body, item - 1) {
            return false;
        }
    }
    true
}

/// The length of a payload's header: version 1 has 32 bytes, version 2 has 40, no other version is good.
pub fn payload_header(version: u128) -> Option<u128> {
    match version {
        1 => Some(32),
        2 => Some(40),
        _ => None,
    }
}

/// C15, C16.
fn payload_good(item: &[u8]) -> bool {
    let length = item.len() as u128;
    if length < 4 {
        return false;
    }
    match payload_header(number(item, 0, 4)) {
        None => false,
        Some(header) => length >= header && header + number(item, 24, 4) + number(item, 28, 4) <= length,
    }
}

/// The refusal of the capsule as a whole, 10 to 15 by number (N109), or 0.
pub fn capsule_refusal(capsule: &[u8]) -> u32 {
    let length = capsule.len() as u128;
    if length < 28 {
        return 10;
    }
    // C2, C3.
    if header_size(capsule) < 28 || header_size(capsule) > image_size(capsule) || image_size(capsule) != length {
        return 11;
    }
    if !flags_good(flags(capsule)) {
        return 12;
    }
    if guid(capsule, 0) != FMP_GUID {
        return 13;
    }
    let body = body(capsule);
    if !body_good(body) {
        return 14;
    }
    // C22. Drivers come first in the list and hold nothing to check.
    for item in drivers(body)..items(body) {
        let part = &body[offset(body, item) as usize..item_end(body, item) as usize];
        if !payload_good(part) {
            return 15;
        }
    }
    0
}

/// The refusal for one item, or 0. 15 comes before 16, whatever is asked (C22).
pub fn refusal(capsule: &[u8], item: u64) -> u32 {
    let whole = capsule_refusal(capsule);
    if whole != 0 {
        return whole;
    }
    if item as u128 >= items(body(capsule)) {
        return 16;
    }
    0
}

/// Start and length, in the capsule, of the whole item. A refusal: the empty part at the capsule's start.
pub fn item(capsule: &[u8], item: u64) -> (u64, u64) {
    if refusal(capsule, item) != 0 {
        return (0, 0);
    }
    let body = body(capsule);
    let from = offset(body, item as u128);
    let to = item_end(body, item as u128);
    ((header_size(capsule) + from) as u64, (to - from) as u64)
}

fn is_driver(capsule: &[u8], item: u64) -> bool {
    (item as u128) < drivers(body(capsule))
}

/// Start and length of the image; for a driver the whole item.
pub fn image(capsule: &[u8], item_number: u64) -> (u64, u64) {
    let (start, length) = item(capsule, item_number);
    if refusal(capsule, item_number) != 0 || is_driver(capsule, item_number) {
        return (start, length);
    }
    let part = &capsule[start as usize..(start + length) as usize];
    let header = if number(part, 0, 4) == 1 { 32 } else { 40 };
    (start + header, number(part, 24, 4) as u64)
}

/// Start and length of the vendor code, right behind the image; a driver's is empty (C20).
pub fn vendor_code(capsule: &[u8], item_number: u64) -> (u64, u64) {
    if refusal(capsule, item_number) != 0 {
        return (0, 0);
    }
    let (start, length) = item(capsule, item_number);
    if is_driver(capsule, item_number) {
        return (start + length, 0);
    }
    let part = &capsule[start as usize..(start + length) as usize];
    let (image_start, image_length) = image(capsule, item_number);
    (image_start + image_length, number(part, 28, 4) as u64)
}

/// Type GUID, index and instance (C21).
pub fn shown(capsule: &[u8], item_number: u64) -> ([u8; 16], u8, u64) {
    if refusal(capsule, item_number) != 0 || is_driver(capsule, item_number) {
        return ([0; 16], 0, 0);
    }
    let (start, length) = item(capsule, item_number);
    let part = &capsule[start as usize..(start + length) as usize];
    let instance = if number(part, 0, 4) == 1 { 0 } else { number(part, 32, 8) };
    (guid(part, 4), number(part, 20, 1) as u8, instance as u64)
}

/// Drivers and payloads, both 0 with a refusal of the capsule.
pub fn counts(capsule: &[u8]) -> (u16, u16) {
    if capsule_refusal(capsule) != 0 {
        return (0, 0);
    }
    (drivers(body(capsule)) as u16, payloads(body(capsule)) as u16)
}
