//! The record (rules R).

use crate::bytes::{guid, number, put};

/// R1.
pub const AREA: usize = 16_384;
pub const COPY: usize = 8_192;

pub const INVALID: u8 = 255;
pub const VALID: u8 = 254;
pub const ACCEPTED: u8 = 252;

/// R4, bit by bit.
pub fn crc32(bytes: &[u8]) -> u32 {
    let mut state: u32 = 0xFFFF_FFFF;
    for &byte in bytes {
        state ^= byte as u32;
        for _ in 0..8 {
            let low = state & 1;
            state >>= 1;
            if low == 1 {
                state ^= 0xEDB8_8320;
            }
        }
    }
    state ^ 0xFFFF_FFFF
}

// The fields of record version 2, at their offsets.

pub fn stored_crc(copy: &[u8]) -> u128 {
    number(copy, 0, 4)
}
pub fn version(copy: &[u8]) -> u128 {
    number(copy, 4, 4)
}
pub fn active(copy: &[u8]) -> u128 {
    number(copy, 8, 4)
}
pub fn previous(copy: &[u8]) -> u128 {
    number(copy, 12, 4)
}
pub fn size(copy: &[u8]) -> u128 {
    number(copy, 16, 4)
}
pub fn descriptor_offset(copy: &[u8]) -> u128 {
    number(copy, 20, 2)
}
pub fn state(copy: &[u8], bank: u128) -> u8 {
    number(copy, 24 + bank, 1) as u8
}
pub fn banks(copy: &[u8]) -> u128 {
    number(copy, 32, 1)
}
pub fn images(copy: &[u8]) -> u128 {
    number(copy, 34, 2)
}
pub fn image_entry_size(copy: &[u8]) -> u128 {
    number(copy, 36, 2)
}
pub fn bank_entry_size(copy: &[u8]) -> u128 {
    number(copy, 38, 2)
}

/// Where image `image`'s entry starts (R3).
pub fn entry(copy: &[u8], image: u128) -> u128 {
    40 + image * (32 + 24 * banks(copy))
}
pub fn accepted_at(copy: &[u8], image: u128, bank: u128) -> u128 {
    entry(copy, image) + 32 + 24 * bank + 16
}
pub fn reserved_at(copy: &[u8], image: u128, bank: u128) -> u128 {
    entry(copy, image) + 32 + 24 * bank + 20
}
pub fn accepted(copy: &[u8], image: u128, bank: u128) -> u128 {
    number(copy, accepted_at(copy, image, bank), 4)
}
pub fn type_guid(copy: &[u8], image: u128) -> [u8; 16] {
    guid(copy, entry(copy, image))
}
/// Whether every image of the bank is accepted.
pub fn all_accepted(copy: &[u8], bank: u128) -> bool {
    (0..images(copy)).all(|image| accepted(copy, image, bank) == 1)
}

// R5: fourteen rules, R6 to R19. A rule is asked only where those before
// it hold.

fn rule_1_version(copy: &[u8]) -> bool {
    version(copy) == 2
}
fn rule_2_banks(copy: &[u8]) -> bool {
    2 <= banks(copy) && banks(copy) <= 4
}
fn rule_3_images(copy: &[u8]) -> bool {
    1 <= images(copy) && images(copy) <= 32
}
fn rule_4_bank_entry_size(copy: &[u8]) -> bool {
    bank_entry_size(copy) == 24
}
fn rule_5_image_entry_size(copy: &[u8]) -> bool {
    image_entry_size(copy) == 32 + 24 * banks(copy)
}
/// The size that the counts ask for; besides, as many bytes must be there, which is always so in a copy of 8,192.
fn rule_6_size(copy: &[u8]) -> bool {
    size(copy) == 40 + images(copy) * image_entry_size(copy) && size(copy) <= copy.len() as u128
}
fn rule_7_descriptor_offset(copy: &[u8]) -> bool {
    descriptor_offset(copy) == 32
}
fn rule_8_reserved(copy: &[u8]) -> bool {
    let header = number(copy, 22, 2) == 0 && number(copy, 28, 4) == 0 && number(copy, 33, 1) == 0;
    header && (0..images(copy)).all(|i| (0..banks(copy)).all(|b| number(copy, reserved_at(copy, i, b), 4) == 0))
}
fn rule_9_active_previous(copy: &[u8]) -> bool {
    active(copy) < banks(copy) && previous(copy) < banks(copy)
}
fn rule_10_accepted(copy: &[u8]) -> bool {
    (0..images(copy)).all(|i| (0..banks(copy)).all(|b| accepted(copy, i, b) <= 1))
}
fn rule_11_type_guids(copy: &[u8]) -> bool {
    (0..images(copy)).all(|i| (0..i).all(|j| type_guid(copy, i) != type_guid(copy, j)))
}
fn rule_12_states(copy: &[u8]) -> bool {
    (0..4).all(|bank| {
        let state = state(copy, bank);
        if bank < banks(copy) {
            state == INVALID || state == VALID || state == ACCEPTED
        } else {
            state == INVALID
        }
    })
}
fn rule_13_states_fit(copy: &[u8]) -> bool {
    let fits = (0..banks(copy)).all(|bank| match state(copy, bank) {
        ACCEPTED => all_accepted(copy, bank),
        VALID => !all_accepted(copy, bank),
        _ => true,
    });
    fits && state(copy, active(copy)) != INVALID
}
/// R4: over bytes 4 to size.
fn rule_14_crc(copy: &[u8]) -> bool {
    crc32(&copy[4..size(copy) as usize]) as u128 == stored_crc(copy)
}

pub const RULES: [fn(&[u8]) -> bool; 14] = [
    rule_1_version,
    rule_2_banks,
    rule_3_images,
    rule_4_bank_entry_size,
    rule_5_image_entry_size,
    rule_6_size,
    rule_7_descriptor_offset,
    rule_8_reserved,
    rule_9_active_previous,
    rule_10_accepted,
    rule_11_type_guids,
    rule_12_states,
    rule_13_states_fit,
    rule_14_crc,
];

/// 0 for a sound copy, else the number of the first rule that fails, 1 to 14.
pub fn first_failing_rule(copy: &[u8]) -> u32 {
    for (place, rule) in RULES.iter().enumerate() {
        if !rule(copy) {
            return place as u32 + 1;
        }
    }
    0
}

pub fn sound(copy: &[u8]) -> bool {
    first_failing_rule(copy) == 0
}

/// The copy, 0 or 1, of an area of 16,384 bytes.
pub fn copy_of(area: &[u8], copy: u32) -> &[u8] {
    let from = COPY * copy as usize;
    &area[from..from + COPY]
}

/// The record that a sound copy holds: as many bytes as its size says.
pub fn record_of(copy: &[u8]) -> &[u8] {
    &copy[..size(copy) as usize]
}

/// The record read (R20). None where no copy is sound, or the area is of another length.
pub fn record_read(area: &[u8]) -> Option<(u32, Vec<u8>)> {
    if area.len() != AREA {
        return None;
    }
    for copy in 0..2 {
        let bytes = copy_of(area, copy);
        if sound(bytes) {
            return Some((copy, record_of(bytes).to_vec()));
        }
    }
    None
}

/// R21. Asked of two sound copies; bytes behind a record don't count.
pub fn both_sound_and_equal(area: &[u8]) -> bool {
    if area.len() != AREA {
        return false;
    }
    let (zero, one) = (copy_of(area, 0), copy_of(area, 1));
    sound(zero) && sound(one) && record_of(zero) == record_of(one)
}

/// The record with its CRC worked anew.
pub fn with_crc(mut record: Vec<u8>) -> Vec<u8> {
    let crc = crc32(&record[4..]);
    put(&mut record, 0, 4, crc as u128);
    record
}
