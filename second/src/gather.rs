//! Gathering (rules G).

use crate::bytes::number;

/// G9.
pub const MOST_DESCRIPTORS: usize = 256;
/// G10.
pub const MOST_TOTAL: u128 = 16_777_216;
/// A descriptor is 16 bytes: Length, then Address, 64 bits each.
pub const DESCRIPTOR: u128 = 16;

/// What was read of a list without a fault: the address of each descriptor, and each block's address and length.
pub struct Listed {
    pub descriptors: Vec<u128>,
    pub blocks: Vec<(u128, u128)>,
    pub total: u128,
}

/// Reads the list, in whole numbers that never wrap. The refusal is 1 to 5.
pub fn read_list(window: &[u8], base: u64, first: u64) -> Result<Listed, u32> {
    let low = base as u128;
    let high = low + window.len() as u128;
    // Refusal 1: B + N above 2^64. Exactly 2^64 is good.
    if high > 1u128 << 64 {
        return Err(1);
    }
    let mut descriptors: Vec<u128> = Vec::new();
    let mut blocks: Vec<(u128, u128)> = Vec::new();
    let mut total: u128 = 0;
    let mut at = first as u128;
    loop {
        // N108: of each descriptor 2, 3, 4, 5 in list order; the first fault is the answer.
        if descriptors.len() == MOST_DESCRIPTORS {
            return Err(2);
        }
        let whole = low <= at && at + DESCRIPTOR <= high;
        if at % 8 != 0 || !whole {
            return Err(3);
        }
        descriptors.push(at);
        let length = number(window, at - low, 8);
        let address = number(window, at - low + 8, 8);
        if length > 0 {
            // A block (G3). Both of its ends are tested (G8).
            if address < low || address + length > high {
                return Err(4);
            }
            total += length;
            if total > MOST_TOTAL {
                return Err(5);
            }
            blocks.push((address, length));
            at += DESCRIPTOR;
        } else if address > 0 {
            // G4.
            at = address;
        } else {
            // Both 0: end.
            return Ok(Listed { descriptors, blocks, total });
        }
    }
}

/// The lowest offset whose range of `total` bytes lies in the window and holds no used byte. One pass upwards: the
/// first time that `total` free bytes stand in a row, the row's start is the lowest such offset.
pub fn lowest_free(used: &[bool], total: u128) -> Option<u128> {
    let mut row: u128 = 0;
    for i in 0..used.len() {
        row = if used[i] { 0 } else { row + 1 };
        if row == total {
            return Some(i as u128 + 1 - total);
        }
    }
    None
}

/// Gathers the scattered list. Answers the place and the total, or the refusal; a refusal changes no byte.
pub fn gather(window: &mut [u8], base: u64, first: u64) -> Result<(u64, u64), u32> {
    let listed = read_list(window, base, first)?;
    // N108: then 6, then 7.
    if listed.total == 0 {
        return Err(6);
    }
    let low = base as u128;
    let mut used = vec![false; window.len()];
    for &(address, length) in &listed.blocks {
        let from = (address - low) as usize;
        used[from..from + length as usize].fill(true);
    }
    for &address in &listed.descriptors {
        let from = (address - low) as usize;
        used[from..from + DESCRIPTOR as usize].fill(true);
    }
    let place = match lowest_free(&used, listed.total) {
        Some(place) => place,
        None => return Err(7),
    };
    // G13, G14.
    let mut gathered: Vec<u8> = Vec::new();
    for &(address, length) in &listed.blocks {
        let from = (address - low) as usize;
        gathered.extend_from_slice(&window[from..from + length as usize]);
    }
    window[place as usize..(place + listed.total) as usize].copy_from_slice(&gathered);
    Ok(((low + place) as u64, listed.total as u64))
}
