//! Numbers in byte slices: little-endian (N101).

/// The little-endian number of `width` bytes at `at`. A byte past the slice's end counts as 0; no answer rests on that,
/// since every caller that can meet a short slice tests its length as well.
pub fn number(list: &[u8], at: u128, width: u128) -> u128 {
    let mut value: u128 = 0;
    for i in 0..width {
        let byte = if at + i < list.len() as u128 { list[(at + i) as usize] } else { 0 };
        value += (byte as u128) << (8 * i);
    }
    value
}

/// Puts the little-endian number of `width` bytes at `at`.
pub fn put(list: &mut [u8], at: usize, width: usize, value: u128) {
    for i in 0..width {
        list[at + i] = ((value >> (8 * i)) & 255) as u8;
    }
}

/// The 16 bytes at `at`, a byte past the end counting as 0.
pub fn guid(list: &[u8], at: u128) -> [u8; 16] {
    let mut answer = [0u8; 16];
    for i in 0..16 {
        answer[i] = number(list, at + i as u128, 1) as u8;
    }
    answer
}
