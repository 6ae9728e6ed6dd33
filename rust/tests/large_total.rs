//! The limit of 16,777,216 bytes (G10) and its neighbours, in windows that have room for the blocks, which the programs
//! of the proved language have no memory for.

use meanderpeg::gather;

const BASE: u64 = 4_096;
const BLOCK: usize = 4_000;
const LENGTH: usize = 131_072;
const LIMIT: usize = 16_777_216;

/// A window of so many bytes: 128 descriptors of one and the same block, the last of them of another length, and the
/// end.
fn window(length: usize, last: usize) -> Vec<u8> {
    let mut bytes: Vec<u8> = (0..length).map(|i| (7 * i + 13 * (i / 256)) as u8).collect();
    for i in 0..129 {
        let size = if i < 127 {
            LENGTH
        } else if i == 127 {
            last
        } else {
            0
        };
        let address = if i < 128 { BASE + BLOCK as u64 } else { 0 };
        bytes[16 * i..16 * i + 8].copy_from_slice(&(size as u64).to_le_bytes());
        bytes[16 * i + 8..16 * i + 16].copy_from_slice(&address.to_le_bytes());
    }
    bytes
}

/// Gathers a total of 127 * 131,072 + last, for which there is room behind the block and nowhere else.
fn gathered(last: usize) {
    let mut lent = window(BLOCK + LENGTH + LIMIT, last);
    let before = lent.clone();
    let answer = gather(&mut lent, BASE, BASE).expect("a total within the limit");
    let total = 127 * LENGTH + last;
    let place = BLOCK + LENGTH;
    assert_eq!((answer.address(), answer.bytes().len()), (BASE + place as u64, total));
    assert_eq!(answer.range(), place..place + total);
    let mut wanted = before.clone();
    for i in 0..128 {
        let size = if i < 127 { LENGTH } else { last };
        wanted[place + i * LENGTH..place + i * LENGTH + size].copy_from_slice(&before[BLOCK..BLOCK + size]);
    }
    assert!(lent == wanted, "the blocks in list order, and nothing else altered");
}

/// Refused with this number, and no byte altered.
fn refused(length: usize, last: usize, number: u32) {
    let mut lent = window(length, last);
    let before = lent.clone();
    assert_eq!(gather(&mut lent, BASE, BASE).map(|g| g.address()).map_err(|refusal| refusal.number()), Err(number));
    assert!(lent == before, "a refusal alters no byte");
}

#[test]
fn one_below_the_limit() {
    gathered(LENGTH - 1);
}

#[test]
fn the_limit() {
    gathered(LENGTH);
}

#[test]
fn one_above_the_limit() {
    refused(BLOCK + LENGTH + 1 + LIMIT + 1, LENGTH + 1, 5);
}

#[test]
fn the_limit_with_one_byte_too_few() {
    refused(BLOCK + LENGTH + LIMIT - 1, LENGTH, 7);
}
