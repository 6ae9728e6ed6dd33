//! Gathering (rules G), and samples 1 to 8.

use second::gather::gather;
use second::make::{filler, put_descriptor};

const B: u64 = 0x1000;

fn window(length: usize) -> Vec<u8> {
    (0..length).map(|i| filler(i, 3)).collect()
}

/// B is 0x1000, N 256, the list at 0x1000 with its end at 0x1020: two blocks.
fn two_blocks(one: (u64, u64), two: (u64, u64)) -> Vec<u8> {
    let mut w = window(256);
    put_descriptor(&mut w, 0, one.0, one.1);
    put_descriptor(&mut w, 16, two.0, two.1);
    put_descriptor(&mut w, 32, 0, 0);
    w
}

/// Gathers and tests every byte: the answer, the bytes at the place, and that all others stay, or all with a refusal.
fn check(mut w: Vec<u8>, base: u64, first: u64, want: Result<(u64, u64), u32>, content: &[(u64, u64)]) {
    let before = w.clone();
    let got = gather(&mut w, base, first);
    assert_eq!(got, want);
    let mut expected = before.clone();
    if let Ok((place, total)) = got {
        let mut bytes = Vec::new();
        for &(length, address) in content {
            let from = (address - base) as usize;
            bytes.extend_from_slice(&before[from..from + length as usize]);
        }
        assert_eq!(bytes.len() as u64, total);
        let from = (place - base) as usize;
        expected[from..from + bytes.len()].copy_from_slice(&bytes);
    }
    assert_eq!(w, expected);
}

#[test]
fn sample_1() {
    let blocks = [(4, 0x1040), (3, 0x1050)];
    check(two_blocks(blocks[0], blocks[1]), B, B, Ok((0x1030, 7)), &blocks);
}

#[test]
fn sample_2() {
    let blocks = [(4, 0x1040), (12, 0x1050)];
    check(two_blocks(blocks[0], blocks[1]), B, B, Ok((0x1030, 16)), &blocks);
}

#[test]
fn sample_3() {
    let blocks = [(4, 0x1040), (13, 0x1050)];
    check(two_blocks(blocks[0], blocks[1]), B, B, Ok((0x105D, 17)), &blocks);
}

#[test]
fn sample_4() {
    check(two_blocks((4, 0x0FFF), (3, 0x1050)), B, B, Err(4), &[]);
    let good = [(4, 0x10FC), (3, 0x1050)];
    check(two_blocks(good[0], good[1]), B, B, Ok((0x1030, 7)), &good);
    check(two_blocks((4, 0x10FD), (3, 0x1050)), B, B, Err(4), &[]);
}

#[test]
fn sample_5_jump_to_itself() {
    let mut w = window(256);
    put_descriptor(&mut w, 0, 0, B);
    check(w, B, B, Err(2), &[]);
}

#[test]
fn sample_6_end_alone() {
    let mut w = window(256);
    put_descriptor(&mut w, 0, 0, 0);
    check(w, B, B, Err(6), &[]);
}

#[test]
fn sample_7_length_of_all_ones() {
    check(two_blocks((u64::MAX, 0x1040), (3, 0x1050)), B, B, Err(4), &[]);
}

/// `blocks` one-byte blocks behind the list, an end where asked for, and room for all of them behind the blocks.
fn many(blocks: usize, end: bool, room: usize) -> (Vec<u8>, Vec<(u64, u64)>) {
    let list = 16 * (blocks + 1);
    let mut w = window(list + 2 * blocks + room);
    let mut content = Vec::new();
    for i in 0..blocks {
        let address = B + (list + 2 * i) as u64;
        put_descriptor(&mut w, 16 * i, 1, address);
        content.push((1, address));
    }
    if end {
        put_descriptor(&mut w, 16 * blocks, 0, 0);
    }
    (w, content)
}

#[test]
fn sample_8_most_descriptors() {
    let (w, content) = many(255, true, 300);
    let place = B + 16 * 256 + 2 * 254 + 1;
    check(w, B, B, Ok((place, 255)), &content);
    let (w, _) = many(256, true, 300);
    check(w, B, B, Err(2), &[]);
}

#[test]
fn refusal_1_top_of_memory() {
    for (base, want) in [(0u64.wrapping_sub(255), Err(1)), (u64::MAX, Err(1)), (0u64.wrapping_sub(256), Err(6))] {
        let mut w = window(256);
        put_descriptor(&mut w, 0, 0, 0);
        check(w, base, base, want, &[]);
    }
    // Refusal 1 comes before all others.
    let mut w = window(256);
    assert_eq!(gather(&mut w, u64::MAX - 254, 1), Err(1));
    // An empty window at the top is not refused by 1.
    assert_eq!(gather(&mut [], u64::MAX, 0), Err(3));
    assert_eq!(gather(&mut [0], u64::MAX, 0), Err(3));
    assert_eq!(gather(&mut [0, 0], u64::MAX, 0), Err(1));
}

#[test]
fn refusal_3_descriptor_address() {
    for (first, want) in [
        (B - 8, Err(3)),
        (B, Err(6)),
        (B + 1, Err(3)),
        (B + 4, Err(3)),
        (B + 8, Err(6)),
        (B + 240, Err(6)),
        (B + 248, Err(3)),
        (B + 256, Err(3)),
        (0, Err(3)),
        (u64::MAX - 7, Err(3)),
        (u64::MAX, Err(3)),
    ] {
        check(vec![0; 256], B, first, want, &[]);
    }
}

#[test]
fn the_address_is_a_multiple_of_8_not_the_offset() {
    // Base 0x1001: offset 7 is address 0x1008.
    check(vec![0; 64], 0x1001, 0x1008, Err(6), &[]);
    check(vec![0; 64], 0x1001, 0x1009, Err(3), &[]);
    check(vec![0; 64], 0x1001, 0x1001, Err(3), &[]);
    // The last whole descriptor of a window that ends at 0x1041 starts at 0x1030; one that ends at 0x1040 too.
    check(vec![0; 64], 0x1001, 0x1030, Err(6), &[]);
    check(vec![0; 64], 0x1001, 0x1038, Err(3), &[]);
    check(vec![0; 63], 0x1001, 0x1030, Err(6), &[]);
    check(vec![0; 62], 0x1001, 0x1030, Err(3), &[]);
}

#[test]
fn next_descriptor_at_the_top_is_3() {
    let base = 0u64.wrapping_sub(32);
    let mut w = vec![0u8; 32];
    put_descriptor(&mut w, 16, 1, base);
    check(w, base, base + 16, Err(3), &[]);
}

#[test]
fn a_jump_is_tested_when_it_is_read() {
    for (to, want) in [(B + 32, Err(6)), (B + 33, Err(3)), (B - 16, Err(3)), (1, Err(3)), (u64::MAX, Err(3))] {
        let mut w = vec![0u8; 48];
        put_descriptor(&mut w, 0, 0, to);
        check(w, B, B, want, &[]);
    }
}

#[test]
fn blocks_at_both_ends() {
    for (length, address, want) in [
        (4, B - 1, Err(4)),
        (4, B - 4, Err(4)),
        (1, B - 1, Err(4)),
        (4, B, Ok((B + 32, 4))),
        (4, B + 252, Ok((B + 32, 4))),
        (4, B + 253, Err(4)),
        (1, B + 255, Ok((B + 32, 1))),
        (1, B + 256, Err(4)),
        (256, B, Err(7)),
        (257, B, Err(4)),
        (257, B - 1, Err(4)),
        (u64::MAX, u64::MAX, Err(4)),
        (1, u64::MAX, Err(4)),
        (u64::MAX - B + 1, B, Err(4)),
        (2, 0, Err(4)),
    ] {
        let mut w = window(256);
        put_descriptor(&mut w, 0, length, address);
        put_descriptor(&mut w, 16, 0, 0);
        check(w, B, B, want, &[(length, address)]);
    }
}

#[test]
fn count_comes_before_address_and_after_block() {
    // 256 data descriptors up to the window's end: the 257th would lie outside, and the answer is 2.
    let mut w = vec![0u8; 16 * 256];
    for i in 0..256 {
        put_descriptor(&mut w, 16 * i, 1, B);
    }
    check(w.clone(), B, B, Err(2), &[]);
    // The 256th's own block counts first.
    put_descriptor(&mut w, 16 * 255, 1, B - 1);
    check(w.clone(), B, B, Err(4), &[]);
    // The 256th jumps to 1: 2.
    put_descriptor(&mut w, 16 * 255, 0, 1);
    check(w.clone(), B, B, Err(2), &[]);
    // The 255th jumps to 1: 3.
    put_descriptor(&mut w, 16 * 254, 0, 1);
    check(w.clone(), B, B, Err(3), &[]);
    // 255 data descriptors, then the window's end: 3.
    w.truncate(16 * 255);
    put_descriptor(&mut w, 16 * 254, 1, B);
    check(w, B, B, Err(3), &[]);
}

#[test]
fn a_loop_meets_2_or_5() {
    for (length, want) in [(131_072u64, Err(2)), (131_073, Err(5)), (1, Err(2))] {
        let mut w = vec![0u8; 131_200];
        put_descriptor(&mut w, 0, length, B + 32);
        put_descriptor(&mut w, 16, 0, B);
        check(w, B, B, want, &[]);
    }
}

#[test]
fn totals_at_the_limit() {
    // 128 blocks of 131,072 bytes are 16,777,216: good, but no place (7); one byte more: 5.
    for (extra, want) in [(0u64, Err(7)), (1, Err(5))] {
        let mut w = vec![0u8; 135_168];
        for i in 0..128 {
            let length = 131_072 + if i == 127 { extra } else { 0 };
            put_descriptor(&mut w, 16 * i, length, B + 4_095);
        }
        put_descriptor(&mut w, 16 * 128, 0, 0);
        check(w, B, B, want, &[]);
    }
}

#[test]
fn a_total_of_16_mib_is_gathered() {
    let n = 64 + 16_777_216 + 131_072;
    let mut w = vec![0u8; n];
    let blocks: Vec<(u64, u64)> = (0..128).map(|_| (131_072, B + 4_096)).collect();
    let mut i = 0;
    for &(length, address) in &blocks {
        put_descriptor(&mut w, 16 * i, length, address);
        i += 1;
    }
    put_descriptor(&mut w, 16 * i, 0, 0);
    w.extend(std::iter::repeat(0).take(4_096 - 64));
    check(w.clone(), B, B, Ok((B + 4_096 + 131_072, 16_777_216)), &blocks);
    w.truncate(n + 4_096 - 64 - 1);
    check(w, B, B, Err(7), &[]);
}

#[test]
fn block_4_comes_before_total_5() {
    let mut w = vec![0u8; 131_200];
    put_descriptor(&mut w, 0, 16_777_217, B);
    check(w, B, B, Err(4), &[]);
}

#[test]
fn the_place_may_be_the_window_start_and_need_not_be_aligned() {
    let mut w = window(64);
    put_descriptor(&mut w, 16, 5, B + 50);
    put_descriptor(&mut w, 32, 0, 0);
    check(w, B, B + 16, Ok((B, 5)), &[(5, B + 50)]);
    let mut w = window(64);
    put_descriptor(&mut w, 16, 5, B);
    put_descriptor(&mut w, 32, 0, 0);
    check(w, B, B + 16, Ok((B + 5, 5)), &[(5, B)]);
}

#[test]
fn no_place_or_just_one() {
    for (n, want) in [(39, Err(7)), (40, Ok((B + 36, 4))), (41, Ok((B + 36, 4)))] {
        let mut w = window(n);
        put_descriptor(&mut w, 0, 4, B + 32);
        put_descriptor(&mut w, 16, 0, 0);
        check(w, B, B, want, &[(4, B + 32)]);
    }
}

#[test]
fn shared_bytes_are_allowed() {
    // Two equal blocks, a block on a descriptor, a block over both.
    let blocks = [(8, B + 64), (8, B + 64), (4, B + 68), (16, B)];
    let mut w = window(256);
    for (i, &(length, address)) in blocks.iter().enumerate() {
        put_descriptor(&mut w, 16 * i, length, address);
    }
    put_descriptor(&mut w, 64, 0, 0);
    // The end descriptor stands at 64: its bytes are shared with the blocks there.
    check(w, B, B, Ok((B + 80, 36)), &blocks);
}

#[test]
fn two_descriptors_may_share_bytes() {
    // Base 0: the descriptor at 0 jumps to 8, where Length is 8 and Address is 40.
    let mut w = window(64);
    put_descriptor(&mut w, 0, 0, 8);
    w[16..24].copy_from_slice(&40u64.to_le_bytes());
    put_descriptor(&mut w, 24, 0, 0);
    check(w, 0, 0, Ok((48, 8)), &[(8, 40)]);
}

#[test]
fn jumps_and_the_end_are_kept_free_of_the_place() {
    // Block and jump at 0 and 16, the end at 40: the 8 bytes between 32 and 40 are free, then 56 on.
    for (length, place) in [(8u64, 32u64), (9, 56)] {
        let mut w = window(96);
        put_descriptor(&mut w, 0, length, B + 80);
        put_descriptor(&mut w, 16, 0, B + 40);
        put_descriptor(&mut w, 40, 0, 0);
        check(w, B, B, Ok((B + place, length)), &[(length, B + 80)]);
    }
}

#[test]
fn the_scan_agrees_with_trying_every_start() {
    // The lowest free start (G12), tried start by start.
    let mut draw = second::inputs::Draw::new(5);
    for _ in 0..300 {
        let used: Vec<bool> = (0..40).map(|_| draw.below(5) == 0).collect();
        for total in 1..10usize {
            let tried = (0..=40 - total).find(|&start| (start..start + total).all(|i| !used[i]));
            assert_eq!(second::gather::lowest_free(&used, total as u128), tried.map(|p| p as u128));
        }
    }
}
